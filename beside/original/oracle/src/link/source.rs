//! Stands for the original's file of this name: every source is let through.

use fe2o3_amqp_types::messaging::Source;

use super::SenderAttachError;

pub(crate) trait VerifySource {
    fn verify_as_sender(&self, other: &Source) -> Result<(), SenderAttachError>;
}

impl VerifySource for Source {
    fn verify_as_sender(&self, _other: &Source) -> Result<(), SenderAttachError> {
        Ok(())
    }
}
