//! Stands for the original's file of this name: every target is let through.

use fe2o3_amqp_types::messaging::Target;

use super::SenderAttachError;

pub(crate) trait VerifyTargetArchetype: Sized {
    fn verify_as_sender(&self, other: &Self) -> Result<(), SenderAttachError>;
}

impl VerifyTargetArchetype for Target {
    fn verify_as_sender(&self, _other: &Self) -> Result<(), SenderAttachError> {
        Ok(())
    }
}
