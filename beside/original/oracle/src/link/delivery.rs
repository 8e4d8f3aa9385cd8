// From fe2o3-amqp 0.18.4 (https://github.com/minghuaw/fe2o3-amqp), licensed under MIT OR Apache-2.0; NOTICE has the texts.
// What stands between `// >>> FILE` and `// <<<` is that file's text, unchanged; the rest is ours.
use fe2o3_amqp_types::messaging::DeliveryState;
use tokio::sync::oneshot;

use super::LinkStateError;
use crate::{util::AsDeliveryState, Payload};

// >>> src/link/delivery.rs
/// An unsettled message stored in the Sender's unsettled map
#[derive(Debug)]
pub(crate) struct UnsettledMessage {
    pub(crate) payload: Payload,
    pub(crate) state: Option<DeliveryState>,
    pub(crate) message_format: u32,
    pub(crate) sender: oneshot::Sender<Result<Option<DeliveryState>, LinkStateError>>,
}

impl UnsettledMessage {
    pub fn new(
        payload: Payload,
        state: Option<DeliveryState>,
        message_format: u32,
        sender: oneshot::Sender<Result<Option<DeliveryState>, LinkStateError>>,
    ) -> Self {
        Self {
            payload,
            state,
            message_format,
            sender,
        }
    }

    pub fn settle(self) -> Result<(), Result<Option<DeliveryState>, LinkStateError>> {
        self.sender.send(Ok(self.state))
    }

    pub fn settle_with_state(
        self,
        state: Option<DeliveryState>,
    ) -> Result<(), Result<Option<DeliveryState>, LinkStateError>> {
        self.sender.send(Ok(state))
    }

    /// Fail the pending settlement with a link-state error (e.g. the remote
    /// closed the link while the delivery was still unsettled).
    pub fn fail(
        self,
        error: LinkStateError,
    ) -> Result<(), Result<Option<DeliveryState>, LinkStateError>> {
        self.sender.send(Err(error))
    }
}

impl AsDeliveryState for UnsettledMessage {
    fn as_delivery_state(&self) -> &Option<DeliveryState> {
        &self.state
    }
}
// <<<
