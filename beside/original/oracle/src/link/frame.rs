//! Stands for the original's file of this name.

use fe2o3_amqp_types::performatives::{Attach, Detach, Disposition, Transfer};

use crate::{endpoint::InputHandle, Payload};

#[derive(Debug)]
pub(crate) struct LinkTransfer {
    pub input_handle: InputHandle,
    pub performative: Transfer,
    pub payload: Payload,
}

#[derive(Debug)]
pub(crate) enum LinkFrame {
    Attach(Attach),
    FirstTransfer(LinkTransfer),
    TransferContinuation(LinkTransfer),
    Disposition(Disposition),
    Detach(Detach),
}

pub(crate) type LinkIncomingItem = LinkFrame;

/// A continuation has no delivery id, tag, format, settled flag and state (Part 2, 2.7.5 lets it leave them out).
pub(crate) fn clear_continuation_fields(transfer: &mut Transfer) {
    transfer.delivery_id = None;
    transfer.delivery_tag = None;
    transfer.message_format = None;
    transfer.settled = None;
    transfer.state = None;
}
