//! What calls answer, as it is printed.

use fe2o3_amqp_types::messaging::DeliveryState;
use tokio::sync::oneshot;

use super::text::{state_text, stop_reason_text, yes_no};
use crate::endpoint::LinkFlow;
use crate::link::{ApplyRemoteDetachError, LinkStateError, SendError};

/// What a ticket tells.
pub(super) type Outcome = oneshot::Slot<Result<Option<DeliveryState>, LinkStateError>>;

pub(super) fn outcome_text(outcome: Outcome) -> String {
    match outcome {
        oneshot::Slot::Pending => "pending".to_string(),
        oneshot::Slot::Dropped => "dropped".to_string(),
        oneshot::Slot::Value(Ok(state)) => state_text(&state),
        oneshot::Slot::Value(Err(LinkStateError::RemoteClosedWithError(error))) => {
            format!("RemoteClosedWithError {}", error.0)
        }
        oneshot::Slot::Value(Err(error)) => format!("{error:?}"),
    }
}

pub(super) fn number_text(number: Option<u32>) -> String {
    number.map_or("none".to_string(), |n| n.to_string())
}

/// A link that is not open has no handle, but its relay, which only the driver makes then, needs one.
pub(super) fn flow_text(flow: &LinkFlow, is_open: bool) -> String {
    format!(
        "handle={} count={} credit={} available={} drain={} echo={}",
        number_text(is_open.then_some(flow.handle.0)),
        number_text(flow.delivery_count),
        number_text(flow.link_credit),
        number_text(flow.available),
        yes_no(flow.drain),
        yes_no(flow.echo)
    )
}

pub(super) fn link_state_text(error: &LinkStateError) -> String {
    match error {
        LinkStateError::SessionStopped(reason) => {
            format!("refused 15 {}", stop_reason_text(reason))
        }
        _ => "refused 2".to_string(),
    }
}

pub(super) fn send_error_text(error: SendError) -> String {
    match error {
        SendError::LinkStateError(error) => link_state_text(&error),
        SendError::MessageSizeExceeded(_) => "refused 8".to_string(),
        other => format!("{other:?}"),
    }
}

pub(super) fn detached_text(result: Result<(), ApplyRemoteDetachError>) -> String {
    match result {
        Ok(()) => "done".to_string(),
        Err(ApplyRemoteDetachError::RemoteDetachedWithError(error)) => {
            format!("RemoteDetachedWithError {}", error.0)
        }
        Err(ApplyRemoteDetachError::RemoteClosedWithError(error)) => {
            format!("RemoteClosedWithError {}", error.0)
        }
        Err(ApplyRemoteDetachError::IllegalState) => "refused 2".to_string(),
    }
}
