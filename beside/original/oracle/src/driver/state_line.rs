//! The whole link on one line, as a scenario's `state` prints it.

use fe2o3_amqp_types::definitions::DeliveryTag;
use fe2o3_amqp_types::messaging::DeliveryState;
use tokio::sync::oneshot;

use super::answers::{number_text, outcome_text};
use super::player::Player;
use super::text::{hex, state_text};
use crate::link::delivery::UnsettledMessage;
use crate::link::resumption::ResumingDelivery;
use crate::link::LinkStateError;
use crate::Payload;

type Sender = oneshot::Sender<Result<Option<DeliveryState>, LinkStateError>>;

pub(super) fn text(player: &Player) -> String {
    let link = &player.endpoint.inner.link;
    let flow = link.flow_state.state().lock.read();
    let table = link.unsettled.read();
    let entries = table.iter().flat_map(|map| map.iter());
    let resume = player.resume.iter();
    format!(
        "{:?} output={} input={} count={} credit={} limit={} table=[{}] resume=[{}] resend=[{}] seats=[{}]",
        link.local_state,
        number_text(link.output_handle.as_ref().map(|h| h.0)),
        number_text(link.input_handle.as_ref().map(|h| h.0)),
        flow.delivery_count,
        flow.link_credit,
        link.max_message_size,
        joined(entries.map(|(tag, message)| player.entry(tag, message))),
        joined(resume.map(|(tag, item)| player.resuming(tag, item))),
        joined(player.resend.iter().map(|message| player.unnamed(message))),
        player.seats(),
    )
}

fn joined(parts: impl Iterator<Item = String>) -> String {
    parts.collect::<Vec<_>>().join(" ")
}

impl Player {
    /// `START+LENGTH:STATE:FORMAT:TICKET`, where START is counted in the pool.
    fn message(&self, payload: &Payload, state: &str, format: u32, sender: &Sender) -> String {
        let length = payload.len();
        // An empty part of the pool lies nowhere.
        let start = match length {
            0 => 0,
            _ => payload.as_ptr() as usize - self.pool.as_ptr() as usize,
        };
        let ticket = self.numbers[&sender.id()];
        format!("{start}+{length}:{state}:{format}:{ticket}")
    }

    fn unnamed(&self, message: &UnsettledMessage) -> String {
        let state = state_text(&message.state);
        self.message(
            &message.payload,
            &state,
            message.message_format,
            &message.sender,
        )
    }

    fn entry(&self, tag: &DeliveryTag, message: &UnsettledMessage) -> String {
        format!("{}:{}", hex(&tag.0), self.unnamed(message))
    }

    fn resuming(&self, tag: &DeliveryTag, item: &ResumingDelivery) -> String {
        match item {
            ResumingDelivery::Resend(message) => format!("resend:{}", self.entry(tag, message)),
            ResumingDelivery::Resume(message) => format!("resume:{}", self.entry(tag, message)),
            ResumingDelivery::Abort { message_format, .. } => {
                format!("abort:{}:{message_format}", hex(&tag.0))
            }
            ResumingDelivery::RestateOutcome {
                payload,
                local_state,
                message_format,
                sender,
            } => {
                let state = state_text(&Some(local_state.clone()));
                let message = self.message(payload, &state, *message_format, sender);
                format!("restate:{}:{message}", hex(&tag.0))
            }
        }
    }

    fn seats(&self) -> String {
        let mut seats: Vec<_> = self.tickets.iter().collect();
        seats.sort_by_key(|(number, _)| *number);
        joined(seats.into_iter().map(|(number, ticket)| {
            let outcome = outcome_text(ticket.look()).replace(' ', "=");
            format!("{number}:{outcome}")
        }))
    }
}
