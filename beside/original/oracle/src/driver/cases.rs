//! Cases of single functions. beside/README.md has the list.

use std::sync::Arc;

use fe2o3_amqp_types::messaging::DeliveryState;
use fe2o3_amqp_types::primitives::OrderedMap;
use parking_lot::RwLock;
use tokio::sync::oneshot;

use super::answers::flow_text;
use super::endpoint::{flow_state, poll_once, Endpoint, Settings};
use super::states;
use super::text::{
    bytes, hex, number, optional, pair, pair_text, sender_mode, state, state_text, tag, truth,
    yes_no,
};
use crate::endpoint::{LinkFlow, OutputHandle};
use crate::link::delivery::UnsettledMessage;
use crate::link::receiver_link::is_section_header;
use crate::link::resumption::{place, resume_delivery, ResumingDelivery};
use crate::link::state::LinkFlowState;
use crate::link::{get_max_message_size, UnsettledMap};
use crate::util::{Consume, Consumer};
use crate::Payload;

pub(super) fn answer(words: &[&str]) -> String {
    match *words {
        ["search", message, section, offset] => search(message, section, offset),
        ["places", message, sections, offsets] => places(message, sections, offsets),
        ["codes", first, second] => codes(bytes(first)[0], bytes(second)[0]),
        ["resume", local, peer, message] => resume(local, peer, message),
        ["flow", initial, count, credit, ref flow @ ..] => {
            flowed([initial, count, credit].map(number), flow)
        }
        ["consume", count, credit] => consume(number(count), number(credit)),
        ["limit", own, peer] => {
            get_max_message_size(number(own), optional(peer, number)).to_string()
        }
        ["settles", mode, asked] => settles(mode, asked),
        ["map", ref steps @ ..] => map(steps),
        ["show", reattaching, denominator, ref pairs @ ..] => show(reattaching, denominator, pairs),
        _ => states::answer(words),
    }
}

fn start(message: &Payload, section: u32, offset: u64) -> Option<usize> {
    let rest = place(message, section as usize, offset as usize)?;
    Some(message.len() - rest.len())
}

fn search(message: &str, section: &str, offset: &str) -> String {
    let message = Payload::from(bytes(message));
    start(&message, number(section), number(offset)).map_or("none".to_string(), |i| i.to_string())
}

/// All places of the first sections, at the first offsets of each.
fn places(message: &str, sections: &str, offsets: &str) -> String {
    let message = Payload::from(bytes(message));
    let (sections, offsets): (u32, u64) = (number(sections), number(offsets));
    let texts: Vec<String> = (0..sections)
        .flat_map(|section| (0..offsets).map(move |offset| (section, offset)))
        .map(|(section, offset)| start(&message, section, offset))
        .map(|found| found.map_or("-".to_string(), |i| i.to_string()))
        .collect();
    texts.join(" ")
}

/// The third bytes with which these two begin a section.
fn codes(first: u8, second: u8) -> String {
    let thirds: Vec<u8> = (0..=255)
        .filter(|&third| is_section_header(first, second, third))
        .collect();
    hex(&thirds)
}

fn resume(local: &str, peer: &str, message: &str) -> String {
    let message = Payload::from(bytes(message));
    let length = message.len();
    let (sender, outcome) = oneshot::channel();
    let entry = UnsettledMessage::new(message, optional(local, state), 0, sender);
    let peer = (peer != "absent").then(|| optional(peer, state));
    match resume_delivery(entry, peer) {
        Some(ResumingDelivery::Resend(_)) => "resend".to_string(),
        Some(ResumingDelivery::Resume(rest)) => format!("resume {}", length - rest.payload.len()),
        Some(ResumingDelivery::Abort { .. }) => "abort".to_string(),
        Some(ResumingDelivery::RestateOutcome { local_state, .. }) => {
            format!("restate {}", state_text(&Some(local_state)))
        }
        None => match outcome.look() {
            oneshot::Slot::Value(Ok(state)) => format!("end {}", state_text(&state)),
            other => format!("end {other:?}"),
        },
    }
}

fn flowed([initial, count, credit]: [u32; 3], words: &[&str]) -> String {
    let state = LinkFlowState::sender(flow_state(initial, count, credit));
    let flow = LinkFlow {
        delivery_count: optional(words[0], number),
        link_credit: optional(words[1], number),
        drain: truth(words[2]),
        echo: truth(words[3]),
        ..Default::default()
    };
    let answer = state.on_incoming_flow(flow, OutputHandle(7));
    let now = state.lock.read();
    let text = answer.map_or("none".to_string(), |flow| flow_text(&flow, true));
    let (count, credit) = (now.delivery_count, now.link_credit);
    format!("count={count} credit={credit} answer {text}")
}

fn consume(count: u32, credit: u32) -> String {
    let state = Arc::new(LinkFlowState::sender(flow_state(0, count, credit)));
    let consumer = Consumer::new(Default::default(), state.clone());
    let Some(tag) = poll_once(consumer.consume(1)) else {
        return "waits".to_string();
    };
    let now = state.lock.read();
    let (count, credit) = (now.delivery_count, now.link_credit);
    format!("tag={} count={count} credit={credit}", hex(&tag))
}

fn settles(mode: &str, asked: &str) -> String {
    let mut endpoint = Endpoint::new(Settings {
        snd_settle_mode: sender_mode(mode),
        ..Settings::default()
    });
    let link = &mut endpoint.inner.link;
    link.output_handle = Some(OutputHandle(0));
    let asked = optional(asked, truth);
    let transfer = link
        .generate_non_resuming_transfer_performative(tag("00"), 0, asked, None, false)
        .expect("a handle");
    yes_no(link.is_settled_on_send(&transfer)).to_string()
}

/// `+TAG=STATE` puts, `-TAG` takes out and `?TAG` looks; then follows what the map holds.
fn map(steps: &[&str]) -> String {
    let mut map: UnsettledMap<Option<DeliveryState>> = OrderedMap::new();
    let found = |state: Option<Option<DeliveryState>>| match state {
        Some(state) => state_text(&state),
        None => "absent".to_string(),
    };
    let mut texts = vec![];
    for step in steps {
        match step.split_at(1) {
            ("+", word) => {
                let (key, value) = pair(word);
                map.insert(key, value);
            }
            ("-", word) => texts.push(found(map.swap_remove(&tag(word)))),
            (_, word) => texts.push(found(map.get(&tag(word)).cloned())),
        }
    }
    texts.push("holds".to_string());
    texts.extend(map.iter().map(|(key, value)| pair_text(key, value)));
    texts.join(" ")
}

pub(super) fn entry(state: Option<DeliveryState>) -> UnsettledMessage {
    UnsettledMessage::new(Payload::new(), state, 0, oneshot::channel().0)
}

fn show(reattaching: &str, denominator: &str, pairs: &[&str]) -> String {
    let mut endpoint = Endpoint::new(Settings::default());
    let map = pairs.iter().map(|word| pair(word));
    let entries = map.map(|(tag, state)| (tag, entry(state))).collect();
    endpoint.inner.link.unsettled = Arc::new(RwLock::new(Some(entries)));
    shown(&endpoint, truth(reattaching), number(denominator))
}

pub(super) fn shown(endpoint: &Endpoint, reattaching: bool, denominator: usize) -> String {
    match endpoint.inner.link.shown(reattaching, denominator) {
        Some(map) => {
            let pairs = map.iter().map(|(key, value)| pair_text(key, value));
            let mut texts = vec![map.len().to_string()];
            texts.extend(pairs);
            texts.join(" ")
        }
        None => "none".to_string(),
    }
}
