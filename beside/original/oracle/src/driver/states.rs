//! Cases of a link's states.

use fe2o3_amqp_types::definitions::{DeliveryTag, Handle};
use fe2o3_amqp_types::performatives::Detach;

use super::cases::entry;
use super::endpoint::{plain_attach, send_attach, Endpoint, Settings};
use super::text::{sender_mode, truth, yes_no};
use crate::endpoint::{LinkAttach, LinkDetach, OutputHandle};
use crate::link::state::LinkState;
use crate::link::SenderAttachError;

pub(super) fn answer(words: &[&str]) -> String {
    match *words {
        ["open", state, incomplete] => open(link_state(state), truth(incomplete)),
        ["attach", state, incomplete] => attach(link_state(state), truth(incomplete)),
        ["detach", state, closed] => detach(link_state(state), truth(closed)),
        ["conflict", own, peer] => conflict(own, peer),
        _ => panic!("no such case: {}", words.join(" ")),
    }
}

fn link_state(word: &str) -> LinkState {
    match word {
        "Unattached" => LinkState::Unattached,
        "AttachSent" => LinkState::AttachSent,
        "IncompleteAttachSent" => LinkState::IncompleteAttachSent,
        "AttachReceived" => LinkState::AttachReceived,
        "IncompleteAttachReceived" => LinkState::IncompleteAttachReceived,
        "Attached" => LinkState::Attached,
        "IncompleteAttachExchanged" => LinkState::IncompleteAttachExchanged,
        "Detached" => LinkState::Detached,
        "Closed" => LinkState::Closed,
        _ => panic!("a link's state: {word}"),
    }
}

fn open(state: LinkState, incomplete: bool) -> String {
    let mut link = Endpoint::new(Settings::default()).inner.link;
    // Two deliveries, so that there is a part of them to tell.
    let tags = [[0; 4], [1; 4]].map(DeliveryTag::from);
    let table = tags.into_iter().map(|tag| (tag, entry(None))).collect();
    *link.unsettled.write() = Some(table);
    link.output_handle = Some(OutputHandle(0));
    link.local_state = state;
    match send_attach(&mut link, incomplete) {
        Some(()) => format!("{:?}", link.local_state),
        None => "refused 2".to_string(),
    }
}

fn attach(state: LinkState, incomplete: bool) -> String {
    let mut link = Endpoint::new(Settings::default()).inner.link;
    link.local_state = state;
    let mut attach = plain_attach(&link);
    attach.incomplete_unsettled = incomplete;
    match link.on_incoming_attach(attach) {
        Ok(_) => format!("{:?}", link.local_state),
        Err(_) => "refused 2".to_string(),
    }
}

fn conflict(own: &str, peer: &str) -> String {
    let mut link = Endpoint::new(Settings {
        snd_settle_mode: sender_mode(own),
        ..Settings::default()
    })
    .inner
    .link;
    let mut attach = plain_attach(&link);
    attach.snd_settle_mode = sender_mode(peer);
    let refused = link.on_incoming_attach(attach);
    let conflicts = matches!(refused, Err(SenderAttachError::SndSettleModeNotSupported));
    yes_no(conflicts).to_string()
}

fn detach(state: LinkState, closed: bool) -> String {
    let mut link = Endpoint::new(Settings::default()).inner.link;
    link.local_state = state;
    let detach = Detach {
        handle: Handle(0),
        closed,
        error: None,
    };
    match link.apply_remote_detach_outcome(detach) {
        Ok(()) => format!("{:?}", link.local_state),
        Err(_) => "refused 2".to_string(),
    }
}
