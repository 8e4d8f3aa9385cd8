//! The words of a line, read and printed.

use fe2o3_amqp_types::definitions::{DeliveryTag, Error, ReceiverSettleMode, SenderSettleMode};
use fe2o3_amqp_types::messaging::{
    Accepted, DeliveryState, Modified, Received, Rejected, Released,
};

use crate::connection::ConnectionStopReason;
use crate::link::SessionStopReason;

pub(super) fn hex(bytes: &[u8]) -> String {
    if bytes.is_empty() {
        return "-".to_string();
    }
    bytes.iter().map(|byte| format!("{byte:02x}")).collect()
}

pub(super) fn bytes(word: &str) -> Vec<u8> {
    if word == "-" {
        return vec![];
    }
    word.as_bytes()
        .chunks(2)
        .map(|pair| u8::from_str_radix(std::str::from_utf8(pair).unwrap(), 16).unwrap())
        .collect()
}

pub(super) fn tag(word: &str) -> DeliveryTag {
    DeliveryTag(bytes(word))
}

pub(super) fn number<N: std::str::FromStr>(word: &str) -> N {
    word.parse().ok().expect("a number")
}

/// `none` is no value.
pub(super) fn optional<T>(word: &str, read: impl Fn(&str) -> T) -> Option<T> {
    (word != "none").then(|| read(word))
}

pub(super) fn truth(word: &str) -> bool {
    word == "yes"
}

pub(super) fn yes_no(value: bool) -> &'static str {
    if value {
        "yes"
    } else {
        "no"
    }
}

fn mark(word: &str) -> Option<bool> {
    (word != "absent").then(|| truth(word))
}

fn mark_text(mark: Option<bool>) -> &'static str {
    mark.map_or("absent", yes_no)
}

/// A condition's number, or 0 for none.
pub(super) fn condition(word: &str) -> Option<Error> {
    let number = number(word);
    (number != 0).then_some(Error(number))
}

/// The name before the brackets, and the words between them.
fn call(word: &str) -> (&str, Vec<&str>) {
    match word.split_once('(') {
        Some((name, rest)) => {
            let inner = rest.strip_suffix(')').expect("a bracket");
            (name, inner.split(',').collect())
        }
        None => (word, vec![]),
    }
}

pub(super) fn state(word: &str) -> DeliveryState {
    let (name, words) = call(word);
    match name {
        "received" => DeliveryState::Received(Received {
            section_number: number(words[0]),
            section_offset: number(words[1]),
        }),
        "accepted" => DeliveryState::Accepted(Accepted {}),
        "rejected" => DeliveryState::Rejected(Rejected {
            error: condition(words[0]),
        }),
        "released" => DeliveryState::Released(Released {}),
        "modified" => DeliveryState::Modified(Modified {
            delivery_failed: mark(words[0]),
            undeliverable_here: mark(words[1]),
        }),
        _ => panic!("a state: {word}"),
    }
}

pub(super) fn state_text(state: &Option<DeliveryState>) -> String {
    match state {
        None => "none".to_string(),
        Some(DeliveryState::Received(r)) => {
            format!("received({},{})", r.section_number, r.section_offset)
        }
        Some(DeliveryState::Accepted(_)) => "accepted".to_string(),
        Some(DeliveryState::Rejected(r)) => {
            format!("rejected({})", r.error.as_ref().map_or(0, |e| e.0))
        }
        Some(DeliveryState::Released(_)) => "released".to_string(),
        Some(DeliveryState::Modified(m)) => format!(
            "modified({},{})",
            mark_text(m.delivery_failed),
            mark_text(m.undeliverable_here)
        ),
    }
}

/// `TAG=STATE`, where the state may be none.
pub(super) fn pair(word: &str) -> (DeliveryTag, Option<DeliveryState>) {
    let (key, value) = word.split_once('=').expect("a pair");
    (tag(key), optional(value, state))
}

pub(super) fn pair_text(key: &DeliveryTag, value: &Option<DeliveryState>) -> String {
    format!("{}={}", hex(&key.0), state_text(value))
}

pub(super) fn sender_mode(word: &str) -> SenderSettleMode {
    match word {
        "settled" => SenderSettleMode::Settled,
        "unsettled" => SenderSettleMode::Unsettled,
        _ => SenderSettleMode::Mixed,
    }
}

pub(super) fn receiver_mode(word: &str) -> ReceiverSettleMode {
    match word {
        "second" => ReceiverSettleMode::Second,
        _ => ReceiverSettleMode::First,
    }
}

fn connection_reason(word: &str) -> ConnectionStopReason {
    let (name, words) = call(word);
    let error = || Error(number(words[0]));
    match name {
        "Closed" => ConnectionStopReason::Closed,
        "ClosedWithError" => ConnectionStopReason::ClosedWithError(error()),
        "RemoteClosed" => ConnectionStopReason::RemoteClosed,
        _ => ConnectionStopReason::RemoteClosedWithError(error()),
    }
}

pub(super) fn stop_reason(word: &str) -> SessionStopReason {
    if let Some(inner) = word.strip_prefix("ConnectionStopped(") {
        let inner = inner.strip_suffix(')').expect("a bracket");
        return SessionStopReason::ConnectionStopped(connection_reason(inner));
    }
    let (name, words) = call(word);
    let error = || Error(number(words[0]));
    match name {
        "Ended" => SessionStopReason::Ended,
        "EndedWithError" => SessionStopReason::EndedWithError(error()),
        "RemoteEnded" => SessionStopReason::RemoteEnded,
        _ => SessionStopReason::RemoteEndedWithError(error()),
    }
}

/// As the types' own `Debug` prints it, but for an error, which is its number.
pub(super) fn stop_reason_text(reason: &SessionStopReason) -> String {
    format!("{reason:?}")
        .replace("(Error(", "(")
        .replace("))", ")")
}
