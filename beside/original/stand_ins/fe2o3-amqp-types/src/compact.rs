//! Bytes of headers in the standard's shortest forms (Part 1, 1.6; Part 2, 2.7), nulls at a list's end left out.

use serde_amqp::Encode;

use crate::conditions::CONDITIONS;
use crate::definitions::{DeliveryTag, Error, Role};
use crate::messaging::DeliveryState;
use crate::performatives::{Attach, Disposition, Transfer};

const NULL: u8 = 0x40;
const TRUE: u8 = 0x41;
const FALSE: u8 = 0x42;

fn uint(n: u32) -> Vec<u8> {
    match u8::try_from(n) {
        Ok(0) => vec![0x43],
        Ok(n) => vec![0x52, n],
        Err(_) => [&[0x70], &n.to_be_bytes()[..]].concat(),
    }
}

fn ulong(n: u64) -> Vec<u8> {
    match u8::try_from(n) {
        Ok(0) => vec![0x44],
        Ok(n) => vec![0x53, n],
        Err(_) => [&[0x80], &n.to_be_bytes()[..]].concat(),
    }
}

fn boolean(b: bool) -> Vec<u8> {
    vec![if b { TRUE } else { FALSE }]
}

/// A truth value whose default is false.
fn flag(b: bool) -> Vec<u8> {
    vec![if b { TRUE } else { NULL }]
}

fn short(code: u8, bytes: &[u8]) -> Vec<u8> {
    [&[code, bytes.len() as u8], bytes].concat()
}

fn tag(tag: &DeliveryTag) -> Vec<u8> {
    short(0xa0, &tag.0)
}

fn or_null<T>(value: Option<T>, encode: impl Fn(T) -> Vec<u8>) -> Vec<u8> {
    value.map_or(vec![NULL], encode)
}

fn described(code: u8, mut fields: Vec<Vec<u8>>) -> Vec<u8> {
    while fields.last().is_some_and(|field| *field == [NULL]) {
        fields.pop();
    }
    let mut bytes = vec![0x00, 0x53, code];
    if fields.is_empty() {
        bytes.push(0x45);
    } else {
        let body = fields.concat();
        bytes.extend([0xc0, body.len() as u8 + 1, fields.len() as u8]);
        bytes.extend(body);
    }
    bytes
}

fn error(error: &Error) -> Vec<u8> {
    let name = format!("amqp:{}", CONDITIONS[error.0 as usize - 1]);
    described(0x1d, vec![short(0xa3, name.as_bytes())])
}

fn state(state: &DeliveryState) -> Vec<u8> {
    match state {
        DeliveryState::Received(r) => {
            described(0x23, vec![uint(r.section_number), ulong(r.section_offset)])
        }
        DeliveryState::Accepted(_) => described(0x24, vec![]),
        DeliveryState::Rejected(r) => described(0x25, vec![or_null(r.error.as_ref(), error)]),
        DeliveryState::Released(_) => described(0x26, vec![]),
        DeliveryState::Modified(m) => described(
            0x27,
            vec![
                or_null(m.delivery_failed, boolean),
                or_null(m.undeliverable_here, boolean),
            ],
        ),
    }
}

impl Encode for Transfer {
    fn encode(&self) -> Vec<u8> {
        described(
            0x14,
            vec![
                uint(self.handle.0),
                or_null(self.delivery_id, uint),
                or_null(self.delivery_tag.as_ref(), tag),
                or_null(self.message_format, uint),
                or_null(self.settled, boolean),
                flag(self.more),
                vec![NULL],
                or_null(self.state.as_ref(), state),
                flag(self.resume),
                flag(self.aborted),
                flag(self.batchable),
            ],
        )
    }
}

impl Encode for Disposition {
    fn encode(&self) -> Vec<u8> {
        described(
            0x15,
            vec![
                boolean(self.role == Role::Receiver),
                uint(self.first),
                or_null(self.last, uint),
                flag(self.settled),
                or_null(self.state.as_ref(), state),
                flag(self.batchable),
            ],
        )
    }
}

impl Encode for Attach {
    /// Only its length is asked for, against a frame size: the name, the handle, the role, the map and what follows it.
    fn encode(&self) -> Vec<u8> {
        let pairs: Vec<u8> = self
            .unsettled
            .iter()
            .flat_map(|map| map.iter())
            .flat_map(|(key, value)| [tag(key), or_null(value.as_ref(), state)].concat())
            .collect();
        [
            short(0xa1, self.name.as_bytes()),
            uint(self.handle.0),
            boolean(self.role == Role::Receiver),
            pairs,
            flag(self.incomplete_unsettled),
            or_null(self.initial_delivery_count, uint),
            or_null(self.max_message_size, ulong),
        ]
        .concat()
    }
}
