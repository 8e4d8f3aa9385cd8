//! How many bytes headers have in the standard's shortest forms (Part 1, 1.6; Part 2, 2.7), nulls at a list's end left out.

use serde_amqp::{Encode, Size};

use crate::conditions::CONDITIONS;
use crate::definitions::{DeliveryTag, Error};
use crate::messaging::DeliveryState;
use crate::performatives::{Attach, Disposition, Transfer};

fn number(n: u64, wide: usize) -> usize {
    match n {
        0 => 1,
        1..=255 => 2,
        _ => wide,
    }
}

fn uint(n: u32) -> usize {
    number(n.into(), 5)
}

fn flag(is_set: bool) -> Option<usize> {
    is_set.then_some(1)
}

fn tag(tag: &DeliveryTag) -> usize {
    2 + tag.0.len()
}

/// A described list of fields, of which some are null.
fn described(fields: &[Option<usize>]) -> usize {
    let kept = fields.iter().rposition(Option::is_some).map_or(0, |i| i + 1);
    let sizes = fields[..kept].iter().map(|field| field.unwrap_or(1));
    3 + if kept == 0 { 1 } else { 3 } + sizes.sum::<usize>()
}

fn error(error: &Error) -> usize {
    described(&[Some(7 + CONDITIONS[error.0 as usize - 1].len())])
}

fn state(state: &DeliveryState) -> usize {
    match state {
        DeliveryState::Received(r) => {
            described(&[Some(uint(r.section_number)), Some(number(r.section_offset, 9))])
        }
        DeliveryState::Accepted(_) | DeliveryState::Released(_) => described(&[]),
        DeliveryState::Rejected(r) => described(&[r.error.as_ref().map(error)]),
        DeliveryState::Modified(m) => described(&[
            m.delivery_failed.map(|_| 1),
            m.undeliverable_here.map(|_| 1),
        ]),
    }
}

impl Encode for Transfer {
    fn encode(&self) -> Size {
        Size(described(&[
            Some(uint(self.handle.0)),
            self.delivery_id.map(uint),
            self.delivery_tag.as_ref().map(tag),
            self.message_format.map(uint),
            self.settled.map(|_| 1),
            flag(self.more),
            None,
            self.state.as_ref().map(state),
            flag(self.resume),
            flag(self.aborted),
            flag(self.batchable),
        ]))
    }
}

impl Encode for Disposition {
    fn encode(&self) -> Size {
        Size(described(&[
            Some(1),
            Some(uint(self.first)),
            self.last.map(uint),
            flag(self.settled),
            self.state.as_ref().map(state),
            flag(self.batchable),
        ]))
    }
}

impl Encode for Attach {
    /// About so many: it is compared with a frame size that no attach reaches.
    fn encode(&self) -> Size {
        let pairs = self.unsettled.iter().flat_map(|map| map.iter());
        let listed = pairs.map(|(key, value)| tag(key) + value.as_ref().map_or(1, state));
        Size(64 + self.name.len() + listed.sum::<usize>())
    }
}
