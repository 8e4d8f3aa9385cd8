//! Values as the library has them, and back.

use crate::{DeliveryState, Transfer, raw};

fn mark(mark: Option<bool>) -> u8 {
    match mark {
        None => 0,
        Some(false) => 1,
        Some(true) => 2,
    }
}

fn unmark(mark: u8) -> Option<bool> {
    match mark {
        0 => None,
        1 => Some(false),
        _ => Some(true),
    }
}

fn state(state: Option<DeliveryState>) -> raw::State {
    let bare = |code| raw::State { code, ..raw::State::default() };
    match state {
        None => bare(0),
        Some(DeliveryState::Received { section, offset }) => raw::State {
            section_number: section,
            section_offset: offset,
            ..bare(0x23)
        },
        Some(DeliveryState::Accepted) => bare(0x24),
        Some(DeliveryState::Rejected { condition }) => raw::State { condition, ..bare(0x25) },
        Some(DeliveryState::Released) => bare(0x26),
        Some(DeliveryState::Modified { failed, undeliverable }) => raw::State {
            delivery_failed: mark(failed),
            undeliverable_here: mark(undeliverable),
            ..bare(0x27)
        },
    }
}

fn found(state: &raw::State) -> Option<DeliveryState> {
    match state.code {
        0 => None,
        0x23 => Some(DeliveryState::Received {
            section: state.section_number,
            offset: state.section_offset,
        }),
        0x24 => Some(DeliveryState::Accepted),
        0x25 => Some(DeliveryState::Rejected { condition: state.condition }),
        0x26 => Some(DeliveryState::Released),
        _ => Some(DeliveryState::Modified {
            failed: unmark(state.delivery_failed),
            undeliverable: unmark(state.undeliverable_here),
        }),
    }
}

impl Transfer {
    /// None where the tag is too long: its bytes would not find room.
    pub(crate) fn to_raw(&self) -> Option<raw::Transfer> {
        let bytes = self.delivery_tag.as_deref().unwrap_or_default();
        let mut tag = [0; 32];
        tag.get_mut(..bytes.len())?.copy_from_slice(bytes);
        Some(raw::Transfer {
            handle: self.handle,
            delivery_id: self.delivery_id.unwrap_or_default(),
            message_format: self.message_format.unwrap_or_default(),
            has_delivery_id: self.delivery_id.is_some().into(),
            has_tag: self.delivery_tag.is_some().into(),
            has_message_format: self.message_format.is_some().into(),
            settled: mark(self.settled),
            more: self.more.into(),
            resume: self.resume.into(),
            aborted: self.aborted.into(),
            batchable: self.batchable.into(),
            tag_len: bytes.len() as u8,
            tag,
            state: state(self.state),
        })
    }

    pub(crate) fn from_raw(raw: &raw::Transfer) -> Transfer {
        Transfer {
            handle: raw.handle,
            delivery_id: (raw.has_delivery_id != 0).then_some(raw.delivery_id),
            delivery_tag: (raw.has_tag != 0).then(|| raw.tag[..raw.tag_len.into()].to_vec()),
            message_format: (raw.has_message_format != 0).then_some(raw.message_format),
            settled: unmark(raw.settled),
            more: raw.more != 0,
            state: found(&raw.state),
            resume: raw.resume != 0,
            aborted: raw.aborted != 0,
            batchable: raw.batchable != 0,
        }
    }
}
