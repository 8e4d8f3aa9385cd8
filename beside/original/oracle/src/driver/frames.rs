//! Frames as they are printed.

use serde_amqp::Encode;
use tokio::sync::mpsc;

use super::text::hex;
use crate::link::LinkFrame;

/// Kind, handle, header and payload.
struct Parts {
    kind: u16,
    handle: u32,
    header: Vec<u8>,
    payload: Vec<u8>,
}

fn parts(frame: LinkFrame) -> Option<Parts> {
    let (kind, transfer) = match frame {
        LinkFrame::FirstTransfer(transfer) => (1, transfer),
        LinkFrame::TransferContinuation(transfer) => (2, transfer),
        LinkFrame::Disposition(disposition) => {
            return Some(Parts {
                kind: 3,
                handle: 0,
                header: disposition.encode(),
                payload: vec![],
            })
        }
        LinkFrame::Attach(_) | LinkFrame::Detach(_) => return None,
    };
    Some(Parts {
        kind,
        handle: transfer.input_handle.0,
        header: transfer.performative.encode(),
        payload: transfer.payload.to_vec(),
    })
}

fn taken(wire: &mut mpsc::Receiver<LinkFrame>) -> impl Iterator<Item = Parts> + '_ {
    std::iter::from_fn(|| wire.try_recv()).filter_map(parts)
}

/// The oldest frame.
pub(super) fn take(wire: &mut mpsc::Receiver<LinkFrame>) -> String {
    match taken(wire).next() {
        Some(p) => format!(
            "kind={} handle={} header={} payload={}",
            p.kind,
            p.handle,
            hex(&p.header),
            hex(&p.payload)
        ),
        None => "none".to_string(),
    }
}

/// All frames that wait, as records.
pub(super) fn empty(wire: &mut mpsc::Receiver<LinkFrame>) -> String {
    let mut bytes = vec![];
    for p in taken(wire) {
        let rest = 8 + p.header.len() + p.payload.len();
        bytes.extend((rest as u32).to_le_bytes());
        bytes.extend(p.kind.to_le_bytes());
        bytes.extend(p.handle.to_le_bytes());
        bytes.extend((p.header.len() as u16).to_le_bytes());
        bytes.extend(p.header);
        bytes.extend(p.payload);
    }
    hex(&bytes)
}
