//! The original's link, doing the same work.

use std::collections::VecDeque;

use fe2o3_amqp_types::definitions::{DeliveryTag, Handle, Role, SenderSettleMode};
use fe2o3_amqp_types::messaging::{Accepted, DeliveryState, Received};
use fe2o3_amqp_types::performatives::Detach;
use fe2o3_amqp_types::primitives::OrderedMap;
use tokio::sync::{mpsc, oneshot};

use crate::endpoint::{LinkAttach, LinkDetach, LinkFlow, OutputHandle, Settlement};
use crate::link::resumption::{self, ResumingDelivery};
use crate::link::{LinkFrame, LinkRelay, LinkStateError, SendError, SenderAttachExchange};
use crate::Payload;
use endpoint::{plain_attach, poll_once, Endpoint, Settings};

#[allow(dead_code)]
#[path = "../../beside/original/oracle/src/driver/endpoint.rs"]
mod endpoint;

type Ticket = oneshot::Receiver<Result<Option<DeliveryState>, LinkStateError>>;

type PeerMap = OrderedMap<DeliveryTag, Option<DeliveryState>>;

const ACCEPTED: DeliveryState = DeliveryState::Accepted(Accepted {});

/// The position that a place has, or the message's length.
pub fn place(message: &Payload, section: usize, offset: usize) -> usize {
    let rest = resumption::place(message, section, offset);
    message.len() - rest.map_or(0, |rest| rest.len())
}

struct Link {
    endpoint: Endpoint,
    relay: LinkRelay<OutputHandle>,
}

impl Link {
    /// A link that sends unsettled, attached, with credit, over a channel of so many frames.
    fn new(frame: usize, frames: usize) -> Self {
        let mut endpoint = Endpoint::new(Settings {
            snd_settle_mode: SenderSettleMode::Unsettled,
            max_frame_size: frame,
            ..Settings::default()
        });
        let (outgoing, wire) = mpsc::channel(frames);
        endpoint.inner.outgoing = outgoing;
        endpoint.wire = wire;
        let relay = endpoint.relay();
        let mut link = Link { endpoint, relay };
        link.open();
        link.attach(None);
        let flow = LinkFlow {
            delivery_count: Some(0),
            link_credit: Some(u32::MAX),
            ..Default::default()
        };
        assert!(poll_once(link.relay.on_incoming_flow(flow)).is_some_and(|answer| answer.is_ok()));
        link
    }

    /// Our attach goes out whole; what it tells of the table is the answer.
    fn open(&mut self) -> Option<PeerMap> {
        let inner = &mut self.endpoint.inner;
        inner.link.output_handle = Some(OutputHandle(0));
        let frame = std::mem::replace(&mut inner.link.max_frame_size, usize::MAX);
        let sent = poll_once(inner.link.send_attach_inner(&inner.outgoing, false));
        inner.link.max_frame_size = frame;
        assert!(sent.is_some_and(|sent| sent.is_ok()));
        match self.endpoint.wire.try_recv() {
            Some(LinkFrame::Attach(attach)) => attach.unsettled,
            _ => None,
        }
    }

    fn attach(&mut self, unsettled: Option<PeerMap>) -> Vec<(DeliveryTag, ResumingDelivery)> {
        let link = &mut self.endpoint.inner.link;
        let mut attach = plain_attach(link);
        attach.unsettled = unsettled;
        match link.on_incoming_attach(attach) {
            Ok(SenderAttachExchange::Resume(list)) => list,
            Ok(_) => vec![],
            Err(e) => panic!("no attach: {e:?}"),
        }
    }

    fn send(&mut self, payload: Payload) -> Option<Ticket> {
        let inner = &mut self.endpoint.inner;
        match poll_once(inner.send_payload::<SendError>(payload, 0, None, None, false)) {
            Some(Ok(Settlement::Unsettled { outcome, .. })) => Some(outcome),
            _ => None,
        }
    }

    fn tell(&mut self, count: u32, settled: bool, state: DeliveryState) {
        let tag = DeliveryTag::from(count.to_be_bytes());
        self.relay
            .on_incoming_disposition(Role::Receiver, settled, Some(state), tag);
    }

    fn drop_frames(&mut self) {
        while self.endpoint.wire.try_recv().is_some() {}
    }

    /// All frames' payloads, one over the other.
    fn read_frames(&mut self, out: &mut [u8]) {
        while let Some(frame) = self.endpoint.wire.try_recv() {
            if let LinkFrame::FirstTransfer(transfer) | LinkFrame::TransferContinuation(transfer) =
                frame
            {
                out[..transfer.payload.len()].copy_from_slice(&transfer.payload);
            }
        }
    }
}

fn is_accepted(ticket: &Ticket) -> bool {
    matches!(ticket.look(), oneshot::Slot::Value(Ok(Some(DeliveryState::Accepted(_)))))
}

fn accepted<'t>(tickets: impl IntoIterator<Item = &'t Ticket>) -> u64 {
    tickets.into_iter().filter(|ticket| is_accepted(ticket)).count() as u64
}

/// As `ours::send`.
pub fn send(pool: &Payload, frame: usize, count: u32, mut out: Option<&mut [u8]>) -> u64 {
    let mut link = Link::new(frame, usize::MAX);
    let mut done = 0;
    for n in 0..count {
        let ticket = link.send(pool.clone());
        link.tell(n, true, ACCEPTED);
        done += accepted(&ticket);
        match &mut out {
            Some(out) => link.read_frames(out),
            None => link.drop_frames(),
        }
    }
    done
}

fn small() -> Payload {
    Payload::from_static(&[0x00, 0x53, 0x75, 0xa0, 0x03, 0x41, 0x42, 0x43])
}

fn filled(entries: u32) -> (Link, VecDeque<Ticket>) {
    let mut link = Link::new(512, usize::MAX);
    let tickets = (0..entries).filter_map(|_| link.send(small())).collect();
    link.drop_frames();
    (link, tickets)
}

/// As `ours::record`.
pub fn record(entries: u32, rounds: u32) -> u64 {
    let (mut link, tickets) = filled(entries);
    for n in 0..rounds {
        let received = Received {
            section_number: 0,
            section_offset: 3,
        };
        link.tell(n % entries, false, DeliveryState::Received(received));
    }
    for n in 0..entries {
        link.tell(n, true, ACCEPTED);
    }
    accepted(&tickets)
}

/// As `ours::turns`.
pub fn turns(entries: u32, rounds: u32) -> u64 {
    let (mut link, mut tickets) = filled(entries);
    let mut done = 0;
    for n in 0..rounds {
        link.tell(n, true, ACCEPTED);
        done += accepted(&tickets.pop_front());
        tickets.extend(link.send(small()));
        link.drop_frames();
    }
    done + accepted(&tickets)
}

/// As `ours::come_back`.
pub fn come_back(entries: u32, known: usize, rounds: u32) -> u64 {
    // The tickets are held, since a delivery whose ticket is gone is told to nobody.
    let (mut link, _tickets) = filled(entries);
    (0..rounds).filter(|_| comes_back(&mut link, known)).count() as u64
}

fn comes_back(link: &mut Link, known: usize) -> bool {
    let detach = Detach {
        handle: Handle(0),
        closed: false,
        error: None,
    };
    if link.endpoint.inner.link.apply_remote_detach_outcome(detach).is_err() {
        return false;
    }
    let shown = link.open().unwrap_or_default();
    let listed = shown.into_iter().take(known).map(|(tag, _)| (tag, None));
    let list = link.attach(Some(listed.collect()));
    let mut again = vec![];
    let worked = list.into_iter().all(|(tag, resuming)| {
        let worked = poll_once(link.endpoint.inner.work(tag, resuming, &mut again));
        link.drop_frames();
        worked.is_some_and(|worked| worked.is_ok())
    });
    worked
        && again.into_iter().all(|message| {
            let sent = poll_once(link.endpoint.inner.send_again(message));
            link.drop_frames();
            sent.is_some_and(|sent| sent.is_ok())
        })
}
