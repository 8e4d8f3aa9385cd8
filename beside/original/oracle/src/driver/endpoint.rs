//! A link of the original's, over channels in memory.

use std::future::Future;
use std::marker::PhantomData;
use std::pin::pin;
use std::sync::{Arc, OnceLock};
use std::task::{Context, Poll, Waker};

use fe2o3_amqp_types::definitions::{ReceiverSettleMode, SenderSettleMode};
use fe2o3_amqp_types::messaging::{Target, TargetArchetype};
use fe2o3_amqp_types::performatives::Attach;
use parking_lot::RwLock;
use serde_amqp::Encode;
use tokio::sync::{mpsc, Notify};

use crate::endpoint::OutputHandle;
use crate::link::sender::SenderInner;
use crate::link::state::{LinkFlowState, LinkFlowStateInner, LinkState};
use crate::link::{LinkFrame, LinkRelay, SenderLink};
use crate::util::Consumer;

/// More frames than these are taken for a call that would never stop.
const MOST_FRAMES: usize = 4096;

pub(super) struct Endpoint {
    pub(super) inner: SenderInner<SenderLink<Target>>,
    /// What the session would put into the link's own channel.
    pub(super) forwarded: mpsc::Sender<LinkFrame>,
    pub(super) wire: mpsc::Receiver<LinkFrame>,
}

pub(super) struct Settings {
    pub(super) snd_settle_mode: SenderSettleMode,
    pub(super) rcv_settle_mode: ReceiverSettleMode,
    pub(super) max_message_size: u64,
    pub(super) max_frame_size: usize,
    pub(super) initial_delivery_count: u32,
}

impl Default for Settings {
    fn default() -> Self {
        Settings {
            snd_settle_mode: SenderSettleMode::Mixed,
            rcv_settle_mode: ReceiverSettleMode::First,
            max_message_size: 0,
            max_frame_size: 512,
            initial_delivery_count: 0,
        }
    }
}

/// What the future gives, if it need not wait.
pub(super) fn poll_once<F: Future>(future: F) -> Option<F::Output> {
    match pin!(future).poll(&mut Context::from_waker(Waker::noop())) {
        Poll::Ready(output) => Some(output),
        Poll::Pending => None,
    }
}

pub(super) fn flow_state(initial: u32, count: u32, credit: u32) -> LinkFlowStateInner {
    LinkFlowStateInner {
        initial_delivery_count: initial,
        delivery_count: count,
        link_credit: credit,
        available: 0,
        drain: false,
        properties: None,
    }
}

fn link(settings: Settings) -> SenderLink<Target> {
    let count = settings.initial_delivery_count;
    let flow_state = LinkFlowState::sender(flow_state(count, count, 0));
    SenderLink {
        role: PhantomData,
        local_state: LinkState::Unattached,
        name: "link".to_string(),
        output_handle: None,
        input_handle: None,
        snd_settle_mode: settings.snd_settle_mode,
        rcv_settle_mode: settings.rcv_settle_mode,
        source: None,
        target: None,
        max_message_size: settings.max_message_size,
        offered_capabilities: None,
        desired_capabilities: None,
        flow_state: Consumer::new(Arc::new(Notify), Arc::new(flow_state)),
        unsettled: Arc::new(RwLock::new(None)),
        session_stop_reason: Arc::new(OnceLock::new()),
        max_frame_size: settings.max_frame_size,
        verify_incoming_source: false,
        verify_incoming_target: false,
    }
}

impl Endpoint {
    pub(super) fn new(settings: Settings) -> Self {
        let (outgoing, wire) = mpsc::channel(MOST_FRAMES);
        let (forwarded, incoming) = mpsc::channel(MOST_FRAMES);
        Endpoint {
            inner: SenderInner {
                link: link(settings),
                outgoing,
                incoming,
            },
            forwarded,
            wire,
        }
    }

    /// The session's side of the link, with the receiver's mode that the session would have told it.
    pub(super) fn relay(&self) -> LinkRelay<OutputHandle> {
        let link = &self.inner.link;
        LinkRelay::Sender {
            tx: self.forwarded.clone(),
            output_handle: link.output_handle.clone().unwrap_or(OutputHandle(u32::MAX)),
            flow_state: link.flow_state.producer(),
            unsettled: link.unsettled.clone(),
            receiver_settle_mode: link.rcv_settle_mode.clone(),
        }
    }
}

/// Sends the link's attach, over a channel of its own, which nobody stops. The original's map is incomplete where all of it does
/// not fit a frame.
pub(super) fn send_attach(link: &mut SenderLink<Target>, incomplete: bool) -> Option<()> {
    let (outgoing, _sent) = mpsc::channel(1);
    let frame = link.max_frame_size;
    let whole = link.complete_attach().encode().len();
    link.max_frame_size = if incomplete { whole - 1 } else { whole };
    let sent = poll_once(link.send_attach_inner(&outgoing, false));
    link.max_frame_size = frame;
    sent?.ok()
}

/// A peer's attach of which nothing is to be said.
pub(super) fn plain_attach(link: &SenderLink<Target>) -> Attach {
    let mut attach = link.complete_attach();
    attach.target = Some(Box::new(TargetArchetype::Target(Target)));
    attach.unsettled = None;
    attach.max_message_size = None;
    attach
}
