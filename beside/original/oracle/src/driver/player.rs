//! Plays a scenario, whose language docs/SCENARIO.md has.

use std::collections::{HashMap, VecDeque};

use fe2o3_amqp_types::definitions::{DeliveryTag, Handle, Role};
use fe2o3_amqp_types::messaging::DeliveryState;
use fe2o3_amqp_types::performatives::Detach;
use tokio::sync::oneshot;

use super::answers::outcome_text;
use super::answers::{detached_text, flow_text, link_state_text, send_error_text};
use super::cases::shown;
use super::endpoint::{plain_attach, poll_once, send_attach, Endpoint, Settings};
use super::frames;
use super::state_line;
use super::text::{
    bytes, condition, hex, number, optional, pair, receiver_mode, sender_mode, state, stop_reason,
    tag, truth, yes_no,
};
use crate::endpoint::{
    LinkAttach, LinkDetach, LinkFlow, OutputHandle, SenderLink as _, Settlement,
};
use crate::link::delivery::UnsettledMessage;
use crate::link::resumption::ResumingDelivery;
use crate::link::state::LinkState;
use crate::link::{LinkStateError, SendError, SenderAttachError, SenderAttachExchange};
use crate::Payload;

type Ticket = oneshot::Receiver<Result<Option<DeliveryState>, LinkStateError>>;

pub(super) struct Player {
    pub(super) endpoint: Endpoint,
    /// What the original has in locals of the future that resumes a link.
    pub(super) resume: VecDeque<(DeliveryTag, ResumingDelivery)>,
    pub(super) resend: Vec<UnsettledMessage>,
    pub(super) tickets: Vec<(u32, Ticket)>,
    /// The number of each ticket that there was, by its channel's.
    pub(super) numbers: HashMap<u64, u32>,
    pub(super) pool: Payload,
}

impl Default for Player {
    fn default() -> Self {
        Player {
            endpoint: Endpoint::new(Settings::default()),
            resume: VecDeque::new(),
            resend: vec![],
            tickets: vec![],
            numbers: HashMap::new(),
            pool: Payload::new(),
        }
    }
}

/// The words `key=value` of a line.
struct Keys<'l>(HashMap<&'l str, &'l str>);

impl<'l> Keys<'l> {
    fn of(words: &[&'l str]) -> Self {
        Keys(words.iter().filter_map(|w| w.split_once('=')).collect())
    }

    fn word(&self, key: &str) -> &'l str {
        self.0.get(key).unwrap_or_else(|| panic!("no {key}"))
    }

    fn number<N: std::str::FromStr>(&self, key: &str) -> N {
        number(self.word(key))
    }

    fn truth(&self, key: &str) -> bool {
        truth(self.word(key))
    }

    fn state(&self) -> Option<DeliveryState> {
        optional(self.word("state"), state)
    }
}

impl Player {
    pub(super) fn perform(&mut self, words: &[&str]) -> String {
        let answer = self.call(words);
        if self.endpoint.wire.is_overrun() {
            self.endpoint.wire.clear();
            return "endless".to_string();
        }
        answer
    }

    fn call(&mut self, words: &[&str]) -> String {
        let keys = Keys::of(words);
        match words[0] {
            "link" => self.link(&keys),
            "queue" | "spool" => "made".to_string(),
            "encoder" => words[1].to_string(),
            "pool" => self.fill(words[1], &keys),
            "open" => self.open(keys.number("handle"), keys.truth("incomplete")),
            "attach" => self.attach(&keys),
            "flow" => self.flow(&keys),
            "send" => self.send(&keys),
            "disposition" => self.disposition(&keys),
            "dispose" => self.dispose(&keys),
            "work" => self.work(),
            "resend" => self.send_again(),
            "detach" => self.detach(keys.truth("closed"), keys.word("condition")),
            "look" => self.look(number(words[1])),
            "collect" => self.collect(number(words[1])),
            "take" => frames::take(&mut self.endpoint.wire),
            "empty" => frames::empty(&mut self.endpoint.wire),
            "stop" => self.stop(words[1]),
            "show" => shown(
                &self.endpoint,
                keys.truth("reattaching"),
                keys.number("denominator"),
            ),
            "state" => state_line::text(self),
            other => panic!("no such command: {other}"),
        }
    }

    fn link(&mut self, keys: &Keys) -> String {
        *self = Player::default();
        self.endpoint = Endpoint::new(Settings {
            snd_settle_mode: sender_mode(keys.word("sender")),
            rcv_settle_mode: receiver_mode(keys.word("receiver")),
            max_message_size: keys.number("limit"),
            max_frame_size: keys.number("frame"),
            initial_delivery_count: keys.number("count"),
        });
        "made".to_string()
    }

    fn fill(&mut self, word: &str, keys: &Keys) -> String {
        self.pool = match word.split_once('=') {
            Some(("repeat", count)) => vec![bytes(keys.word("byte"))[0]; number(count)].into(),
            Some((_, path)) => std::fs::read(path).expect("a file").into(),
            None => bytes(word).into(),
        };
        format!("{} bytes", self.pool.len())
    }

    fn open(&mut self, handle: u32, incomplete: bool) -> String {
        let link = &mut self.endpoint.inner.link;
        let old = link.output_handle.replace(OutputHandle(handle));
        match send_attach(link, incomplete) {
            Some(()) => format!("{:?}", link.local_state),
            None => {
                link.output_handle = old;
                "refused 2".to_string()
            }
        }
    }

    fn attach(&mut self, keys: &Keys) -> String {
        let link = &mut self.endpoint.inner.link;
        let mut attach = plain_attach(link);
        attach.handle = Handle(keys.number("handle"));
        attach.incomplete_unsettled = keys.truth("incomplete");
        attach.rcv_settle_mode = receiver_mode(keys.word("receiver"));
        attach.snd_settle_mode = sender_mode(keys.word("sender"));
        attach.target = attach.target.filter(|_| keys.truth("target"));
        attach.max_message_size = Some(keys.number("limit"));
        attach.unsettled = optional(keys.word("unsettled"), |list| {
            list.split(';').map(pair).collect()
        });
        let (answer, list) = match link.on_incoming_attach(attach) {
            Ok(SenderAttachExchange::Complete) => ("Complete", vec![]),
            Ok(SenderAttachExchange::IncompleteUnsettled(list)) => ("IncompleteUnsettled", list),
            Ok(SenderAttachExchange::Resume(list)) => ("Resume", list),
            Err(SenderAttachError::IncomingTargetIsNone) => ("refused 3", vec![]),
            Err(SenderAttachError::SndSettleModeNotSupported) => ("refused 4", vec![]),
            Err(_) => ("refused 2", vec![]),
        };
        self.resume.extend(list);
        answer.to_string()
    }

    fn flow(&mut self, keys: &Keys) -> String {
        let flow = LinkFlow {
            delivery_count: optional(keys.word("count"), number),
            link_credit: optional(keys.word("credit"), number),
            drain: keys.truth("drain"),
            echo: keys.truth("echo"),
            ..Default::default()
        };
        let mut relay = self.endpoint.relay();
        let answer = poll_once(relay.on_incoming_flow(flow)).expect("no wait");
        match answer.ok().flatten() {
            Some(flow) => flow_text(&flow, self.endpoint.inner.link.output_handle.is_some()),
            None => "none".to_string(),
        }
    }

    fn send(&mut self, keys: &Keys) -> String {
        let (start, length): (usize, usize) = (keys.number("start"), keys.number("length"));
        let end = start.checked_add(length).filter(|&n| n <= self.pool.len());
        let Some(end) = end else {
            return "refused 7".to_string();
        };
        let inner = &mut self.endpoint.inner;
        let number = inner.link.flow_state.state().lock.read().delivery_count;
        let sent = poll_once(inner.send_payload::<SendError>(
            self.pool.slice(start..end),
            keys.number("format"),
            optional(keys.word("settled"), truth),
            keys.state(),
            keys.truth("batchable"),
        ));
        match sent {
            None => "refused 10".to_string(),
            Some(Ok(Settlement::Settled(tag))) => format!("settled {}", hex(&tag.0)),
            Some(Ok(Settlement::Unsettled { outcome, .. })) => {
                self.numbers.insert(outcome.id(), number);
                self.tickets.push((number, outcome));
                format!("ticket {number}")
            }
            Some(Err(error)) => send_error_text(error),
        }
    }

    fn disposition(&mut self, keys: &Keys) -> String {
        let echo = self.endpoint.relay().on_incoming_disposition(
            Role::Receiver,
            keys.truth("settled"),
            keys.state(),
            tag(keys.word("tag")),
        );
        format!("echo {}", yes_no(echo))
    }

    fn dispose(&mut self, keys: &Keys) -> String {
        let inner = &mut self.endpoint.inner;
        let disposed = poll_once(inner.link.dispose(
            &inner.outgoing,
            keys.number("id"),
            tag(keys.word("tag")),
            keys.truth("settled"),
            keys.state().expect("a state"),
            keys.truth("batchable"),
        ));
        match disposed.expect("no wait") {
            Ok(()) => "done".to_string(),
            Err(error) => link_state_text(&error.into()),
        }
    }

    fn work(&mut self) -> String {
        let Some((tag, resuming)) = self.resume.pop_front() else {
            return "Done".to_string();
        };
        let worked = self.endpoint.inner.work(tag, resuming, &mut self.resend);
        match poll_once(worked).expect("no wait") {
            Ok(()) => "Worked".to_string(),
            Err(error) => send_error_text(error),
        }
    }

    /// Without credit the original waits with the delivery in hand; here it stays in the list.
    fn send_again(&mut self) -> String {
        let inner = &mut self.endpoint.inner;
        if self.resend.is_empty() {
            return "Done".to_string();
        }
        if inner.link.flow_state.state().link_credit() == 0 {
            return "refused 10".to_string();
        }
        let message = self.resend.remove(0);
        match poll_once(inner.send_again(message)).expect("no wait") {
            Ok(()) => "Worked".to_string(),
            Err(error) => send_error_text(error),
        }
    }

    /// As the session and then the link take it. The lists are gone, as they are where they are locals.
    fn detach(&mut self, closed: bool, error: &str) -> String {
        let detach = Detach {
            handle: Handle(0),
            closed,
            error: condition(error),
        };
        let state = &self.endpoint.inner.link.local_state;
        if !matches!(
            state,
            LinkState::Unattached | LinkState::Detached | LinkState::Closed
        ) {
            let mut relay = self.endpoint.relay();
            poll_once(relay.on_incoming_detach(detach.clone(), true)).expect("no wait");
            self.endpoint.inner.incoming.clear();
            self.resume.clear();
            self.resend.clear();
        }
        detached_text(self.endpoint.inner.link.apply_remote_detach_outcome(detach))
    }

    fn look(&self, number: u32) -> String {
        match self.tickets.iter().find(|(n, _)| *n == number) {
            Some((_, ticket)) => outcome_text(ticket.look()),
            None => format!("no ticket {number}"),
        }
    }

    fn collect(&mut self, number: u32) -> String {
        let answer = self.look(number);
        if let Some(i) = self.tickets.iter().position(|(n, _)| *n == number) {
            self.tickets.remove(i);
        }
        answer
    }

    fn stop(&mut self, reason: &str) -> String {
        let reason = stop_reason(reason);
        let _ = self.endpoint.inner.link.session_stop_reason.set(reason);
        self.endpoint.wire.close();
        "stopped".to_string()
    }
}
