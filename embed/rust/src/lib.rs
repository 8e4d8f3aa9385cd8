//! Safe Rust over the library, which is linked as a static one. Nothing outside this crate needs `unsafe`: a slice's pointer
//! and length come from a slice, a struct's pointer from a struct of this call's own, and no call is handed more than it may keep.

mod convert;
mod raw;

/// A form of headers (Part 1, 1.6): the shortest codes, or every field written out.
#[derive(Clone, Copy, Debug, PartialEq, Eq)]
pub enum Form {
    Compact = 0,
    Wide = 1,
}

/// A delivery state (Part 3, 3.4). A condition is its place in Part 2, 2.8.15, from 1 on, or 0 for none.
#[derive(Clone, Copy, Debug, PartialEq, Eq)]
pub enum DeliveryState {
    Received { section: u32, offset: u64 },
    Accepted,
    Rejected { condition: u8 },
    Released,
    Modified { failed: Option<bool>, undeliverable: Option<bool> },
}

/// A transfer (Part 2, 2.7.5).
#[derive(Clone, Debug, Default, PartialEq, Eq)]
pub struct Transfer {
    pub handle: u32,
    pub delivery_id: Option<u32>,
    pub delivery_tag: Option<Vec<u8>>,
    pub message_format: Option<u32>,
    pub settled: Option<bool>,
    pub more: bool,
    pub state: Option<DeliveryState>,
    pub resume: bool,
    pub aborted: bool,
    pub batchable: bool,
}

/// How many deliveries went out, and how many more the peer takes (Part 2, 2.6.7).
#[derive(Clone, Copy, Debug, PartialEq, Eq)]
pub struct Credit {
    pub initial_delivery_count: u32,
    pub delivery_count: u32,
    pub link_credit: u32,
}

/// A flow of the peer's, as far as credit goes.
#[derive(Clone, Copy, Debug, Default, PartialEq, Eq)]
pub struct Flow {
    pub delivery_count: Option<u32>,
    pub link_credit: Option<u32>,
    pub drain: bool,
    pub echo: bool,
}

/// What a call refuses.
#[derive(Clone, Copy, Debug, PartialEq, Eq)]
pub enum Refusal {
    /// A tag of more than 32 bytes, or a condition past the last; at reading, a disposition.
    NoTransfer,
    /// The bytes are no header from this place on.
    NotEncoded { at: usize },
    /// So many bytes are needed.
    TooShort { needed: usize },
}

fn result(answer: raw::Answer) -> Result<usize, Refusal> {
    match answer.status {
        0 => Ok(answer.value),
        18 => Err(Refusal::NotEncoded { at: answer.value }),
        20 => Err(Refusal::TooShort { needed: answer.value }),
        _ => Err(Refusal::NoTransfer),
    }
}

impl Transfer {
    /// How many bytes its header has.
    pub fn size(&self, form: Form) -> Result<usize, Refusal> {
        let raw = self.to_raw().ok_or(Refusal::NoTransfer)?;
        // SAFETY: the struct is laid out as declared, and lives through the call, which only reads it.
        result(unsafe { raw::dabberblue_transfer_size(form as u8, &raw) })
    }

    /// Writes its header to the front of `out`, and answers how many bytes it has.
    pub fn write(&self, form: Form, out: &mut [u8]) -> Result<usize, Refusal> {
        let raw = self.to_raw().ok_or(Refusal::NoTransfer)?;
        // SAFETY: as above; pointer and length are those of one slice, which the struct does not overlap.
        result(unsafe {
            raw::dabberblue_transfer_write(form as u8, &raw, out.as_mut_ptr(), out.len())
        })
    }

    /// The transfer whose header these bytes are.
    pub fn read(form: Form, bytes: &[u8]) -> Result<Transfer, Refusal> {
        let mut raw = raw::Transfer::default();
        // SAFETY: as above; the struct that is written is this call's own.
        result(unsafe {
            raw::dabberblue_transfer_read(form as u8, bytes.as_ptr(), bytes.len(), &mut raw)
        })?;
        Ok(Transfer::from_raw(&raw))
    }
}

/// The position of a message that lies in a section, so many bytes past its first, if there is one (Part 3, 3.4.1).
pub fn place(message: &[u8], section: u32, offset: u64) -> Option<usize> {
    // SAFETY: pointer and length are those of one slice, which the call only reads.
    let answer =
        unsafe { raw::dabberblue_place(message.as_ptr(), message.len(), section, offset) };
    (answer.status == 0).then_some(answer.value)
}

impl Credit {
    /// Takes a flow in, and answers whether the peer is to be told how it stands then.
    pub fn flow(&mut self, flow: &Flow) -> bool {
        let mut raw = raw::Credit {
            initial_delivery_count: self.initial_delivery_count,
            delivery_count: self.delivery_count,
            link_credit: self.link_credit,
        };
        let flow = raw::Flow {
            delivery_count: flow.delivery_count.unwrap_or_default(),
            link_credit: flow.link_credit.unwrap_or_default(),
            has_delivery_count: flow.delivery_count.is_some().into(),
            has_link_credit: flow.link_credit.is_some().into(),
            drain: flow.drain.into(),
            echo: flow.echo.into(),
        };
        // SAFETY: both structs are laid out as declared, are this call's own, and do not overlap.
        let is_answered = unsafe { raw::dabberblue_flow(&mut raw, &flow) };
        self.delivery_count = raw.delivery_count;
        self.link_credit = raw.link_credit;
        is_answered
    }
}

/// Why the playing of a scenario ended early, at a line.
#[derive(Clone, Copy, Debug, PartialEq, Eq)]
pub enum Unplayed {
    NoRoom { line: u64 },
    NoMemory { line: u64 },
    NoCommand { line: u64 },
}

/// Plays a scenario, in the language of the program `scenario`, without files: its answers go to the front of `out`. How many bytes
/// they are is told whyever it ended.
pub fn play(scenario: &[u8], out: &mut [u8]) -> (usize, Result<(), Unplayed>) {
    // SAFETY: pointers and lengths are those of two slices that do not overlap, since one is borrowed alone.
    let played = unsafe {
        raw::dabberblue_play(scenario.as_ptr(), scenario.len(), out.as_mut_ptr(), out.len())
    };
    let line = played.line;
    let result = match played.status {
        0 => Ok(()),
        20 => Err(Unplayed::NoRoom { line }),
        67 => Err(Unplayed::NoMemory { line }),
        _ => Err(Unplayed::NoCommand { line }),
    };
    (played.written, result)
}
