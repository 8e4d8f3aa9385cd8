//! The declarations of embed/dabberblue.h once more. Nothing compares them with the library.

#[repr(C)]
pub(crate) struct Answer {
    pub(crate) status: u32,
    pub(crate) value: usize,
}

#[repr(C)]
#[derive(Clone, Copy, Default)]
pub(crate) struct State {
    pub(crate) code: u8,
    pub(crate) condition: u8,
    pub(crate) delivery_failed: u8,
    pub(crate) undeliverable_here: u8,
    pub(crate) section_number: u32,
    pub(crate) section_offset: u64,
}

#[repr(C)]
#[derive(Clone, Copy, Default)]
pub(crate) struct Transfer {
    pub(crate) handle: u32,
    pub(crate) delivery_id: u32,
    pub(crate) message_format: u32,
    pub(crate) has_delivery_id: u8,
    pub(crate) has_tag: u8,
    pub(crate) has_message_format: u8,
    pub(crate) settled: u8,
    pub(crate) more: u8,
    pub(crate) resume: u8,
    pub(crate) aborted: u8,
    pub(crate) batchable: u8,
    pub(crate) tag_len: u8,
    pub(crate) tag: [u8; 32],
    pub(crate) state: State,
}

#[repr(C)]
pub(crate) struct Credit {
    pub(crate) initial_delivery_count: u32,
    pub(crate) delivery_count: u32,
    pub(crate) link_credit: u32,
}

#[repr(C)]
pub(crate) struct Flow {
    pub(crate) delivery_count: u32,
    pub(crate) link_credit: u32,
    pub(crate) has_delivery_count: u8,
    pub(crate) has_link_credit: u8,
    pub(crate) drain: u8,
    pub(crate) echo: u8,
}

#[repr(C)]
pub(crate) struct Played {
    pub(crate) status: u32,
    pub(crate) written: usize,
    pub(crate) line: u64,
}

unsafe extern "C" {
    pub(crate) fn dabberblue_transfer_size(form: u8, transfer: *const Transfer) -> Answer;
    pub(crate) fn dabberblue_transfer_write(
        form: u8,
        transfer: *const Transfer,
        out: *mut u8,
        out_len: usize,
    ) -> Answer;
    pub(crate) fn dabberblue_transfer_read(
        form: u8,
        bytes: *const u8,
        bytes_len: usize,
        transfer: *mut Transfer,
    ) -> Answer;
    pub(crate) fn dabberblue_place(
        message: *const u8,
        message_len: usize,
        section: u32,
        offset: u64,
    ) -> Answer;
    pub(crate) fn dabberblue_flow(credit: *mut Credit, flow: *const Flow) -> bool;
    pub(crate) fn dabberblue_play(
        scenario: *const u8,
        scenario_len: usize,
        out: *mut u8,
        out_len: usize,
    ) -> Played;
}
