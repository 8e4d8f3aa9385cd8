//! Our work: exports of the library `workloads`, each behind a safe function.

mod raw {
    unsafe extern "C" {
        pub fn dabberblue_work_measure(is_wide: bool, rounds: u32) -> u64;
        pub fn dabberblue_work_write(is_wide: bool, rounds: u32, out: *mut u8, len: usize) -> u64;
        pub fn dabberblue_work_read(is_wide: bool, bytes: *const u8, len: usize, size: usize) -> u64;
        pub fn dabberblue_work_queue(
            pool: *const u8,
            pool_len: usize,
            frame: usize,
            places: usize,
            count: u32,
            is_read: bool,
            out: *mut u8,
            out_len: usize,
        ) -> u64;
        pub fn dabberblue_work_spool(
            pool: *const u8,
            pool_len: usize,
            frame: usize,
            places: usize,
            count: u32,
            is_read: bool,
            out: *mut u8,
            out_len: usize,
        ) -> u64;
        pub fn dabberblue_work_record(entries: u32, rounds: u32) -> u64;
        pub fn dabberblue_work_turns(entries: u32, rounds: u32) -> u64;
        pub fn dabberblue_work_comebacks(entries: u32, known: usize, rounds: u32) -> u64;
    }
}

pub fn measure(is_wide: bool, rounds: u32) -> u64 {
    // SAFETY: numbers.
    unsafe { raw::dabberblue_work_measure(is_wide, rounds) }
}

pub fn write(is_wide: bool, rounds: u32) -> u64 {
    let mut out = [0; 256];
    // SAFETY: pointer and length are those of one slice.
    unsafe { raw::dabberblue_work_write(is_wide, rounds, out.as_mut_ptr(), out.len()) }
}

/// The headers stand one after the other, each so long.
pub fn read(is_wide: bool, bytes: &[u8], size: usize) -> u64 {
    // SAFETY: pointer and length are those of one slice.
    unsafe { raw::dabberblue_work_read(is_wide, bytes.as_ptr(), bytes.len(), size) }
}

#[derive(Clone, Copy)]
pub enum Sink {
    Queue,
    Spool,
}

/// What is read out of the sink goes to `out`, if there is one.
pub fn send(sink: Sink, pool: &[u8], frame: usize, count: u32, out: Option<&mut [u8]>) -> u64 {
    // No frame's header has more than 64 bytes here.
    let places = pool.len() / (frame - 64) + 2;
    let is_read = out.is_some();
    let out = out.unwrap_or_default();
    let work = match sink {
        Sink::Queue => raw::dabberblue_work_queue,
        Sink::Spool => raw::dabberblue_work_spool,
    };
    // SAFETY: pointers and lengths are those of two slices that do not overlap, since one is borrowed alone.
    unsafe {
        work(
            pool.as_ptr(),
            pool.len(),
            frame,
            places,
            count,
            is_read,
            out.as_mut_ptr(),
            out.len(),
        )
    }
}

pub fn record(entries: u32, rounds: u32) -> u64 {
    // SAFETY: numbers.
    unsafe { raw::dabberblue_work_record(entries, rounds) }
}

pub fn turns(entries: u32, rounds: u32) -> u64 {
    // SAFETY: numbers.
    unsafe { raw::dabberblue_work_turns(entries, rounds) }
}

pub fn come_back(entries: u32, known: usize, rounds: u32) -> u64 {
    // SAFETY: numbers.
    unsafe { raw::dabberblue_work_comebacks(entries, known, rounds) }
}
