//! The rows of docs/SPEED.md.

use std::cell::Cell;

use crate::timing::{by_turns, Times, Work};
use crate::{original, ours, Payload};

/// What is timed, and what each time is of.
struct Row {
    name: String,
    count: u32,
    expected: u64,
    /// Bytes of a message, where bytes for a second are told.
    bytes: Option<usize>,
}

fn row(name: String, count: u32, bytes: Option<usize>) -> Row {
    Row {
        name,
        count,
        expected: count.into(),
        bytes,
    }
}

fn time_text(seconds: f64) -> String {
    let ns = seconds * 1e9;
    match ns {
        _ if ns < 1e4 => format!("{ns:.1} ns"),
        _ if ns < 1e7 => format!("{:.1} us", ns / 1e3),
        _ => format!("{:.1} ms", ns / 1e6),
    }
}

fn rate_text(row: &Row, seconds: f64) -> String {
    match row.bytes {
        Some(bytes) => format!("{:.2} GB/s", bytes as f64 / seconds / 1e9),
        None => format!("{:.0}/s", 1.0 / seconds),
    }
}

fn size_text(bytes: usize) -> String {
    match bytes {
        0..1_000 => format!("{bytes} B"),
        1_000..1_000_000 => format!("{} KB", bytes / 1_000),
        _ => format!("{} MB", bytes / 1_000_000),
    }
}

/// Names in the first column of a row that has no original beside it.
fn print(row: &Row, times: &[Times]) {
    let own = times[0];
    let beside = times.get(1).map(|t| {
        let ratio = own.median / t.median;
        format!("{} | {} | {ratio:.2}", time_text(t.best), time_text(t.median))
    });
    println!(
        "| {} | {} | {} | {} | {} |",
        row.name,
        time_text(own.best),
        time_text(own.median),
        rate_text(row, own.median),
        beside.unwrap_or("- | - | -".to_string())
    );
}

struct Table<'w> {
    rounds: usize,
    words: &'w [String],
    /// What is to be printed before the next row.
    title: Cell<Option<&'static str>>,
}

impl Table<'_> {
    fn head(&self, title: &'static str) {
        self.title.set(Some(title));
    }

    /// Whether the row's name has one of the words, or there is no word.
    fn wants(&self, row: &Row) -> bool {
        self.words.is_empty() || self.words.iter().any(|word| row.name.contains(word.as_str()))
    }

    fn time(&self, row: &Row, works: &mut [Work]) {
        if !self.wants(row) {
            return;
        }
        if let Some(title) = self.title.take() {
            println!("\n{title}\n");
            println!("| | ours, best | ours, median | ours | original, best | original, median | ours / original |");
            println!("|---|---|---|---|---|---|---|");
        }
        print(row, &by_turns(self.rounds, row.count, row.expected, works));
    }
}

/// A data section: of letters, or of bytes in which zeros stand now and then.
fn message(size: usize, is_mixed: bool) -> Payload {
    let mut bytes = vec![0x00, 0x53, 0x75, 0xb0];
    bytes.extend((size as u32).to_be_bytes());
    let mut seed = 1u32;
    bytes.extend((8..size).map(|_| {
        seed = seed.wrapping_mul(1_664_525).wrapping_add(1_013_904_223);
        if is_mixed { (seed >> 24) as u8 } else { 0x41 }
    }));
    bytes.truncate(size);
    bytes.into()
}

fn places(table: &Table) {
    table.head("A place of a message that is not there: all of it is searched");
    for (size, count) in [(1_000, 20_000), (1_000_000, 20), (64_000_000, 1)] {
        for (kind, is_mixed) in [("letters", false), ("any bytes", true)] {
            let row = row(format!("place, {}, {kind}", size_text(size)), count, Some(size));
            if !table.wants(&row) {
                continue;
            }
            let bytes = message(size, is_mixed);
            let own = |n: u32| (0..n).filter(|_| dabberblue::place(&bytes, 77, 1).is_none()).count();
            let other = |n: u32| (0..n).filter(|_| original::place(&bytes, 77, 1) == size).count();
            table.time(&row, &mut [Box::new(|n| own(n) as u64), Box::new(|n| other(n) as u64)]);
        }
    }
}

fn headers(table: &Table) {
    table.head("A transfer's header, with a tag of four bytes");
    let count = 1_000_000;
    for (form, is_wide) in [("compact", false), ("wide", true)] {
        let timed = |what: &str, work: Work| {
            table.time(&row(format!("{what}, {form}"), count, None), &mut [work]);
        };
        timed("header measured", Box::new(move |n| ours::measure(is_wide, n)));
        timed("header written", Box::new(move |n| ours::write(is_wide, n)));
        let header = header(is_wide);
        let all = header.repeat(count as usize);
        let size = header.len();
        timed("header read", Box::new(|n| ours::read(is_wide, &all[..size * n as usize], size)));
    }
}

fn header(is_wide: bool) -> Vec<u8> {
    let transfer = dabberblue::Transfer {
        delivery_id: Some(7),
        delivery_tag: Some(vec![0, 0, 0, 7]),
        message_format: Some(0),
        settled: Some(false),
        ..Default::default()
    };
    let form = if is_wide { dabberblue::Form::Wide } else { dabberblue::Form::Compact };
    let mut out = vec![0; 256];
    let size = transfer.write(form, &mut out).expect("a transfer");
    out.truncate(size);
    out
}

/// Sizes of messages, how many are sent, and the longest frame.
const MESSAGES: [(usize, u32, usize); 6] = [
    (100, 200_000, 512),
    (10_000, 10_000, 512),
    (10_000, 20_000, 65_535),
    (1_000_000, 200, 4_096),
    (1_000_000, 400, 65_535),
    (64_000_000, 6, 65_535),
];

/// Both sinks, with each size of message.
fn sinks() -> impl Iterator<Item = (&'static str, ours::Sink, usize, u32, usize)> {
    let both = [("queue", ours::Sink::Queue), ("spool", ours::Sink::Spool)];
    MESSAGES.into_iter().flat_map(move |(size, count, frame)| {
        both.map(|(name, sink)| (name, sink, size, count, frame))
    })
}

fn sends(table: &Table) {
    table.head("A message sent, accepted and its ticket collected; the frames are thrown away");
    for (name, sink, size, count, frame) in sinks() {
        let name = format!("send, {}, frames of {frame}, {name}", size_text(size));
        let row = row(name, count, Some(size));
        if table.wants(&row) {
            let pool = message(size, false);
            let own: Work = Box::new(|n| ours::send(sink, &pool, frame, n, None));
            let other: Work = Box::new(|n| original::send(&pool, frame, n, None));
            table.time(&row, &mut [own, other]);
        }
    }
    table.head("The same, and the frames are read out");
    for (name, sink, size, count, frame) in sinks() {
        let name = format!("read, {}, frames of {frame}, {name}", size_text(size));
        let row = row(name, count, Some(size));
        if table.wants(&row) {
            let pool = message(size, false);
            // A spool is emptied whole.
            let mut out = vec![0; size * 2 + 100_000];
            let mut beside = vec![0; frame];
            let own: Work = Box::new(|n| ours::send(sink, &pool, frame, n, Some(&mut out)));
            let other: Work = Box::new(|n| original::send(&pool, frame, n, Some(&mut beside)));
            table.time(&row, &mut [own, other]);
        }
    }
}

fn copies(table: &Table) {
    table.head("A message's bytes copied once, as a limit");
    for (size, count) in [(100, 1_000_000), (10_000, 100_000), (1_000_000, 1_000), (64_000_000, 10)] {
        let row = row(format!("copy, {}", size_text(size)), count, Some(size));
        if table.wants(&row) {
            let pool = message(size, false);
            let mut out = vec![0; size];
            let copy: Work =
                Box::new(|n| (0..n).filter(|_| copied(&pool, &mut out)).count() as u64);
            table.time(&row, &mut [copy]);
        }
    }
}

fn copied(from: &[u8], to: &mut [u8]) -> bool {
    to.copy_from_slice(std::hint::black_box(from));
    !std::hint::black_box(to).is_empty()
}

fn dispositions(table: &Table) {
    table.head("A disposition at a table of so many entries");
    for entries in [1, 64, 1_024] {
        let count = 100_000;
        let mut timed = row(format!("disposition recorded, {entries} entries"), count, None);
        timed.expected = entries.into();
        let own: Work = Box::new(|n| if n == 0 { 0 } else { ours::record(entries, n) });
        let other: Work = Box::new(|n| if n == 0 { 0 } else { original::record(entries, n) });
        table.time(&timed, &mut [own, other]);
    }
    for entries in [1, 64, 1_024] {
        let count = 100_000;
        let row = row(format!("accepted, collected, one more sent, {entries} entries"), count, None);
        let own: Work = Box::new(|n| ours::turns(entries, n));
        let other: Work = Box::new(|n| original::turns(entries, n));
        table.time(&row, &mut [own, other]);
    }
}

fn comebacks(table: &Table) {
    table.head("A link that comes back, until all is worked off");
    for entries in [1, 64, 1_024] {
        for (name, known) in [("all", entries), ("half", entries / 2), ("none", 0)] {
            let known = known as usize;
            let count = 20_480 / entries;
            let name = format!("comes back with {entries} entries, {name} of them listed");
            let own: Work = Box::new(move |n| ours::come_back(entries, known, n));
            let other: Work = Box::new(move |n| original::come_back(entries, known, n));
            table.time(&row(name, count, None), &mut [own, other]);
        }
    }
}

pub fn all(rounds: usize, words: &[String]) {
    let table = Table {
        rounds,
        words,
        title: Cell::new(None),
    };
    places(&table);
    headers(&table);
    sends(&table);
    copies(&table);
    dispositions(&table);
    comebacks(&table);
}
