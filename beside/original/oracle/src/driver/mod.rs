//! Reads lines from standard input, gives each to the compiled functions and prints what they answer.

mod answers;
mod cases;
mod endpoint;
mod frames;
mod player;
mod state_line;
mod states;
mod text;

use std::io::{stdin, stdout, BufRead, BufWriter, Write};
use std::panic::{catch_unwind, AssertUnwindSafe};

/// Prints the answer to each line that is neither blank nor a comment.
fn answer_lines(
    mut out: impl Write,
    mut answer: impl FnMut(&[&str]) -> String,
) -> std::io::Result<()> {
    for line in stdin().lock().lines() {
        let line = line?;
        let words: Vec<&str> = line.split_ascii_whitespace().collect();
        if words.first().is_some_and(|word| !word.starts_with('#')) {
            writeln!(out, "{}", answer(&words))?;
        }
    }
    out.flush()
}

/// `panics` where the compiled functions do.
fn guarded(answer: impl FnOnce() -> String) -> String {
    catch_unwind(AssertUnwindSafe(answer)).unwrap_or_else(|_| "panics".to_string())
}

pub(crate) fn cases() -> std::io::Result<()> {
    let out = BufWriter::with_capacity(1 << 20, stdout().lock());
    answer_lines(out, |words| guarded(|| cases::answer(words)))
}

/// Each answer is out before the next line is read, for one who asks line by line.
pub(crate) fn scenario() -> std::io::Result<()> {
    let mut player = player::Player::default();
    answer_lines(stdout().lock(), |words| {
        let answer = guarded(|| player.perform(words));
        format!("{}: {}", words[0], answer)
    })
}
