//! Taking times by turns.

use std::time::{Duration, Instant};

/// Does its work so many times, and answers how many times it did what it should.
pub type Work<'w> = Box<dyn FnMut(u32) -> u64 + 'w>;

#[derive(Clone, Copy)]
pub struct Times {
    pub best: f64,
    pub median: f64,
}

fn time(work: &mut Work, count: u32, expected: u64) -> Duration {
    let start = Instant::now();
    let done = work(count);
    let taken = start.elapsed();
    assert_eq!(done, expected, "the work was not done");
    taken
}

/// Seconds for each of `count` times, of each work. They take turns, and what it takes to begin with is not counted.
pub fn by_turns(rounds: usize, count: u32, expected: u64, works: &mut [Work]) -> Vec<Times> {
    let mut taken = vec![vec![]; works.len()];
    for _ in 0..rounds {
        for (work, taken) in works.iter_mut().zip(&mut taken) {
            let begun = time(work, 0, 0);
            let all = time(work, count, expected);
            taken.push(all.saturating_sub(begun).as_secs_f64() / f64::from(count));
        }
    }
    taken.into_iter().map(summary).collect()
}

fn summary(mut taken: Vec<f64>) -> Times {
    taken.sort_by(f64::total_cmp);
    Times {
        best: taken[0],
        median: taken[taken.len() / 2],
    }
}
