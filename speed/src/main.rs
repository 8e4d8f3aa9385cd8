//! Times our functions beside the original's, each the same work in turn. docs/SPEED.md says what the rows are.

/// Stands for the original's macro: without its feature `transaction` nothing is left.
macro_rules! cfg_transaction {
    ($($text:tt)*) => {};
}

type Payload = bytes::Bytes;

#[allow(dead_code)]
#[path = "../../beside/original/oracle/src/connection.rs"]
mod connection;
#[allow(dead_code, unused_imports)]
#[path = "../../beside/original/oracle/src/endpoint/mod.rs"]
mod endpoint;
#[allow(dead_code, unused_imports, private_interfaces, async_fn_in_trait)]
#[path = "../../beside/original/oracle/src/link/mod.rs"]
mod link;
#[allow(dead_code, async_fn_in_trait)]
#[path = "../../beside/original/oracle/src/util/mod.rs"]
mod util;

mod original;
mod ours;
mod rows;
mod timing;

fn main() {
    let mut rounds = 9;
    let mut words = vec![];
    for word in std::env::args().skip(1) {
        match word.parse() {
            Ok(number) => rounds = number,
            Err(_) => words.push(word),
        }
    }
    rows::all(rounds, &words);
}
