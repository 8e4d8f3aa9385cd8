//! The original's functions, and a driver that reads cases or a scenario and prints an answer to each line.

/// Stands for the original's macro: without its feature `transaction` nothing is left.
macro_rules! cfg_transaction {
    ($($text:tt)*) => {};
}

type Payload = bytes::Bytes;

#[allow(dead_code)]
mod connection;
mod driver;
#[allow(dead_code, unused_imports)]
mod endpoint;
#[allow(dead_code, unused_imports, private_interfaces, async_fn_in_trait)]
mod link;
#[allow(dead_code, async_fn_in_trait)]
mod util;

fn main() -> std::io::Result<()> {
    // What the compiled functions panic about is an answer, and no message.
    std::panic::set_hook(Box::new(|_| {}));
    match std::env::args().nth(1).as_deref() {
        Some("cases") => driver::cases(),
        Some("scenario") => driver::scenario(),
        _ => Err(std::io::Error::other("usage: oracle cases|scenario")),
    }
}
