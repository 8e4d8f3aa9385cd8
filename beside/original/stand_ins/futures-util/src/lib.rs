//! Stands for the crate `futures-util`.

pub use std::future::Future;
