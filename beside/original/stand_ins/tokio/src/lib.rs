//! Stands for the crate `tokio`: channels in memory, and futures that are polled once.

pub mod sync;

/// The one shape in which it is used: two branches, the first of which is asked first.
#[macro_export]
macro_rules! select {
    (
        biased;
        $first:ident = $first_future:expr => $on_first:block,
        $second:ident = $second_future:expr => $on_second:block
    ) => {{
        let chosen = $crate::sync::either($first_future, $second_future).await;
        match chosen {
            $crate::sync::Either::First($first) => $on_first,
            $crate::sync::Either::Second($second) => $on_second,
        }
    }};
}
