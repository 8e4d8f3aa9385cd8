use std::future::{pending, poll_fn, Future, Pending};
use std::pin::pin;
use std::task::Poll;

pub mod mpsc;
pub mod oneshot;

#[derive(Debug, Default)]
pub struct Notify;

impl Notify {
    pub fn notify_waiters(&self) {}

    pub fn notified(&self) -> Pending<()> {
        pending()
    }
}

pub enum Either<A, B> {
    First(A),
    Second(B),
}

/// What the first of two futures to be ready gives; where both are, the first one.
pub async fn either<A: Future, B: Future>(first: A, second: B) -> Either<A::Output, B::Output> {
    let mut first = pin!(first);
    let mut second = pin!(second);
    poll_fn(|cx| {
        if let Poll::Ready(value) = first.as_mut().poll(cx) {
            return Poll::Ready(Either::First(value));
        }
        second.as_mut().poll(cx).map(Either::Second)
    })
    .await
}
