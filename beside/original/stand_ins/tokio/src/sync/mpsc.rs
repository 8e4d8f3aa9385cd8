//! A channel of many senders. It never makes its sender wait: at its capacity it takes nothing more, and tells
//! that by `is_overrun`, so that a sender that would never stop can be seen.

use std::collections::VecDeque;
use std::future::poll_fn;
use std::sync::{Arc, Mutex, MutexGuard, PoisonError};
use std::task::Poll;

#[derive(Debug)]
struct Queue<T> {
    items: VecDeque<T>,
    capacity: usize,
    closed: bool,
    overrun: bool,
}

#[derive(Debug)]
pub struct Sender<T>(Arc<Mutex<Queue<T>>>);

#[derive(Debug)]
pub struct Receiver<T>(Arc<Mutex<Queue<T>>>);

pub mod error {
    #[derive(Debug)]
    pub struct SendError<T>(pub T);
}

pub fn channel<T>(capacity: usize) -> (Sender<T>, Receiver<T>) {
    let queue = Arc::new(Mutex::new(Queue {
        items: VecDeque::new(),
        capacity,
        closed: false,
        overrun: false,
    }));
    (Sender(queue.clone()), Receiver(queue))
}

/// A panic of the compiled functions may have left the lock poisoned, and the queue in order.
fn lock<T>(queue: &Mutex<Queue<T>>) -> MutexGuard<'_, Queue<T>> {
    queue.lock().unwrap_or_else(PoisonError::into_inner)
}

impl<T> Clone for Sender<T> {
    fn clone(&self) -> Self {
        Sender(self.0.clone())
    }
}

impl<T> Sender<T> {
    pub async fn send(&self, item: T) -> Result<(), error::SendError<T>> {
        let mut queue = lock(&self.0);
        if queue.closed {
            return Err(error::SendError(item));
        }
        if queue.items.len() >= queue.capacity {
            queue.overrun = true;
            return Err(error::SendError(item));
        }
        queue.items.push_back(item);
        Ok(())
    }
}

impl<T> Receiver<T> {
    pub async fn recv(&mut self) -> Option<T> {
        poll_fn(|_| {
            let mut queue = lock(&self.0);
            match queue.items.pop_front() {
                Some(item) => Poll::Ready(Some(item)),
                None if queue.closed => Poll::Ready(None),
                None => Poll::Pending,
            }
        })
        .await
    }

    pub fn try_recv(&mut self) -> Option<T> {
        lock(&self.0).items.pop_front()
    }

    pub fn close(&mut self) {
        lock(&self.0).closed = true;
    }

    /// Whether something was sent past the capacity.
    pub fn is_overrun(&self) -> bool {
        lock(&self.0).overrun
    }

    pub fn clear(&mut self) {
        let mut queue = lock(&self.0);
        queue.items.clear();
        queue.overrun = false;
    }
}
