//! A channel for one value. Whoever has the receiver can look at it, and sees when the sender was dropped unused.

use std::sync::atomic::{AtomicU64, Ordering};
use std::sync::{Arc, Mutex, MutexGuard, PoisonError};

static NEXT: AtomicU64 = AtomicU64::new(0);

#[derive(Debug, Clone)]
pub enum Slot<T> {
    Pending,
    Value(T),
    Dropped,
}

#[derive(Debug)]
pub struct Sender<T> {
    id: u64,
    slot: Arc<Mutex<Slot<T>>>,
}

#[derive(Debug)]
pub struct Receiver<T> {
    id: u64,
    slot: Arc<Mutex<Slot<T>>>,
}

pub fn channel<T>() -> (Sender<T>, Receiver<T>) {
    let id = NEXT.fetch_add(1, Ordering::Relaxed);
    let slot = Arc::new(Mutex::new(Slot::Pending));
    let sender = Sender {
        id,
        slot: slot.clone(),
    };
    (sender, Receiver { id, slot })
}

fn lock<T>(slot: &Mutex<Slot<T>>) -> MutexGuard<'_, Slot<T>> {
    slot.lock().unwrap_or_else(PoisonError::into_inner)
}

impl<T> Sender<T> {
    pub fn send(self, value: T) -> Result<(), T> {
        *lock(&self.slot) = Slot::Value(value);
        Ok(())
    }

    /// The number that it shares with its receiver alone.
    pub fn id(&self) -> u64 {
        self.id
    }
}

impl<T> Drop for Sender<T> {
    fn drop(&mut self) {
        let mut slot = lock(&self.slot);
        if let Slot::Pending = *slot {
            *slot = Slot::Dropped;
        }
    }
}

impl<T: Clone> Receiver<T> {
    pub fn id(&self) -> u64 {
        self.id
    }

    pub fn look(&self) -> Slot<T> {
        lock(&self.slot).clone()
    }
}
