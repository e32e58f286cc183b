//! How a thread waits for the work of another: it yields for ever, or after some yields it sleeps until it is woken.

use crossbeam_utils::Backoff;
use std::collections::VecDeque;
use std::sync::Mutex;
use std::sync::atomic::{AtomicBool, Ordering, fence};
use std::thread::{self, Thread};

/// Where threads wait for one kind of change, as a value in a ring or a free slot.
pub trait Waiting: Default + Send + Sync {
    /// Tries until an attempt succeeds, and returns its result. A failed attempt returns the value for the next one.
    fn until<T, U>(&self, value: T, attempt: impl FnMut(T) -> Result<U, T>) -> U;

    /// Wakes a thread that sleeps here. To be called after each change with which an attempt may succeed.
    fn wake(&self);
}

/// A thread yields for ever, and nobody wakes it.
#[derive(Default)]
pub struct Yielding;

impl Waiting for Yielding {
    fn until<T, U>(&self, mut value: T, mut attempt: impl FnMut(T) -> Result<U, T>) -> U {
        let backoff = Backoff::new();
        loop {
            match attempt(value) {
                Ok(done) => return done,
                Err(back) => value = back,
            }
            backoff.snooze();
        }
    }

    fn wake(&self) {}
}

/// How many times a thread tries before it enters the sleepers, with a yield after each.
const LOOKS: u32 = 64;

/// A thread yields some times, and then sleeps.
///
/// A thread that is about to sleep enters the sleepers before its last attempt. Whoever changes something looks for sleepers after that.
/// Each has a fence between the two, so the attempt sees the change, or the other sees the sleeper.
#[derive(Default)]
pub struct Parking {
    /// Whether there are sleepers. Changed only under their lock.
    any: AtomicBool,
    /// The threads that sleep or are about to, in the order in which they came.
    sleepers: Mutex<VecDeque<Thread>>,
}

impl Parking {
    /// Changes the sleepers.
    fn change<U>(&self, change: impl FnOnce(&mut VecDeque<Thread>) -> U) -> U {
        let mut sleepers = self.sleepers.lock().expect("no thread panics");
        let result = change(&mut sleepers);
        self.any.store(!sleepers.is_empty(), Ordering::Relaxed);
        result
    }

    /// Adds this thread to the sleepers, unless it still is one after it was woken for another reason.
    fn enter(&self) {
        let own = thread::current();
        self.change(|sleepers| {
            if sleepers.iter().all(|each| each.id() != own.id()) {
                sleepers.push_back(own);
            }
        });
        fence(Ordering::SeqCst);
    }

    /// Removes this thread from the sleepers. If another has just woken it, it wakes the next one in its place.
    fn leave(&self) {
        let own = thread::current().id();
        let was_woken = self.change(|sleepers| {
            let before = sleepers.len();
            sleepers.retain(|each| each.id() != own);
            sleepers.len() == before
        });
        if was_woken {
            self.wake_first();
        }
    }

    /// Wakes the sleeper that came first.
    #[cold]
    fn wake_first(&self) {
        if let Some(first) = self.change(VecDeque::pop_front) {
            first.unpark();
        }
    }
}

impl Waiting for Parking {
    fn until<T, U>(&self, mut value: T, mut attempt: impl FnMut(T) -> Result<U, T>) -> U {
        for _ in 0..LOOKS {
            match attempt(value) {
                Ok(done) => return done,
                Err(back) => value = back,
            }
            thread::yield_now();
        }
        loop {
            self.enter();
            match attempt(value) {
                Ok(done) => {
                    self.leave();
                    return done;
                }
                Err(back) => value = back,
            }
            thread::park();
        }
    }

    fn wake(&self) {
        fence(Ordering::SeqCst);
        if self.any.load(Ordering::Relaxed) {
            self.wake_first();
        }
    }
}
