//! Between the threads: rings from one to one other, and the submission queue. Whoever waits at one is woken by the other side.

use crate::ring::{Consumer, Producer, ring};
use crate::waiting::Waiting;
use crate::work::Item;
use crossbeam_queue::ArrayQueue;
use crossbeam_utils::CachePadded;
use std::sync::Arc;

/// Where both sides of a ring or of a queue wait.
#[derive(Default)]
struct Waits<W> {
    /// For a value.
    values: CachePadded<W>,
    /// For a free slot.
    slots: CachePadded<W>,
}

impl<W: Waiting> Waits<W> {
    /// Pushes a value once there is a slot.
    fn give<T>(&self, value: T, push: impl FnMut(T) -> Result<(), T>) {
        self.slots.until(value, push);
        self.values.wake();
    }

    /// Pops a value if there is one.
    fn try_take<T>(&self, pop: impl FnOnce() -> Option<T>) -> Option<T> {
        let value = pop()?;
        self.slots.wake();
        Some(value)
    }

    /// Pops a value once there is one.
    fn take<T>(&self, mut pop: impl FnMut() -> Option<T>) -> T {
        let value = self.values.until((), |()| pop().ok_or(()));
        self.slots.wake();
        value
    }
}

/// The end of a ring that gives.
pub struct Outlet<T, W> {
    producer: Producer<T>,
    waits: Arc<Waits<W>>,
}

/// The end of a ring that takes.
pub struct Inlet<T, W> {
    consumer: Consumer<T>,
    waits: Arc<Waits<W>>,
}

/// Returns both ends of a new ring with this number of slots.
pub fn ends<T, W: Waiting>(capacity: usize) -> (Outlet<T, W>, Inlet<T, W>) {
    let (producer, consumer) = ring(capacity);
    let waits = Arc::new(Waits::default());
    let outlet = Outlet {
        producer,
        waits: waits.clone(),
    };
    (outlet, Inlet { consumer, waits })
}

impl<T, W: Waiting> Outlet<T, W> {
    /// Gives a value once there is a slot.
    pub fn give(&mut self, value: T) {
        self.waits.give(value, |value| self.producer.push(value));
    }
}

impl<T, W: Waiting> Inlet<T, W> {
    /// Takes the oldest value once there is one.
    pub fn take(&mut self) -> T {
        self.waits.take(|| self.consumer.pop())
    }
}

/// The submission queue.
pub struct Queue<W> {
    items: ArrayQueue<Item>,
    waits: Waits<W>,
}

impl<W: Waiting> Queue<W> {
    pub fn new(capacity: usize) -> Queue<W> {
        Queue {
            items: ArrayQueue::new(capacity),
            waits: Waits::default(),
        }
    }

    /// Queues an item once there is a slot.
    pub fn give(&self, item: Item) {
        self.waits.give(item, |item| self.items.push(item));
    }

    /// Takes the oldest item if there is one.
    pub fn try_take(&self) -> Option<Item> {
        self.waits.try_take(|| self.items.pop())
    }

    /// Takes the oldest item once there is one.
    pub fn take(&self) -> Item {
        self.waits.take(|| self.items.pop())
    }
}
