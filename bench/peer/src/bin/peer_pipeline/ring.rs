//! A ring from one thread to one other, by the algorithm of the crate `rtrb` (which Debian doesn't package): each end
//! keeps its own position and the last that it saw of the other, and shares its own on a cache line by itself.

use crossbeam_utils::CachePadded;
use std::cell::UnsafeCell;
use std::mem::MaybeUninit;
use std::sync::Arc;
use std::sync::atomic::{AtomicUsize, Ordering};

/// Positions run from 0 to twice the number of slots, so that a full ring and an empty one differ.
struct Ring<T> {
    head: CachePadded<AtomicUsize>,
    tail: CachePadded<AtomicUsize>,
    slots: Box<[UnsafeCell<MaybeUninit<T>>]>,
}

// Safety: a slot is written by the one producer alone, before it moves `tail` past it, and read by the one consumer
// alone, before that moves `head` past it.
unsafe impl<T: Send> Send for Ring<T> {}
unsafe impl<T: Send> Sync for Ring<T> {}

pub struct Producer<T> {
    ring: Arc<Ring<T>>,
    head_seen: usize,
    tail: usize,
}

pub struct Consumer<T> {
    ring: Arc<Ring<T>>,
    head: usize,
    tail_seen: usize,
}

pub fn ring<T>(capacity: usize) -> (Producer<T>, Consumer<T>) {
    let ring = Arc::new(Ring {
        head: CachePadded::new(AtomicUsize::new(0)),
        tail: CachePadded::new(AtomicUsize::new(0)),
        slots: (0..capacity)
            .map(|_| UnsafeCell::new(MaybeUninit::uninit()))
            .collect(),
    });
    let producer = Producer {
        ring: ring.clone(),
        head_seen: 0,
        tail: 0,
    };
    let consumer = Consumer {
        ring,
        head: 0,
        tail_seen: 0,
    };
    (producer, consumer)
}

impl<T> Ring<T> {
    fn slot(&self, position: usize) -> *mut MaybeUninit<T> {
        let capacity = self.slots.len();
        let index = if position < capacity {
            position
        } else {
            position - capacity
        };
        // Safety: positions are below twice the number of slots.
        unsafe { self.slots.get_unchecked(index).get() }
    }

    fn after(&self, position: usize) -> usize {
        if position + 1 < 2 * self.slots.len() {
            position + 1
        } else {
            0
        }
    }

    fn is_full(&self, head: usize, tail: usize) -> bool {
        let capacity = self.slots.len();
        tail == head + capacity || head == tail + capacity
    }
}

impl<T> Producer<T> {
    /// Where the ring is full the value comes back.
    pub fn push(&mut self, value: T) -> Result<(), T> {
        let ring = &*self.ring;
        if ring.is_full(self.head_seen, self.tail) {
            self.head_seen = ring.head.load(Ordering::Acquire);
            if ring.is_full(self.head_seen, self.tail) {
                return Err(value);
            }
        }
        // Safety: the slot is free, and only this producer writes.
        unsafe { (*ring.slot(self.tail)).write(value) };
        self.tail = ring.after(self.tail);
        ring.tail.store(self.tail, Ordering::Release);
        Ok(())
    }
}

impl<T> Consumer<T> {
    pub fn pop(&mut self) -> Option<T> {
        let ring = &*self.ring;
        if self.head == self.tail_seen {
            self.tail_seen = ring.tail.load(Ordering::Acquire);
            if self.head == self.tail_seen {
                return None;
            }
        }
        // Safety: the slot was written, and only this consumer reads; it reads each once.
        let value = unsafe { (*ring.slot(self.head)).assume_init_read() };
        self.head = ring.after(self.head);
        ring.head.store(self.head, Ordering::Release);
        Some(value)
    }
}

impl<T> Drop for Consumer<T> {
    fn drop(&mut self) {
        while self.pop().is_some() {}
    }
}
