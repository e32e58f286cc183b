//! What goes between the threads.

use peer::layout::Failure;
use peer::packet::{Packet, Stub};

/// An admitted packet with its number, how many events it has, and room for their failures.
pub struct Job {
    pub packet: Packet,
    pub number: u64,
    pub count: u32,
    pub failures: Vec<Failure>,
}

pub enum Item {
    Packet(Job),
    End,
}

/// Packets of one operation whose data is committed as one.
pub struct Batch {
    pub operation: u8,
    pub body: Vec<u8>,
    pub stubs: Vec<Stub>,
    pub jobs: Vec<Job>,
}

pub enum Parcel {
    Batch(Batch),
    Last,
}

pub enum Outcome {
    /// The jobs of a batch, the place of the first, and their failures.
    Committed {
        place: u64,
        jobs: Vec<Job>,
        failures: Vec<Failure>,
    },
    Last,
}

/// A committed packet as it was handed in, with its place and its failures.
pub struct Reply {
    pub job: Job,
    pub place: u64,
}
