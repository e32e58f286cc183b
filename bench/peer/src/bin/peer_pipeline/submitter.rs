//! A submitter in a thread of its own.

use crate::ends::{Inlet, Queue};
use crate::waiting::Waiting;
use crate::work::{Item, Job, Reply};
use peer::events::{accounts, transfers};
use peer::packet::{Packet, Refusal};
use peer::tally::Tally;
use std::sync::Arc;

pub struct Submitter<W> {
    pub queue: Arc<Queue<W>>,
    pub replies: Inlet<Reply, W>,
    pub submitter: u32,
    /// The most events of a packet.
    pub limit: u32,
    /// How many packets were queued.
    pub queued: u64,
}

/// What a submitter sends: `packets` packets of `events` events, with at most `credit` of them unanswered.
#[derive(Clone, Copy)]
pub struct Load {
    pub events: u64,
    pub packets: u64,
    pub credit: u64,
}

impl<W: Waiting> Submitter<W> {
    /// The packet's number.
    pub fn submit(&mut self, packet: Packet) -> Result<u64, Refusal> {
        let count = packet.admit(self.limit)?;
        let number = self.queued;
        let job = Job {
            packet,
            number,
            count,
            failures: Vec::with_capacity(count as usize),
        };
        self.queue.give(Item::Packet(job));
        self.queued += 1;
        Ok(number)
    }

    /// Waits for the next reply.
    pub fn receive(&mut self, tally: &mut Tally) {
        let reply = self.replies.take();
        tally.add(reply.job.failures.len(), reply.place);
    }

    /// Makes the accounts, and then sends the load; the sums over its replies.
    fn send(&mut self, load: Load) -> Result<Tally, Refusal> {
        let mut tally = Tally::default();
        self.submit(accounts(self.submitter))?;
        self.receive(&mut tally);
        for number in 0..load.packets {
            self.submit(transfers(self.submitter, number * load.events, load.events))?;
            if number + 1 >= load.credit {
                self.receive(&mut tally);
            }
        }
        for _ in 1..load.credit.min(load.packets + 1) {
            self.receive(&mut tally);
        }
        Ok(tally)
    }

    /// Sends the load, and ends.
    pub fn drive(mut self, load: Load) -> Result<Tally, Refusal> {
        let tally = self.send(load);
        self.end();
        tally
    }

    /// Queues nothing more.
    pub fn end(&self) {
        self.queue.give(Item::End);
    }
}
