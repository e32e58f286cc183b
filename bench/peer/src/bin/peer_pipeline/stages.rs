//! The stages: batcher, committer and demultiplexer, each in a thread of its own.

use crate::ends::{Inlet, Outlet, Queue};
use crate::waiting::Waiting;
use crate::work::{Batch, Item, Job, Outcome, Parcel, Reply};
use peer::layout::{CREATE_ACCOUNTS, EVENT_SIZE, Failure};
use peer::machine::Machine;
use peer::packet::{Entry, Stub};

/// The batch that is held, which neighbours may join.
struct Group {
    batch: Batch,
    may_share: bool,
}

fn stub_of(job: &Job) -> Stub {
    Stub {
        submitter: job.packet.submitter,
        number: job.number,
        count: job.count,
    }
}

impl Group {
    fn new(job: Job, may_share: bool) -> Group {
        let batch = Batch {
            operation: job.packet.operation,
            body: job.packet.bytes.clone(),
            stubs: vec![stub_of(&job)],
            jobs: vec![job],
        };
        Group { batch, may_share }
    }

    fn takes(&self, job: &Job, may_share: bool, limit: u32) -> bool {
        self.may_share
            && may_share
            && self.batch.operation == job.packet.operation
            && self.batch.body.len() + job.packet.bytes.len() <= limit as usize * EVENT_SIZE
    }

    fn add(&mut self, job: Job) {
        self.batch.body.extend_from_slice(&job.packet.bytes);
        self.batch.stubs.push(stub_of(&job));
        self.batch.jobs.push(job);
    }
}

fn give_held<W: Waiting>(held: &mut Option<Group>, batches: &mut Outlet<Parcel, W>) {
    if let Some(group) = held.take() {
        batches.give(Parcel::Batch(group.batch));
    }
}

/// Puts a packet into the batch held, or hands that on and begins another.
fn join<W: Waiting>(
    held: &mut Option<Group>,
    job: Job,
    limit: u32,
    batches: &mut Outlet<Parcel, W>,
) {
    let may_share = job.packet.may_share();
    match held {
        Some(group) if group.takes(&job, may_share, limit) => group.add(job),
        _ => {
            give_held(held, batches);
            *held = Some(Group::new(job, may_share));
        }
    }
}

/// Joins packets to batches until all submitters have ended.
pub fn batch_all<W: Waiting>(
    queue: &Queue<W>,
    submitters: usize,
    limit: u32,
    mut batches: Outlet<Parcel, W>,
) {
    let mut held = None;
    let mut ended = 0;
    while ended < submitters {
        let item = queue.try_take().unwrap_or_else(|| {
            give_held(&mut held, &mut batches);
            queue.take()
        });
        match item {
            Item::Packet(job) => join(&mut held, job, limit, &mut batches),
            Item::End => ended += 1,
        }
    }
    give_held(&mut held, &mut batches);
    batches.give(Parcel::Last);
}

/// The machine and what it committed.
pub struct Ledger {
    pub machine: Machine,
    journal: Vec<Entry>,
    places: u64,
}

impl Ledger {
    fn commit(&mut self, batch: Batch) -> Outcome {
        let Batch {
            operation,
            body,
            stubs,
            jobs,
        } = batch;
        let failures = if operation == CREATE_ACCOUNTS {
            self.machine.create_accounts(&body)
        } else {
            self.machine.create_transfers(&body)
        };
        self.journal.push(Entry::Batch {
            operation,
            body,
            stubs,
        });
        let place = self.places;
        self.places += jobs.len() as u64;
        Outcome::Committed {
            place,
            jobs,
            failures,
        }
    }
}

/// Commits batches to a new machine until the last parcel.
pub fn commit_all<W: Waiting>(
    machine: Machine,
    mut batches: Inlet<Parcel, W>,
    mut outcomes: Outlet<Outcome, W>,
) -> Ledger {
    let mut ledger = Ledger {
        machine,
        journal: Vec::new(),
        places: 0,
    };
    while let Parcel::Batch(batch) = batches.take() {
        outcomes.give(ledger.commit(batch));
    }
    outcomes.give(Outcome::Last);
    ledger
}

/// Gives each packet of a batch its own failures, and hands it back.
fn route<W: Waiting>(
    replies: &mut [Outlet<Reply, W>],
    place: u64,
    jobs: Vec<Job>,
    failures: &[Failure],
) {
    let mut left = failures;
    let mut offset = 0;
    for (mut job, place) in jobs.into_iter().zip(place..) {
        let end = offset + job.count;
        let (own, rest) = left.split_at(left.partition_point(|failure| failure.index < end));
        job.failures.extend(own.iter().map(|failure| Failure {
            index: failure.index - offset,
            code: failure.code,
        }));
        let outlet = &mut replies[job.packet.submitter as usize];
        outlet.give(Reply { job, place });
        left = rest;
        offset = end;
    }
}

/// Hands replies out until the last outcome.
pub fn route_all<W: Waiting>(mut outcomes: Inlet<Outcome, W>, mut replies: Vec<Outlet<Reply, W>>) {
    while let Outcome::Committed {
        place,
        jobs,
        failures,
    } = outcomes.take()
    {
        route(&mut replies, place, jobs, &failures);
    }
}
