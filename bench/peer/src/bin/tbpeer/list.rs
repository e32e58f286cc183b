//! Items in their order, in one thread: packets joined with their neighbours, committed, and answered one by one.

use crate::script::Item;
use peer::layout::{Account, CREATE_ACCOUNTS, Failure, LOOKUP_ACCOUNTS};
use peer::machine::Machine;
use peer::packet::{Entry, Packet, Refusal, Stub};

const MOMENT_MAX: u64 = 1 << 62;

/// An admitted packet with its number and how many events it has.
pub struct Job {
    pub packet: Packet,
    pub number: u64,
    count: u32,
}

pub enum Outcome {
    Failures(u64, Vec<Failure>),
    Accounts(u64, Vec<Account>),
    Shutdown,
}

/// A packet as it was handed in, with what became of it.
pub struct Reply {
    pub job: Job,
    pub outcome: Outcome,
}

/// What an item prints.
pub enum Line {
    /// The next reply.
    Packet,
    Refused(u32, Refusal),
    Pulse(u64),
    RefusedPulse,
    Shut,
}

/// Packets of one operation that are committed as one.
struct Group {
    jobs: Vec<Job>,
    events: u32,
    may_share: bool,
}

pub struct List {
    pub machine: Machine,
    pub replies: Vec<Reply>,
    journal: Vec<Entry>,
    limit: u32,
    places: u64,
    numbers: [u64; 16],
    is_shut: bool,
    held: Group,
}

impl Group {
    fn takes(&self, limit: u32, job: &Job, may_share: bool) -> bool {
        self.jobs.first().is_some_and(|first| {
            self.may_share
                && may_share
                && first.packet.operation == job.packet.operation
                && self.events + job.count <= limit
        })
    }

    /// The data of its packets as one, and their places in the journal.
    fn joined(&self) -> (Vec<u8>, Vec<Stub>) {
        let size = self.jobs.iter().map(|job| job.packet.bytes.len()).sum();
        let mut body = Vec::with_capacity(size);
        let mut stubs = Vec::with_capacity(self.jobs.len());
        for job in &self.jobs {
            body.extend_from_slice(&job.packet.bytes);
            stubs.push(Stub {
                submitter: job.packet.submitter,
                number: job.number,
                count: job.count,
            });
        }
        (body, stubs)
    }
}

impl List {
    pub fn new(clock: u64, limit: u32) -> List {
        List {
            machine: Machine::new(clock),
            replies: Vec::new(),
            journal: Vec::new(),
            limit,
            places: 0,
            numbers: [0; 16],
            is_shut: false,
            held: Group {
                jobs: Vec::new(),
                events: 0,
                may_share: false,
            },
        }
    }

    /// Runs the items, and answers what each prints.
    pub fn run(&mut self, items: Vec<Item>) -> Vec<Line> {
        let lines = items.into_iter().map(|item| self.take(item)).collect();
        self.seal();
        lines
    }

    fn take(&mut self, item: Item) -> Line {
        match item {
            Item::Packet(packet) => match packet.admit(self.limit) {
                Ok(count) => self.packet(packet, count),
                Err(refusal) => Line::Refused(packet.submitter, refusal),
            },
            Item::Pulse(moment) if moment > MOMENT_MAX => Line::RefusedPulse,
            Item::Pulse(moment) => Line::Pulse(self.pulse(moment)),
            Item::Shut => {
                self.seal();
                self.is_shut = true;
                Line::Shut
            }
        }
    }

    fn packet(&mut self, packet: Packet, count: u32) -> Line {
        let next = &mut self.numbers[packet.submitter as usize];
        let number = *next;
        *next += 1;
        let job = Job {
            packet,
            number,
            count,
        };
        if self.is_shut {
            self.replies.push(Reply {
                job,
                outcome: Outcome::Shutdown,
            });
        } else {
            self.join(job);
        }
        Line::Packet
    }

    /// Puts a packet into the group held, or commits that and begins another.
    fn join(&mut self, job: Job) {
        let may_share = job.packet.may_share();
        if !self.held.takes(self.limit, &job, may_share) {
            self.seal();
            self.held.may_share = may_share;
        }
        self.held.events += job.count;
        self.held.jobs.push(job);
    }

    /// Answers the pulse's place.
    fn pulse(&mut self, moment: u64) -> u64 {
        self.seal();
        self.machine.pulse(moment);
        self.journal.push(Entry::Pulse { moment });
        self.places += 1;
        self.places - 1
    }

    /// Commits the group held.
    fn seal(&mut self) {
        let Some(first) = self.held.jobs.first() else {
            return;
        };
        let operation = first.packet.operation;
        let (body, stubs) = self.held.joined();
        if operation == LOOKUP_ACCOUNTS {
            self.look_up(&body);
        } else {
            let failures = if operation == CREATE_ACCOUNTS {
                self.machine.create_accounts(&body)
            } else {
                self.machine.create_transfers(&body)
            };
            self.cut(&failures);
        }
        self.journal.push(Entry::Batch {
            operation,
            body,
            stubs,
        });
        self.held.events = 0;
    }

    /// A lookup is alone in its group.
    fn look_up(&mut self, body: &[u8]) {
        for job in self.held.jobs.drain(..) {
            let found = self.machine.lookup_accounts(body);
            self.replies.push(Reply {
                job,
                outcome: Outcome::Accounts(self.places, found),
            });
            self.places += 1;
        }
    }

    /// Gives each packet of the group its own failures.
    fn cut(&mut self, failures: &[Failure]) {
        let mut left = failures;
        let mut offset = 0;
        for job in self.held.jobs.drain(..) {
            let end = offset + job.count;
            let (own, rest) = left.split_at(left.partition_point(|failure| failure.index < end));
            let own = own.iter().map(|failure| Failure {
                index: failure.index - offset,
                code: failure.code,
            });
            self.replies.push(Reply {
                outcome: Outcome::Failures(self.places, own.collect()),
                job,
            });
            self.places += 1;
            left = rest;
            offset = end;
        }
    }
}
