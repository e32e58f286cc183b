//! A pipeline in Rust over the original crates, to measure the pipeline of this repository against: submission queue,
//! batcher, committer over the state machine, demultiplexer, and a ring of replies for each submitter.
//!
//!     peer_pipeline yielding|parking run EVENTS PACKETS SUBMITTERS CREDIT CAPACITY LIMIT ROOM
//!     peer_pipeline yielding|parking live SUBMITTERS LOADS
//!
//! A thread that waits yields for ever (`yielding`), or yields 64 times and then sleeps until it is woken (`parking`).
//!
//! `run`: each submitter makes a thousand accounts and sends PACKETS packets of EVENTS plain transfers between them, with at
//! most CREDIT of them unanswered, over a queue of CAPACITY slots and in batches of at most LIMIT events. ROOM is how many
//! transfers capacity is reserved for, or 0. Prints sums over the replies and the balances, which are the same in every order.
//!
//! `live`: the first submitter sends a packet of one event for each byte of the standard input, and writes a byte when it
//! has the reply. LOADS others send packets of one event at credit 16 until the input ends, the rest sleep until then.

mod ends;
mod live;
mod ring;
mod stages;
mod submitter;
mod waiting;
mod work;

use ends::{Queue, ends};
use live::run_live;
use peer::events::ACCOUNTS;
use peer::machine::Machine;
use peer::packet::Refusal;
use peer::state_machine::StateMachine;
use peer::tally::Tally;
use stages::{batch_all, commit_all, route_all};
use std::error::Error;
use std::sync::Arc;
use std::thread;
use submitter::{Load, Submitter};
use waiting::{Parking, Waiting, Yielding};

/// The slots of the rings between the stages.
const STAGE_SLOTS: usize = 8;

/// How a pipeline is opened.
#[derive(Clone, Copy)]
struct Opening {
    submitters: u32,
    /// The slots of the submission queue.
    capacity: usize,
    /// The most events of a batch.
    limit: u32,
    /// How many transfers capacity is reserved for.
    room: usize,
}

impl Opening {
    /// The accounts of all submitters.
    fn accounts(&self) -> usize {
        self.submitters as usize * ACCOUNTS as usize
    }
}

/// What is left of a run: the sums over all replies, and the machine.
struct Report {
    tally: Tally,
    machine: Machine,
}

/// Runs a thread for each submitter, which drives it, and for each stage; this one is the batcher.
fn run<W: Waiting>(
    opening: Opening,
    credit: u64,
    drive: impl Fn(Submitter<W>) -> Result<Tally, Refusal> + Sync,
) -> Result<Report, Refusal> {
    let Opening {
        submitters,
        capacity,
        limit,
        room,
    } = opening;
    let drive = &drive;
    let queue = Arc::new(Queue::new(capacity));
    let (batches, parcels) = ends(STAGE_SLOTS);
    let (made, outcomes) = ends(STAGE_SLOTS);
    let (outlets, inlets): (Vec<_>, Vec<_>) =
        (0..submitters).map(|_| ends(credit as usize)).unzip();
    thread::scope(|scope| {
        let drivers: Vec<_> = (0..submitters)
            .zip(inlets)
            .map(|(submitter, replies)| Submitter {
                queue: queue.clone(),
                replies,
                submitter,
                limit,
                queued: 0,
            })
            .map(|submitter| scope.spawn(move || drive(submitter)))
            .collect();
        let committer = scope
            .spawn(move || commit_all(Machine::with_room(opening.accounts(), room), parcels, made));
        scope.spawn(move || route_all(outcomes, outlets));
        batch_all(&queue, submitters as usize, limit, batches);
        let mut tally = Tally::default();
        for driver in drivers {
            tally.join(&driver.join().expect("a driver doesn't panic")?);
        }
        let ledger = committer.join().expect("the committer doesn't panic");
        Ok(Report {
            tally,
            machine: ledger.machine,
        })
    })
}

/// The line of a run.
fn line_of_run<W: Waiting>(opening: Opening, load: Load) -> Result<String, Refusal> {
    let Report { tally, machine } =
        run::<W>(opening, load.credit, |submitter| submitter.drive(load))?;
    let balances = machine.sum_of_balances(opening.accounts());
    Ok(format!("{tally} balances {balances}"))
}

/// The line that the arguments ask for, which is empty for a live run.
fn line_of<W: Waiting>(words: &[&str]) -> Result<String, Box<dyn Error>> {
    match words {
        [
            "run",
            events,
            packets,
            submitters,
            credit,
            capacity,
            limit,
            room,
        ] => {
            let load = Load {
                events: events.parse()?,
                packets: packets.parse()?,
                credit: credit.parse()?,
            };
            let opening = Opening {
                submitters: submitters.parse()?,
                capacity: capacity.parse()?,
                limit: limit.parse()?,
                room: room.parse()?,
            };
            line_of_run::<W>(opening, load).map_err(|why| format!("{why:?}").into())
        }
        ["live", submitters, loads] => {
            run_live::<W>(submitters.parse()?, loads.parse()?).map_err(|why| format!("{why:?}"))?;
            Ok(String::new())
        }
        _ => Err(USAGE.into()),
    }
}

const USAGE: &str = "usage: yielding|parking run EVENTS PACKETS SUBMITTERS CREDIT CAPACITY LIMIT ROOM | \
                     yielding|parking live SUBMITTERS LOADS";

fn main() -> Result<(), Box<dyn Error>> {
    let words: Vec<String> = std::env::args().skip(1).collect();
    let words: Vec<&str> = words.iter().map(String::as_str).collect();
    let line = match words.split_first() {
        Some((&"yielding", asked)) => line_of::<Yielding>(asked)?,
        Some((&"parking", asked)) => line_of::<Parking>(asked)?,
        _ => return Err(USAGE.into()),
    };
    if !line.is_empty() {
        println!("{line}");
    }
    Ok(())
}
