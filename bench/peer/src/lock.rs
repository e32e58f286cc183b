//! A ledger behind a lock: each thread makes its packet, locks, commits and unlocks.

use crate::events::{ACCOUNTS, accounts, transfers};
use crate::layout::{BATCH_MAX, Failure};
use crate::live::{self, Over, Part};
use crate::packet::{Packet, Refusal};
use crate::tally::Tally;
use std::sync::Mutex;
use std::thread;

/// What is behind the lock.
pub trait Ledger: Send {
    fn commit(&mut self, packet: Packet) -> Committed;

    /// A sum over the balances of the first accounts, whatever their order.
    fn sum_of_balances(&mut self, accounts: usize) -> u128;
}

/// The result of a commit.
pub struct Committed {
    pub place: u64,
    pub failures: Vec<Failure>,
    /// The packet, unless a journal keeps it: its thread frees it after it has unlocked.
    pub packet: Option<Packet>,
}

/// What each of the submitters sends: `packets` packets of `events` events, one after the other.
#[derive(Clone, Copy)]
pub struct Load {
    pub events: u64,
    pub packets: u64,
    pub submitters: u32,
}

impl Load {
    /// The accounts of all submitters.
    pub fn accounts(&self) -> usize {
        self.submitters as usize * ACCOUNTS as usize
    }
}

fn commit<L: Ledger>(ledger: &Mutex<L>, packet: Packet, tally: &mut Tally) -> Result<(), Refusal> {
    packet.admit(BATCH_MAX)?;
    let committed = ledger.lock().expect("no thread panics").commit(packet);
    tally.add(committed.failures.len(), committed.place);
    Ok(())
}

/// Makes the submitter's accounts, and then its load; the sums over its replies.
fn send<L: Ledger>(ledger: &Mutex<L>, submitter: u32, load: Load) -> Result<Tally, Refusal> {
    let mut tally = Tally::default();
    commit(ledger, accounts(submitter), &mut tally)?;
    for number in 0..load.packets {
        let packet = transfers(submitter, number * load.events, load.events);
        commit(ledger, packet, &mut tally)?;
    }
    Ok(tally)
}

/// Runs a thread for each submitter, which drives it; the sums over all replies.
fn run(
    submitters: u32,
    drive: impl Fn(u32) -> Result<Tally, Refusal> + Sync,
) -> Result<Tally, Refusal> {
    let drive = &drive;
    thread::scope(|scope| {
        let threads: Vec<_> = (0..submitters)
            .map(|submitter| scope.spawn(move || drive(submitter)))
            .collect();
        let mut tally = Tally::default();
        for thread in threads {
            tally.join(&thread.join().expect("no thread panics")?);
        }
        Ok(tally)
    })
}

/// The line of a run.
pub fn line_of_run<L: Ledger>(ledger: L, load: Load) -> Result<String, Refusal> {
    let ledger = Mutex::new(ledger);
    let tally = run(load.submitters, |submitter| send(&ledger, submitter, load))?;
    let mut ledger = ledger.into_inner().expect("no thread panics");
    let balances = ledger.sum_of_balances(load.accounts());
    Ok(format!("{tally} balances {balances}"))
}

/// Commits a packet of one event for each byte of the input, and writes a byte after it.
fn echo<L: Ledger>(ledger: &Mutex<L>, submitter: u32) -> Result<Tally, Refusal> {
    let mut tally = Tally::default();
    live::echo(|sent| commit(ledger, transfers(submitter, sent, 1), &mut tally))?;
    Ok(tally)
}

/// Commits packets of one event, one after the other, until the input has ended.
fn load_until<L: Ledger>(ledger: &Mutex<L>, submitter: u32, over: &Over) -> Result<Tally, Refusal> {
    let mut tally = Tally::default();
    commit(ledger, accounts(submitter), &mut tally)?;
    let mut sent = 0;
    while !over.is_ended() {
        commit(ledger, transfers(submitter, sent, 1), &mut tally)?;
        sent += 1;
    }
    Ok(tally)
}

/// A live run, until its input ends; this number of submitters load the ledger meanwhile.
pub fn run_live<L: Ledger>(ledger: L, submitters: u32, loads: u32) -> Result<(), Refusal> {
    let ledger = Mutex::new(ledger);
    let over = Over::default();
    run(submitters, |submitter| match Part::of(submitter, loads) {
        Part::Echoes => {
            let tally = echo(&ledger, submitter);
            over.end();
            tally
        }
        Part::Loads => load_until(&ledger, submitter, &over),
        Part::Sleeps => {
            over.wait();
            Ok(Tally::default())
        }
    })?;
    Ok(())
}
