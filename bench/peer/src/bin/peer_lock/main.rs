//! A lock round a state machine in Rust, to measure the pipeline of this repository against: each submitter's thread makes its
//! packet, locks, commits and unlocks.
//!
//!     peer_lock indexed|strong run|bare EVENTS PACKETS SUBMITTERS ROOM
//!     peer_lock indexed|strong live SUBMITTERS LOADS
//!
//! The submitters send what those of `peer_pipeline` and `benchmarks pipeline` send, and the line printed is theirs. `run` keeps each
//! committed packet's bytes in a journal, `bare` keeps none. ROOM is how many transfers capacity is reserved for, or 0.
//!
//! `live`: the first thread commits a packet of one event for each byte of the standard input, and writes a byte after it. LOADS others
//! commit packets of one event, one after the other, until the input ends, the rest sleep until then. It keeps a journal.

use peer::layout::CREATE_ACCOUNTS;
use peer::lock::{Committed, Ledger, Load, line_of_run, run_live};
use peer::machine::Machine;
use peer::packet::Packet;
use peer::state_machine::StateMachine;
use peer::strong::Machine as StrongMachine;
use std::error::Error;

/// A state machine, and what it committed if that is kept.
struct MachineLedger<M> {
    machine: M,
    journal: Option<Vec<Packet>>,
    places: u64,
}

impl<M: StateMachine + Send> Ledger for MachineLedger<M> {
    fn commit(&mut self, packet: Packet) -> Committed {
        let failures = if packet.operation == CREATE_ACCOUNTS {
            self.machine.create_accounts(&packet.bytes)
        } else {
            self.machine.create_transfers(&packet.bytes)
        };
        let place = self.places;
        self.places += 1;
        let packet = match &mut self.journal {
            Some(journal) => {
                journal.push(packet);
                None
            }
            None => Some(packet),
        };
        Committed {
            place,
            failures,
            packet,
        }
    }

    fn sum_of_balances(&mut self, accounts: usize) -> u128 {
        self.machine.sum_of_balances(accounts)
    }
}

impl<M: StateMachine> MachineLedger<M> {
    fn new(machine: M, journal: Option<Vec<Packet>>) -> MachineLedger<M> {
        MachineLedger {
            machine,
            journal,
            places: 0,
        }
    }
}

/// The journal that a command begins with.
fn journal_of(command: &str) -> Result<Option<Vec<Packet>>, String> {
    match command {
        "run" => Ok(Some(Vec::new())),
        "bare" => Ok(None),
        _ => Err(format!("no command: {command}")),
    }
}

/// The line that the arguments ask for, which is empty for a live run.
fn line_of<M: StateMachine + Send>(words: &[&str]) -> Result<String, Box<dyn Error>> {
    match words {
        ["live", submitters, loads] => {
            let ledger = MachineLedger::new(M::with_room(0, 0), Some(Vec::new()));
            run_live(ledger, submitters.parse()?, loads.parse()?)
                .map_err(|why| format!("{why:?}"))?;
            Ok(String::new())
        }
        [command, events, packets, submitters, room] => {
            let load = Load {
                events: events.parse()?,
                packets: packets.parse()?,
                submitters: submitters.parse()?,
            };
            let machine = M::with_room(load.accounts(), room.parse()?);
            let ledger = MachineLedger::new(machine, journal_of(command)?);
            line_of_run(ledger, load).map_err(|why| format!("{why:?}").into())
        }
        _ => Err(USAGE.into()),
    }
}

const USAGE: &str = "usage: indexed|strong run|bare EVENTS PACKETS SUBMITTERS ROOM | \
                     indexed|strong live SUBMITTERS LOADS";

fn main() -> Result<(), Box<dyn Error>> {
    let words: Vec<String> = std::env::args().skip(1).collect();
    let words: Vec<&str> = words.iter().map(String::as_str).collect();
    let line = match words.split_first() {
        Some((&"indexed", asked)) => line_of::<Machine>(asked)?,
        Some((&"strong", asked)) => line_of::<StrongMachine>(asked)?,
        _ => return Err(USAGE.into()),
    };
    if !line.is_empty() {
        println!("{line}");
    }
    Ok(())
}
