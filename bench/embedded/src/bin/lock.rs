//! The embedded ledger behind a lock, to measure the pipeline against its own engine: each submitter's thread makes its packet, locks,
//! submits, flushes, reads the reply, and unlocks.
//!
//!     lock EVENTS PACKETS SUBMITTERS ROOM
//!     lock live SUBMITTERS LOADS
//!
//! The submitters send what those of `benchmarks pipeline` send, and the line printed is theirs. ROOM is how many transfers capacity is
//! reserved for, or 0. The embedded ledger keeps no journal. `live`: as `peer_lock` does it.

use kip::{Ledger, Outcome};
use peer::layout::{BATCH_MAX, Failure};
use peer::lock::{self, Committed, Load, line_of_run, run_live};
use peer::packet::Packet;
use std::error::Error;

struct Embedded {
    ledger: Ledger,
    /// The results of the last reply.
    results: Vec<u8>,
}

impl lock::Ledger for Embedded {
    fn commit(&mut self, packet: Packet) -> Committed {
        let Packet { submitter, operation, ref bytes } = packet;
        self.ledger.submit(submitter, operation, bytes, 0).expect("queued");
        self.ledger.flush().expect("flushed");
        let reply = self.ledger.reply(&mut self.results).expect("a reply");
        let Outcome::Committed { place, .. } = reply.outcome else { panic!("it isn't committed") };
        let failures = reply.failures().expect("it is committed");
        let failures = failures.into_iter().map(|each| Failure { index: each.index, code: each.result }).collect();
        Committed { place, failures, packet: Some(packet) }
    }

    fn sum_of_balances(&mut self, accounts: usize) -> u128 {
        (0..accounts)
            .filter_map(|index| self.ledger.account_at(index))
            .map(|account| account.id * (3 * account.debits_posted + account.credits_posted))
            .sum()
    }
}

/// A ledger of so many submitters.
fn open(submitters: u32) -> Result<Embedded, Box<dyn Error>> {
    let ledger = Ledger::open(0, BATCH_MAX, submitters)?;
    Ok(Embedded { ledger, results: Vec::new() })
}

/// The line of a run.
fn line_of(load: Load, room: usize) -> Result<String, Box<dyn Error>> {
    let mut embedded = open(load.submitters)?;
    if room > 0 {
        embedded.ledger.reserve(load.accounts(), room)?;
    }
    line_of_run(embedded, load).map_err(|why| format!("{why:?}").into())
}

fn main() -> Result<(), Box<dyn Error>> {
    let words: Vec<String> = std::env::args().skip(1).collect();
    let words: Vec<&str> = words.iter().map(String::as_str).collect();
    match words[..] {
        ["live", submitters, loads] => {
            let submitters = submitters.parse()?;
            run_live(open(submitters)?, submitters, loads.parse()?).map_err(|why| format!("{why:?}"))?;
        }
        [events, packets, submitters, room] => {
            let load = Load { events: events.parse()?, packets: packets.parse()?, submitters: submitters.parse()? };
            println!("{}", line_of(load, room.parse()?)?);
        }
        _ => return Err("usage: EVENTS PACKETS SUBMITTERS ROOM | live SUBMITTERS LOADS".into()),
    }
    Ok(())
}
