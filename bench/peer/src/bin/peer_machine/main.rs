//! Commits packets to one of two state machines in Rust, to measure the one of this repository against.
//!
//!     peer_machine indexed|strong commit|times|make KIND EVENTS PACKETS ACCOUNTS ROOM SEED
//!
//! The commands, the kinds of events and what is printed are those of `bench_machine`; the seed is left out of account.

mod commit;
mod events;

use commit::{Load, commit_packets, make_packets, time_packets};
use peer::machine::Machine;
use peer::state_machine::StateMachine;
use peer::strong::Machine as StrongMachine;
use std::error::Error;

fn line_with<M: StateMachine>(command: &str, load: Load) -> Result<String, Box<dyn Error>> {
    match command {
        "commit" => {
            let (failures, balances) = commit_packets::<M>(load);
            Ok(format!("failures {failures} balances {balances}"))
        }
        "times" => {
            let (median, longest) = time_packets::<M>(load);
            Ok(format!("median {median} longest {longest}"))
        }
        "make" => Ok(format!("bytes {}", make_packets::<M>(load))),
        _ => Err(format!("no command: {command}").into()),
    }
}

fn line_of(words: &[&str]) -> Result<String, Box<dyn Error>> {
    let [
        machine,
        command,
        kind,
        events,
        packets,
        accounts,
        room,
        _seed,
    ] = words
    else {
        return Err(
            "usage: indexed|strong commit|times|make KIND EVENTS PACKETS ACCOUNTS ROOM SEED".into(),
        );
    };
    let load = Load {
        kind: kind.parse()?,
        events: events.parse()?,
        packets: packets.parse()?,
        accounts: accounts.parse()?,
        room: room.parse()?,
    };
    match *machine {
        "indexed" => line_with::<Machine>(command, load),
        "strong" => line_with::<StrongMachine>(command, load),
        _ => Err(format!("no machine: {machine}").into()),
    }
}

fn main() -> Result<(), Box<dyn Error>> {
    let words: Vec<String> = std::env::args().skip(1).collect();
    let words: Vec<&str> = words.iter().map(String::as_str).collect();
    println!("{}", line_of(&words)?);
    Ok(())
}
