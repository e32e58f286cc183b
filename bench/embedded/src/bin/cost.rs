//! What a call of the embedded ledger costs, beside a direct call of the peer's state machine: `cost TRANSFERS EVENTS`.
//!
//! Both commit the same plain transfers between a thousand accounts, in packets of EVENTS, made ahead. The embedded ledger flushes and
//! reads the reply after each packet. Prints nanoseconds an event of both, and of a call that commits nothing.

use kip::{CREATE_ACCOUNTS, CREATE_TRANSFERS, Ledger};
use peer::machine::Machine;
use std::hint::black_box;
use std::time::Instant;

const ACCOUNTS: u64 = 1000;

fn account(id: u64) -> [u8; 128] {
    let mut bytes = [0; 128];
    bytes[..8].copy_from_slice(&id.to_le_bytes());
    bytes[112] = 1;
    bytes[116] = 1;
    bytes
}

fn transfer(id: u64) -> [u8; 128] {
    let mut bytes = account(id);
    let debit = 1 + id % ACCOUNTS;
    bytes[16..24].copy_from_slice(&debit.to_le_bytes());
    bytes[32..40].copy_from_slice(&(1 + debit % ACCOUNTS).to_le_bytes());
    bytes[48] = 1;
    bytes
}

/// Runs something once, and returns the nanoseconds that each of some parts took.
fn nanoseconds(parts: u64, run: impl FnOnce()) -> f64 {
    let begin = Instant::now();
    run();
    begin.elapsed().as_nanos() as f64 / parts as f64
}

fn main() {
    let words: Vec<usize> = std::env::args().skip(1).map(|word| word.parse().expect("a number")).collect();
    let [transfers, events] = words[..] else { panic!("two numbers") };
    let accounts: Vec<u8> = (1..=ACCOUNTS).flat_map(account).collect();
    let data: Vec<u8> = (1..=transfers as u64).flat_map(transfer).collect();
    let mut ledger = Ledger::open(0, 8190, 1).expect("settings");
    let mut machine = Machine::new(0);
    let mut results = Vec::new();
    ledger.reserve(1000, transfers).expect("memory");
    machine.reserve(1000, transfers);
    ledger.submit(0, CREATE_ACCOUNTS, &accounts, 0).expect("queued");
    ledger.flush().expect("flushed");
    assert!(ledger.reply(&mut results).expect("a reply").succeeded());
    machine.create_accounts(&accounts);
    let ours = nanoseconds(transfers as u64, || {
        for packet in data.chunks(128 * events) {
            ledger.submit(0, CREATE_TRANSFERS, packet, 0).expect("queued");
            ledger.flush().expect("flushed");
            assert!(ledger.reply(&mut results).expect("a reply").succeeded());
        }
    });
    let peers = nanoseconds(transfers as u64, || {
        for packet in data.chunks(128 * events) {
            assert!(machine.create_transfers(packet).is_empty());
        }
    });
    assert_eq!(ledger.clock(), machine.clock());
    let call = nanoseconds(10_000_000, || {
        for _ in 0..10_000_000 {
            black_box(ledger.clock());
        }
    });
    println!("{events} events a packet: embedded {ours:.0} ns an event, peer {peers:.0}, ratio {:.2}; a call {call:.1} ns", ours / peers);
}
