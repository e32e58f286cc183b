//! Commits.

use crate::events::{Kind, event_of};
use peer::layout::EVENT_SIZE;
use peer::state_machine::StateMachine;
use std::time::Duration;

/// The events of a packet of accounts that are made before the packets.
const MADE_AT_ONCE: u64 = 1000;

/// The packets to make: their kind, how many events each has, and how many there are; how many accounts they use, and
/// the number of transfers to reserve room for.
#[derive(Clone, Copy)]
pub struct Load {
    pub kind: Kind,
    pub events: u64,
    pub packets: u64,
    pub accounts: u64,
    pub room: usize,
}

/// The data of the packet with a number: its events, or for a look-up the ids of their debit accounts.
fn body_of(load: Load, number: u64) -> Vec<u8> {
    let mut body = Vec::with_capacity(load.events as usize * EVENT_SIZE);
    let before = number * load.events + load.accounts;
    for made in before..before + load.events {
        let event = event_of(load.kind, made, load.accounts);
        body.extend_from_slice(match load.kind {
            Kind::Lookups => &event[16..32],
            _ => &event,
        });
    }
    body
}

/// Commits a packet; how many of its events failed, or how many accounts were found.
fn take<M: StateMachine>(machine: &mut M, kind: Kind, body: &[u8]) -> usize {
    match kind {
        Kind::Lookups => machine.lookup_accounts(body).len(),
        Kind::Accounts => machine.create_accounts(body).len(),
        _ => machine.create_transfers(body).len(),
    }
}

fn machine_with_accounts<M: StateMachine>(load: Load) -> M {
    let mut machine = M::with_room(load.accounts as usize, load.room);
    for number in 0..load.accounts / MADE_AT_ONCE {
        let accounts = Load {
            kind: Kind::Accounts,
            events: MADE_AT_ONCE,
            accounts: 0,
            ..load
        };
        machine.create_accounts(&body_of(accounts, number));
    }
    machine
}

/// Commits the packets; how many events failed, and a sum over the balances of the first thousand accounts.
pub fn commit_packets<M: StateMachine>(load: Load) -> (usize, u128) {
    let mut machine = machine_with_accounts::<M>(load);
    let mut failures = 0;
    for number in 0..load.packets {
        failures += take(&mut machine, load.kind, &body_of(load, number));
    }
    (failures, machine.sum_of_balances(1000))
}

#[repr(C)]
struct Timespec {
    seconds: i64,
    nanoseconds: i64,
}

unsafe extern "C" {
    fn clock_gettime(clock: i32, time: *mut Timespec) -> i32;
}

/// The processor time of this thread so far.
fn now() -> Duration {
    let mut time = Timespec {
        seconds: 0,
        nanoseconds: 0,
    };
    unsafe { clock_gettime(3, &mut time) };
    Duration::new(time.seconds as u64, time.nanoseconds as u32)
}

/// Commits the packets; the processor times of the median commit and of the longest, in nanoseconds.
pub fn time_packets<M: StateMachine>(load: Load) -> (u128, u128) {
    let mut machine = machine_with_accounts::<M>(load);
    let mut times = Vec::new();
    for number in 0..load.packets {
        let body = body_of(load, number);
        let start = now();
        take(&mut machine, load.kind, &body);
        times.push((now() - start).as_nanos());
    }
    times.sort_unstable();
    (times[times.len() / 2], times[times.len() - 1])
}

/// Makes the same packets and drops them; how many bytes they have.
pub fn make_packets<M: StateMachine>(load: Load) -> usize {
    let _machine = machine_with_accounts::<M>(load);
    (0..load.packets)
        .map(|number| body_of(load, number).len())
        .sum()
}
