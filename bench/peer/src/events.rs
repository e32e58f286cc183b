//! The packets that submitters send.

use crate::layout::{CREATE_ACCOUNTS, CREATE_TRANSFERS, EVENT_SIZE};
use crate::packet::Packet;

/// The accounts of each submitter.
pub const ACCOUNTS: u64 = 1000;

fn put_number(event: &mut [u8; EVENT_SIZE], offset: usize, number: u64) {
    event[offset..offset + 8].copy_from_slice(&number.to_le_bytes());
}

/// An event in ledger 1 with code 1.
fn event(id: u64) -> [u8; EVENT_SIZE] {
    let mut event = [0; EVENT_SIZE];
    put_number(&mut event, 0, id);
    event[112] = 1;
    event[116] = 1;
    event
}

/// A plain transfer of the amount 1, between accounts out of a thousand.
fn transfer(id: u64, first_account: u64, made: u64) -> [u8; EVENT_SIZE] {
    let debit = made * 7 % ACCOUNTS;
    let credit = (debit + 1 + made % (ACCOUNTS - 2)) % ACCOUNTS;
    let mut event = event(id);
    put_number(&mut event, 16, first_account + debit);
    put_number(&mut event, 32, first_account + credit);
    event[48] = 1;
    event
}

fn packet(submitter: u32, operation: u8, bytes: Vec<u8>) -> Packet {
    Packet {
        submitter,
        operation,
        bytes,
    }
}

/// The submitter's own thousand accounts.
pub fn accounts(submitter: u32) -> Packet {
    let first = u64::from(submitter) * ACCOUNTS + 1;
    let mut bytes = Vec::with_capacity(ACCOUNTS as usize * EVENT_SIZE);
    for id in first..first + ACCOUNTS {
        bytes.extend_from_slice(&event(id));
    }
    packet(submitter, CREATE_ACCOUNTS, bytes)
}

/// So many plain transfers between the submitter's accounts, behind so many made before.
pub fn transfers(submitter: u32, before: u64, events: u64) -> Packet {
    let first = u64::from(submitter) * ACCOUNTS + 1;
    let mut bytes = Vec::with_capacity(events as usize * EVENT_SIZE);
    for made in before..before + events {
        let id = u64::from(submitter) << 40 | (made + 1);
        bytes.extend_from_slice(&transfer(id, first, made));
    }
    packet(submitter, CREATE_TRANSFERS, bytes)
}
