//! The state machine as fast as it could be written in an afternoon: columns that never move, one probe an id, the
//! look-ups of a block of events ahead of them, and the checks of a plain or pending transfer in one condition. It
//! answers as the other one does.

mod region;
mod table;

use crate::checks::{
    check_account, check_accounts, check_moving, check_new_account, check_pending, check_resolving,
    check_transfer, compare_account, compare_kind, compare_transfer, expires_at, resolved,
};
use crate::codes::TransferCode;
use crate::hash::Fold;
use crate::layout::{
    Account, EVENT_SIZE, Failure, ID_SIZE, LINKED, PENDING, POST, Transfer, VOID, is_linked,
};
use crate::machine::{CLOCK_MAX, Status};
use region::Region;
use std::cmp::Reverse;
use std::collections::{BinaryHeap, HashSet};
use table::{Table, hash};

/// The events whose look-ups begin at once.
const BLOCK: usize = 16;

/// The most accounts and transfers.
const MOST: (usize, usize) = (1 << 24, 1 << 27);

const NONE: u32 = u32::MAX;

/// The hash of an event's id, and the places of its accounts.
#[derive(Clone, Copy, Default)]
struct Seen {
    id: u32,
    debit: u32,
    credit: u32,
}

pub struct Machine {
    clock: u64,
    accounts: Region<Account>,
    account_ids: Table,
    transfers: Region<Transfer>,
    transfer_ids: Table,
    statuses: Region<Status>,
    failed: HashSet<u128, Fold>,
    /// What is resolved leaves the heap when it is the first.
    expiries: BinaryHeap<Reverse<(u64, u32)>>,
}

/// The chain in which an event is: the index of its first event, and how much was stored before it.
struct Chain {
    start: usize,
    stored: usize,
    broken: bool,
}

#[inline(always)]
fn id_at(event: &[u8; EVENT_SIZE], at: usize) -> u128 {
    u128::from_le_bytes(event[at..at + 16].try_into().unwrap())
}

#[inline(always)]
fn word_at(event: &[u8; EVENT_SIZE], at: usize) -> u64 {
    u64::from_le_bytes(event[at..at + 8].try_into().unwrap())
}

/// Whether a number of 128 bits is 0 or the greatest.
#[inline(always)]
fn is_extreme(event: &[u8; EVENT_SIZE], at: usize) -> bool {
    let (low, high) = (word_at(event, at), word_at(event, at + 8));
    (low | high) == 0 || (low & high) == u64::MAX
}

impl Machine {
    /// With room for so many accounts and transfers.
    pub fn new(clock: u64, accounts: usize, transfers: usize) -> Machine {
        let (most_accounts, most_transfers) = MOST;
        Machine {
            clock,
            accounts: Region::new(most_accounts),
            account_ids: Table::new(accounts, most_accounts),
            transfers: Region::new(most_transfers),
            transfer_ids: Table::new(transfers, most_transfers),
            statuses: Region::new(most_transfers),
            failed: HashSet::default(),
            expiries: BinaryHeap::new(),
        }
    }

    /// In order of making.
    pub fn accounts(&self) -> &[Account] {
        self.accounts.as_slice()
    }

    #[inline(always)]
    fn account(&self, hash: u32, id: u128) -> Option<usize> {
        self.account_ids
            .find(hash, |place| self.accounts.get(place).id == id)
    }

    #[inline(always)]
    fn transfer(&self, hash: u32, id: u128) -> Option<usize> {
        self.transfer_ids
            .find(hash, |place| self.transfers.get(place).id == id)
    }

    #[inline(never)]
    pub fn lookup_accounts(&self, body: &[u8]) -> Vec<Account> {
        let (ids, _) = body.as_chunks::<ID_SIZE>();
        let mut found = Vec::with_capacity(ids.len());
        for id in ids {
            let id = u128::from_le_bytes(*id);
            found.extend(
                self.account(hash(id), id)
                    .map(|place| *self.accounts.get(place)),
            );
        }
        found
    }

    pub fn pulse(&mut self, moment: u64) {
        self.clock = self.clock.max(moment);
        while let Some(&Reverse((due, place))) = self.expiries.peek()
            && due <= self.clock
        {
            self.expiries.pop();
            if *self.statuses.get(place as usize) == Status::Pending {
                *self.statuses.get_mut(place as usize) = Status::Expired;
                let transfer = *self.transfers.get(place as usize);
                let (debit, credit) = self.sides(&transfer);
                self.accounts.get_mut(debit).debits_pending -= transfer.amount;
                self.accounts.get_mut(credit).credits_pending -= transfer.amount;
            }
        }
    }

    fn sides(&self, transfer: &Transfer) -> (usize, usize) {
        let place = |id| self.account(hash(id), id).unwrap();
        (
            place(transfer.debit_account_id),
            place(transfer.credit_account_id),
        )
    }

    #[inline(never)]
    pub fn create_accounts(&mut self, body: &[u8]) -> Vec<Failure> {
        let (events, _) = body.as_chunks::<EVENT_SIZE>();
        let mut failures = Vec::new();
        let mut chain = None;
        for (index, event) in events.iter().enumerate() {
            if let Some(next) = events.get(index + BLOCK) {
                self.account_ids.prefetch(hash(id_at(next, 0)));
            }
            self.step(
                &mut chain,
                &mut failures,
                events,
                index,
                |machine| machine.create_account(event),
                |machine| machine.accounts.len(),
                |machine| {
                    machine.accounts.pop();
                    machine.account_ids.pop();
                },
            );
        }
        failures
    }

    #[inline(never)]
    pub fn create_transfers(&mut self, body: &[u8]) -> Vec<Failure> {
        let (events, _) = body.as_chunks::<EVENT_SIZE>();
        let mut failures = Vec::new();
        let mut chain = None;
        let mut seen = [Seen::default(); BLOCK];
        for (number, block) in events.chunks(BLOCK).enumerate() {
            self.look(block, &mut seen);
            for (at, (event, &seen)) in block.iter().zip(seen.iter()).enumerate() {
                self.step(
                    &mut chain,
                    &mut failures,
                    events,
                    number * BLOCK + at,
                    |machine| machine.create_transfer(event, seen),
                    |machine| machine.transfers.len(),
                    |machine| machine.undo_transfer(),
                );
            }
        }
        failures
    }

    /// One event, with its chain.
    #[allow(clippy::too_many_arguments)]
    #[inline(always)]
    fn step(
        &mut self,
        chain: &mut Option<Chain>,
        failures: &mut Vec<Failure>,
        events: &[[u8; EVENT_SIZE]],
        index: usize,
        create: impl FnOnce(&mut Self) -> u32,
        stored: impl Fn(&Self) -> usize,
        undo: impl Fn(&mut Self),
    ) {
        let linked = is_linked(&events[index]);
        if !linked && chain.is_none() && self.clock != CLOCK_MAX {
            let code = create(self);
            if code != 0 {
                failures.push(Failure {
                    index: index as u32,
                    code,
                });
            }
            self.clock += 1;
            return;
        }
        if linked && chain.is_none() {
            *chain = Some(Chain {
                start: index,
                stored: stored(self),
                broken: false,
            });
        }
        let code = if linked && index + 1 == events.len() {
            2
        } else if chain.as_ref().is_some_and(|chain| chain.broken) {
            1
        } else if self.clock == CLOCK_MAX {
            201
        } else {
            create(self)
        };
        if code != 0 {
            if let Some(chain) = chain
                && !chain.broken
            {
                chain.broken = true;
                while stored(self) > chain.stored {
                    undo(self);
                }
                failures.extend((chain.start..index).map(|index| Failure {
                    index: index as u32,
                    code: 1,
                }));
            }
            failures.push(Failure {
                index: index as u32,
                code,
            });
        }
        if !linked {
            *chain = None;
        }
        self.clock = CLOCK_MAX.min(self.clock + 1);
    }

    #[inline(always)]
    fn create_account(&mut self, event: &[u8; EVENT_SIZE]) -> u32 {
        let event = Account::read(event);
        if let Err(code) = check_account(&event) {
            return code as u32;
        }
        let id_hash = hash(event.id);
        if let Some(place) = self.account(id_hash, event.id) {
            return compare_account(&event, self.accounts.get(place)) as u32;
        }
        if let Err(code) = check_new_account(&event) {
            return code as u32;
        }
        self.account_ids.push(id_hash);
        self.accounts.push(Account {
            timestamp: self.clock + 1,
            ..event
        });
        0
    }

    /// Looks the accounts of a block up, and fetches what its ids are looked up in.
    #[inline(always)]
    fn look(&mut self, block: &[[u8; EVENT_SIZE]], seen: &mut [Seen; BLOCK]) {
        for (event, seen) in block.iter().zip(seen.iter_mut()) {
            *seen = Seen {
                id: hash(id_at(event, 0)),
                debit: hash(id_at(event, 16)),
                credit: hash(id_at(event, 32)),
            };
            self.transfer_ids.prefetch(seen.id);
            self.account_ids.prefetch(seen.debit);
            self.account_ids.prefetch(seen.credit);
        }
        for (event, seen) in block.iter().zip(seen.iter_mut()) {
            let place = |hash, at| {
                self.account(hash, id_at(event, at))
                    .map_or(NONE, |place| place as u32)
            };
            seen.debit = place(seen.debit, 16);
            seen.credit = place(seen.credit, 32);
        }
    }

    fn undo_transfer(&mut self) {
        let place = self.transfers.len() - 1;
        let transfer = *self.transfers.get(place);
        self.transfers.pop();
        self.transfer_ids.pop();
        self.statuses.pop();
        let (debit, credit) = self.sides(&transfer);
        if transfer.has(POST | VOID) {
            self.undo_resolving(&transfer, debit, credit);
        } else if transfer.has(PENDING) {
            self.accounts.get_mut(debit).debits_pending -= transfer.amount;
            self.accounts.get_mut(credit).credits_pending -= transfer.amount;
            // the place may be used again, so its pair is taken out
            if let Some(moment) = expires_at(&transfer) {
                self.expiries
                    .retain(|&Reverse(pair)| pair != (moment, place as u32));
            }
        } else {
            self.accounts.get_mut(debit).debits_posted -= transfer.amount;
            self.accounts.get_mut(credit).credits_posted -= transfer.amount;
        }
    }

    fn undo_resolving(&mut self, transfer: &Transfer, debit: usize, credit: usize) {
        let place = self
            .transfer(hash(transfer.pending_id), transfer.pending_id)
            .unwrap();
        let reserved = self.transfers.get(place).amount;
        let posted = if transfer.has(POST) {
            transfer.amount
        } else {
            0
        };
        let account = self.accounts.get_mut(debit);
        account.debits_posted -= posted;
        account.debits_pending += reserved;
        let account = self.accounts.get_mut(credit);
        account.credits_posted -= posted;
        account.credits_pending += reserved;
        *self.statuses.get_mut(place) = Status::Pending;
    }

    #[inline(always)]
    fn create_transfer(&mut self, event: &[u8; EVENT_SIZE], seen: Seen) -> u32 {
        let flags = u16::from_le_bytes([event[118], event[119]]);
        if flags & !(LINKED | PENDING) != 0 {
            return self.resolve(&Transfer::read(event), seen);
        }
        let ledger = u32::from_le_bytes(event[112..116].try_into().unwrap());
        let code = u16::from_le_bytes([event[116], event[117]]);
        let timeout = u32::from_le_bytes(event[108..112].try_into().unwrap());
        let timestamp_or_pending = word_at(event, 120) | word_at(event, 64) | word_at(event, 72);
        let between =
            (word_at(event, 16) ^ word_at(event, 32)) | (word_at(event, 24) ^ word_at(event, 40));
        if timestamp_or_pending != 0
            || is_extreme(event, 0)
            || is_extreme(event, 16)
            || is_extreme(event, 32)
            || between == 0
            || ledger == 0
            || code == 0
            || seen.debit == NONE
            || seen.credit == NONE
            || (timeout != 0 && flags & PENDING == 0)
            || !self.failed.is_empty()
        {
            return self.slow(&Transfer::read(event));
        }
        let (debit, credit) = (seen.debit as usize, seen.credit as usize);
        let (from, to) = (self.accounts.get(debit), self.accounts.get(credit));
        let upper = |number: u128| (number >> 64) as u64;
        // no sum can come near an overflow where the upper halves have no high bit
        let high = (upper(from.debits_pending)
            | upper(from.debits_posted)
            | upper(to.credits_pending)
            | upper(to.credits_posted)
            | word_at(event, 56)
            | (self.clock + 1))
            >> 62;
        if from.ledger != ledger
            || to.ledger != ledger
            || high != 0
            || (from.flags | to.flags) & 6 != 0
            || self.transfer(seen.id, id_at(event, 0)).is_some()
        {
            return self.slow(&Transfer::read(event));
        }
        self.store_moving(event, seen.id, debit, credit);
        0
    }

    #[inline(always)]
    fn store_moving(
        &mut self,
        event: &[u8; EVENT_SIZE],
        id_hash: u32,
        debit: usize,
        credit: usize,
    ) {
        let timestamp = self.clock + 1;
        let place = self.transfers.len();
        self.transfer_ids.push(id_hash);
        let row = self.transfers.next() as *mut u8;
        // a transfer lies as its bytes do
        unsafe {
            std::ptr::copy_nonoverlapping(event.as_ptr(), row, EVENT_SIZE);
            (row.add(120) as *mut u64).write(timestamp);
        }
        let amount = id_at(event, 48);
        if event[118] as u16 & PENDING == 0 {
            self.statuses.push(Status::None);
            self.accounts.get_mut(debit).debits_posted += amount;
            self.accounts.get_mut(credit).credits_posted += amount;
            return;
        }
        self.statuses.push(Status::Pending);
        self.accounts.get_mut(debit).debits_pending += amount;
        self.accounts.get_mut(credit).credits_pending += amount;
        let timeout = u32::from_le_bytes(event[108..112].try_into().unwrap());
        if timeout != 0 {
            let moment = timestamp + u64::from(timeout) * 1_000_000_000;
            self.expiries.push(Reverse((moment, place as u32)));
        }
    }

    /// A plain or pending transfer, by the exact checks.
    #[cold]
    #[inline(never)]
    fn slow(&mut self, event: &Transfer) -> u32 {
        self.number_of(event.id, |machine| machine.try_moving(event))
    }

    #[inline(never)]
    fn resolve(&mut self, event: &Transfer, seen: Seen) -> u32 {
        self.number_of(event.id, |machine| machine.try_resolve(event, seen.id))
    }

    #[inline(always)]
    fn number_of(
        &mut self,
        id: u128,
        create: impl FnOnce(&mut Self) -> Result<(), TransferCode>,
    ) -> u32 {
        match create(self) {
            Ok(()) => 0,
            Err(code) => {
                if code.is_transient() {
                    self.failed.insert(id);
                }
                code as u32
            }
        }
    }

    fn try_moving(&mut self, event: &Transfer) -> Result<(), TransferCode> {
        check_transfer(event)?;
        let id_hash = hash(event.id);
        if let Some(place) = self.transfer(id_hash, event.id) {
            let stored = self.transfers.get(place);
            compare_kind(event, stored)?;
            return Err(compare_transfer(event, stored));
        }
        if self.failed.contains(&event.id) {
            return Err(TransferCode::IdAlreadyFailed);
        }
        check_moving(event)?;
        let place_of = |id, code| self.account(hash(id), id).ok_or(code);
        let debit = place_of(event.debit_account_id, TransferCode::DebitAccountNotFound)?;
        let credit = place_of(event.credit_account_id, TransferCode::CreditAccountNotFound)?;
        check_accounts(
            event,
            self.accounts.get(debit),
            self.accounts.get(credit),
            self.clock + 1,
        )?;
        let bytes = unsafe { &*(event as *const Transfer as *const [u8; EVENT_SIZE]) };
        self.store_moving(bytes, id_hash, debit, credit);
        Ok(())
    }

    #[inline(always)]
    fn try_resolve(&mut self, event: &Transfer, id_hash: u32) -> Result<(), TransferCode> {
        let timestamp = self.clock + 1;
        check_transfer(event)?;
        if let Some(place) = self.transfer(id_hash, event.id) {
            let stored = self.transfers.get(place);
            compare_kind(event, stored)?;
            let pending = self
                .transfer(hash(stored.pending_id), stored.pending_id)
                .unwrap();
            return Err(compare_transfer(
                &resolved(event, self.transfers.get(pending)),
                stored,
            ));
        }
        if !self.failed.is_empty() && self.failed.contains(&event.id) {
            return Err(TransferCode::IdAlreadyFailed);
        }
        check_resolving(event)?;
        let place = self
            .transfer(hash(event.pending_id), event.pending_id)
            .ok_or(TransferCode::PendingTransferNotFound)?;
        let pending = *self.transfers.get(place);
        let event = resolved(event, &pending);
        check_pending(&event, &pending, *self.statuses.get(place), timestamp)?;
        self.transfer_ids.push(id_hash);
        self.transfers.push(Transfer { timestamp, ..event });
        self.statuses.push(Status::None);
        self.settle(&event, &pending, place);
        Ok(())
    }

    /// The balances and the status behind a post or a void.
    #[inline(always)]
    fn settle(&mut self, event: &Transfer, pending: &Transfer, place: usize) {
        let (debit, credit) = self.sides(pending);
        let (status, posted) = if event.has(POST) {
            (Status::Posted, event.amount)
        } else {
            (Status::Voided, 0)
        };
        *self.statuses.get_mut(place) = status;
        let account = self.accounts.get_mut(debit);
        account.debits_pending -= pending.amount;
        account.debits_posted += posted;
        let account = self.accounts.get_mut(credit);
        account.credits_pending -= pending.amount;
        account.credits_posted += posted;
        while let Some(&Reverse((_, place))) = self.expiries.peek()
            && *self.statuses.get(place as usize) != Status::Pending
        {
            self.expiries.pop();
        }
    }
}
