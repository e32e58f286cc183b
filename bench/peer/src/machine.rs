//! The state machine.

use crate::checks::{
    check_account, check_accounts, check_moving, check_new_account, check_pending, check_resolving,
    check_transfer, compare_account, compare_kind, compare_transfer, expires_at, resolved,
};
use crate::codes::{AccountCode, TransferCode};
use crate::hash::Fold;
use crate::layout::{
    Account, EVENT_SIZE, Failure, ID_SIZE, PENDING, POST, Transfer, VOID, is_linked,
};
use indexmap::IndexMap;
use indexmap::map::Entry;
use std::collections::{BTreeSet, HashSet};

pub const CLOCK_MAX: u64 = (1 << 63) - 1;

const LINKED_EVENT_FAILED: u32 = 1;
const LINKED_EVENT_CHAIN_OPEN: u32 = 2;
const CLOCK_EXHAUSTED: u32 = 201;

/// What became of a transfer; a plain one stays `None`.
#[derive(Clone, Copy, PartialEq, Eq)]
#[repr(u8)]
pub enum Status {
    None,
    Pending,
    Posted,
    Voided,
    Expired,
}

/// Accounts and transfers in order of making. What events of a chain that still may fail did is popped off again,
/// so nothing but their number is noted.
pub struct Machine {
    clock: u64,
    accounts: IndexMap<u128, Account, Fold>,
    transfers: IndexMap<u128, Transfer, Fold>,
    /// Of each transfer, in order of making.
    statuses: Vec<Status>,
    failed: HashSet<u128, Fold>,
    /// When each unresolved pending transfer with a timeout expires, and its place in the order of making.
    expiries: BTreeSet<(u64, usize)>,
}

/// What `commit` does with an event of one operation.
trait Operation {
    /// Stores the event, or answers the number of its result.
    fn create(machine: &mut Machine, event: &[u8; EVENT_SIZE]) -> Result<(), u32>;

    /// How many events of this operation are stored.
    fn stored(machine: &Machine) -> usize;

    /// Takes the last one back.
    fn undo(machine: &mut Machine);
}

struct Accounts;

struct Transfers;

impl Operation for Accounts {
    fn create(machine: &mut Machine, event: &[u8; EVENT_SIZE]) -> Result<(), u32> {
        machine
            .create_account(Account::read(event))
            .map_err(|code| code as u32)
    }

    fn stored(machine: &Machine) -> usize {
        machine.accounts.len()
    }

    fn undo(machine: &mut Machine) {
        machine.accounts.pop();
    }
}

impl Operation for Transfers {
    fn create(machine: &mut Machine, event: &[u8; EVENT_SIZE]) -> Result<(), u32> {
        let event = Transfer::read(event);
        machine.create_transfer(&event).map_err(|code| {
            if code.is_transient() {
                machine.failed.insert(event.id);
            }
            code as u32
        })
    }

    fn stored(machine: &Machine) -> usize {
        machine.transfers.len()
    }

    fn undo(machine: &mut Machine) {
        machine.undo_transfer();
    }
}

/// The chain in which an event is.
struct Chain {
    /// The index of its first event.
    start: usize,
    /// How much was stored before it.
    stored: usize,
    broken: bool,
}

impl Machine {
    pub fn new(clock: u64) -> Machine {
        Machine {
            clock,
            accounts: IndexMap::default(),
            transfers: IndexMap::default(),
            statuses: Vec::new(),
            failed: HashSet::default(),
            expiries: BTreeSet::new(),
        }
    }

    /// Reserves room for more accounts and transfers.
    pub fn reserve(&mut self, accounts: usize, transfers: usize) {
        self.accounts.reserve(accounts);
        self.transfers.reserve(transfers);
        self.statuses.reserve(transfers);
    }

    pub fn clock(&self) -> u64 {
        self.clock
    }

    /// In order of making.
    pub fn accounts(&self) -> impl Iterator<Item = &Account> {
        self.accounts.values()
    }

    #[inline(never)]
    pub fn create_accounts(&mut self, body: &[u8]) -> Vec<Failure> {
        self.commit::<Accounts>(body)
    }

    #[inline(never)]
    pub fn create_transfers(&mut self, body: &[u8]) -> Vec<Failure> {
        self.commit::<Transfers>(body)
    }

    #[inline(never)]
    pub fn lookup_accounts(&self, body: &[u8]) -> Vec<Account> {
        let (ids, _) = body.as_chunks::<ID_SIZE>();
        let mut found = Vec::with_capacity(ids.len());
        for id in ids {
            found.extend(self.accounts.get(&u128::from_le_bytes(*id)));
        }
        found
    }

    pub fn pulse(&mut self, moment: u64) {
        self.clock = self.clock.max(moment);
        while let Some((expiry, place)) = self.expiries.first().copied()
            && expiry <= self.clock
        {
            self.expiries.pop_first();
            self.statuses[place] = Status::Expired;
            let transfer = self.transfers[place];
            self.release(&transfer);
        }
    }

    #[inline(always)]
    fn commit<O: Operation>(&mut self, body: &[u8]) -> Vec<Failure> {
        let (events, _) = body.as_chunks::<EVENT_SIZE>();
        let mut failures = Vec::new();
        let mut chain = None;
        for (index, event) in events.iter().enumerate() {
            let linked = is_linked(event);
            if linked && chain.is_none() {
                chain = Some(Chain {
                    start: index,
                    stored: O::stored(self),
                    broken: false,
                });
            }
            let is_open = linked && index + 1 == events.len();
            if let Err(code) = self.create_in::<O>(chain.as_ref(), event, is_open) {
                self.fail::<O>(&mut failures, chain.as_mut(), index, code);
            }
            if !linked {
                chain = None;
            }
            self.clock = CLOCK_MAX.min(self.clock + 1);
        }
        failures
    }

    #[inline(always)]
    fn create_in<O: Operation>(
        &mut self,
        chain: Option<&Chain>,
        event: &[u8; EVENT_SIZE],
        is_open: bool,
    ) -> Result<(), u32> {
        if is_open {
            Err(LINKED_EVENT_CHAIN_OPEN)
        } else if chain.is_some_and(|chain| chain.broken) {
            Err(LINKED_EVENT_FAILED)
        } else if self.clock == CLOCK_MAX {
            Err(CLOCK_EXHAUSTED)
        } else {
            O::create(self, event)
        }
    }

    /// Reports an event that failed. Where it is the first of its chain, those before it fail with it.
    #[cold]
    fn fail<O: Operation>(
        &mut self,
        failures: &mut Vec<Failure>,
        chain: Option<&mut Chain>,
        index: usize,
        code: u32,
    ) {
        let failure = |index, code| Failure {
            index: index as u32,
            code,
        };
        if let Some(chain) = chain
            && !chain.broken
        {
            chain.broken = true;
            while O::stored(self) > chain.stored {
                O::undo(self);
            }
            failures.extend((chain.start..index).map(|index| failure(index, LINKED_EVENT_FAILED)));
        }
        failures.push(failure(index, code));
    }

    fn undo_transfer(&mut self) {
        let Some((_, transfer)) = self.transfers.pop() else {
            return;
        };
        self.statuses.pop();
        if transfer.has(POST | VOID) {
            self.undo_resolving(&transfer);
        } else if transfer.has(PENDING) {
            self.release(&transfer);
            if let Some(moment) = expires_at(&transfer) {
                self.expiries.remove(&(moment, self.transfers.len()));
            }
        } else {
            self.unpost(&transfer);
        }
    }

    fn undo_resolving(&mut self, transfer: &Transfer) {
        let (place, _, pending) = self.transfers.get_full(&transfer.pending_id).unwrap();
        let pending = *pending;
        if transfer.has(POST) {
            self.unpost(transfer);
        }
        let (debit, credit) = self.sides(&pending);
        self.accounts[debit].debits_pending += pending.amount;
        self.accounts[credit].credits_pending += pending.amount;
        self.statuses[place] = Status::Pending;
        self.expiries
            .extend(expires_at(&pending).map(|moment| (moment, place)));
    }

    /// The places of a stored transfer's accounts.
    fn sides(&self, transfer: &Transfer) -> (usize, usize) {
        let place = |id| self.accounts.get_index_of(&id).unwrap();
        (
            place(transfer.debit_account_id),
            place(transfer.credit_account_id),
        )
    }

    /// Takes a transfer's amount out of the posted balances.
    fn unpost(&mut self, transfer: &Transfer) {
        let (debit, credit) = self.sides(transfer);
        self.accounts[debit].debits_posted -= transfer.amount;
        self.accounts[credit].credits_posted -= transfer.amount;
    }

    /// Takes a pending transfer's amount out of the pending balances.
    fn release(&mut self, pending: &Transfer) {
        let (debit, credit) = self.sides(pending);
        self.accounts[debit].debits_pending -= pending.amount;
        self.accounts[credit].credits_pending -= pending.amount;
    }

    fn create_account(&mut self, event: Account) -> Result<(), AccountCode> {
        check_account(&event)?;
        match self.accounts.entry(event.id) {
            Entry::Occupied(stored) => Err(compare_account(&event, stored.get())),
            Entry::Vacant(entry) => {
                check_new_account(&event)?;
                entry.insert(Account {
                    timestamp: self.clock + 1,
                    ..event
                });
                Ok(())
            }
        }
    }

    fn create_transfer(&mut self, event: &Transfer) -> Result<(), TransferCode> {
        check_transfer(event)?;
        if event.has(POST | VOID) {
            self.resolve(event)
        } else {
            self.move_between(event)
        }
    }

    /// A plain or pending transfer.
    fn move_between(&mut self, event: &Transfer) -> Result<(), TransferCode> {
        let timestamp = self.clock + 1;
        let entry = match self.transfers.entry(event.id) {
            Entry::Vacant(entry) => entry,
            Entry::Occupied(stored) => {
                compare_kind(event, stored.get())?;
                return Err(compare_transfer(event, stored.get()));
            }
        };
        if self.failed.contains(&event.id) {
            return Err(TransferCode::IdAlreadyFailed);
        }
        check_moving(event)?;
        let place_of = |id, code| self.accounts.get_index_of(&id).ok_or(code);
        let debit = place_of(event.debit_account_id, TransferCode::DebitAccountNotFound)?;
        let credit = place_of(event.credit_account_id, TransferCode::CreditAccountNotFound)?;
        check_accounts(
            event,
            &self.accounts[debit],
            &self.accounts[credit],
            timestamp,
        )?;
        let place = entry.index();
        let transfer = *entry.insert(Transfer {
            timestamp,
            ..*event
        });
        if event.has(PENDING) {
            self.statuses.push(Status::Pending);
            self.accounts[debit].debits_pending += event.amount;
            self.accounts[credit].credits_pending += event.amount;
            self.expiries
                .extend(expires_at(&transfer).map(|moment| (moment, place)));
        } else {
            self.statuses.push(Status::None);
            self.accounts[debit].debits_posted += event.amount;
            self.accounts[credit].credits_posted += event.amount;
        }
        Ok(())
    }

    /// An event with the id of a stored post or void.
    fn compare_resolving(&self, event: &Transfer, stored: &Transfer) -> TransferCode {
        match compare_kind(event, stored) {
            Err(code) => code,
            Ok(()) => {
                let pending = &self.transfers[&stored.pending_id];
                compare_transfer(&resolved(event, pending), stored)
            }
        }
    }

    /// A post or a void.
    fn resolve(&mut self, event: &Transfer) -> Result<(), TransferCode> {
        let timestamp = self.clock + 1;
        if let Some(stored) = self.transfers.get(&event.id) {
            return Err(self.compare_resolving(event, stored));
        }
        if self.failed.contains(&event.id) {
            return Err(TransferCode::IdAlreadyFailed);
        }
        check_resolving(event)?;
        let (place, _, pending) = self
            .transfers
            .get_full(&event.pending_id)
            .ok_or(TransferCode::PendingTransferNotFound)?;
        let pending = *pending;
        let event = resolved(event, &pending);
        check_pending(&event, &pending, self.statuses[place], timestamp)?;
        self.transfers
            .insert(event.id, Transfer { timestamp, ..event });
        self.statuses.push(Status::None);
        self.statuses[place] = if event.has(POST) {
            Status::Posted
        } else {
            Status::Voided
        };
        self.settle(&event, &pending);
        if let Some(moment) = expires_at(&pending) {
            self.expiries.remove(&(moment, place));
        }
        Ok(())
    }

    /// The balances behind a post or a void.
    fn settle(&mut self, event: &Transfer, pending: &Transfer) {
        let (debit, credit) = self.sides(pending);
        self.accounts[debit].debits_pending -= pending.amount;
        self.accounts[credit].credits_pending -= pending.amount;
        if event.has(POST) {
            self.accounts[debit].debits_posted += event.amount;
            self.accounts[credit].credits_posted += event.amount;
        }
    }
}
