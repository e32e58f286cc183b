//! TigerBeetle's ledger in one process and in memory, for tests, simulators and small services.
//!
//! Safe Rust over `include/kip.h`: this crate upholds what that header asks of a caller.
//!
//! `Ok` of `create_accounts` and `create_transfers` says that the packet is committed, and has the events that failed. `all_created`
//! makes an error of these. A reply to a packet says the same by `succeeded` and `failures`.
//!
//! `Ledger::open_recorded` opens a ledger whose journal its host keeps, so that it is there again after a crash.
//!
//! ```
//! use kip::{Account, Ledger, Transfer};
//!
//! # fn main() -> Result<(), kip::Error> {
//! let mut ledger = Ledger::open(0, 8190, 1)?;
//! let account = Account { ledger: 1, code: 1, ..Account::default() };
//! ledger.create_accounts(&[Account { id: 1, ..account }, Account { id: 2, ..account }])?.all_created()?;
//! let transfer = Transfer {
//!     id: kip::id(), debit_account_id: 1, credit_account_id: 2, amount: 30, ledger: 1, code: 1,
//!     ..Transfer::default()
//! };
//! ledger.create_transfers(&[transfer])?.all_created()?;
//! assert_eq!(ledger.lookup_accounts(&[1])[0].debits_posted, 30);
//! for failed in ledger.create_transfers(&[transfer])? {
//!     assert_eq!(failed.to_string(), "transfer 0: exists");
//! }
//! # Ok(())
//! # }
//! ```

mod failures;
mod ids;
mod journal;
#[cfg(doctest)]
mod must_warn;
mod raw;
mod records;
mod results;

use std::collections::VecDeque;
use std::fmt;

pub use failures::{CreateAccountsResult, CreateTransfersResult, Failed, Failure, Failures};
pub use ids::id;
pub use journal::{Entry, Item, Recorded, StoreError};
pub use raw::Counts;
pub use records::{Account, AccountFlags, PendingStatus, Transfer, TransferFlags};
pub use results::{CreateAccountResult, CreateTransferResult};

pub const CREATE_ACCOUNTS: u8 = 129;
pub const CREATE_TRANSFERS: u8 = 130;
pub const LOOKUP_ACCOUNTS: u8 = 131;

/// Why a call was refused. The ledger is as it was, except after `NoMemory` of `commit`: see `Error::Refused`.
#[derive(Clone, Copy, Debug, PartialEq, Eq)]
pub enum Refusal {
    InvalidOperation,
    InvalidDataSize,
    TooMuchData,
    /// The submitter has no number left.
    Full,
    NoMemory,
    /// `shut` was called.
    Shutdown,
    /// The ledger stopped.
    Stopped,
    BadLimit,
    BadSubmitters,
    /// The moment of a pulse is above 2^62 nanoseconds, or the clock at opening above 2^63 - 1.
    MomentTooLarge,
    /// An entry that is to be restored isn't at the next place, or its number isn't its submitter's next.
    NotNext,
    /// Nothing can be restored now: packets wait, replies are unread, entries aren't handed out or stored, or `shut` was called.
    InUse,
    /// An entry below the place is still to be handed out, so it can't be stored.
    NotHandedOut,
    /// The host keeps the journal, and what is committed isn't stored: so no reply can be read yet. Of `commit` and the calls that create:
    /// entries that were handed out aren't stored, so those after them can't be.
    NotStored,
}

impl Refusal {
    fn of(status: u32) -> Refusal {
        match status {
            1 => Refusal::InvalidOperation,
            2 => Refusal::InvalidDataSize,
            3 => Refusal::TooMuchData,
            5 => Refusal::Full,
            6 => Refusal::NoMemory,
            7 => Refusal::Shutdown,
            8 => Refusal::Stopped,
            9 => Refusal::BadLimit,
            11 => Refusal::BadSubmitters,
            12 => Refusal::MomentTooLarge,
            108 => Refusal::NotNext,
            109 => Refusal::InUse,
            111 => Refusal::NotHandedOut,
            other => unreachable!("status {other}"),
        }
    }
}

/// Why a packet was queued and isn't committed.
#[derive(Clone, Copy, Debug, PartialEq, Eq)]
pub enum NotCommitted {
    Shutdown,
    Stopped,
}

/// Why events weren't committed, or which of them failed.
#[derive(Clone, Copy, Debug, PartialEq, Eq)]
pub enum Error {
    /// Of `create_accounts` and `create_transfers`: the packet wasn't queued, and nothing has changed. Of `commit` it is so of all but
    /// `NoMemory`: then a part may be stored, and what waits stays. So call `commit` again, and don't submit a packet again.
    Refused(Refusal),
    /// Memory ran out as the packet was committed. It stays queued, with this number: `flush` commits it once memory is there, and
    /// `reply` has its results. If the host keeps the journal, `commit` takes the place of `flush`.
    Queued { number: u64 },
    NotCommitted(NotCommitted),
    /// Accounts of a committed packet weren't created: this many, the first of them so.
    AccountsFailed { count: usize, first: CreateAccountsResult },
    /// Transfers of a committed packet weren't created: this many, the first of them so.
    TransfersFailed { count: usize, first: CreateTransfersResult },
    /// Events of a reply's committed packet failed: this many, the first of them so.
    EventsFailed { count: usize, first: Failure },
}

impl From<Refusal> for Error {
    fn from(refusal: Refusal) -> Error {
        Error::Refused(refusal)
    }
}

impl From<NotCommitted> for Error {
    fn from(why: NotCommitted) -> Error {
        Error::NotCommitted(why)
    }
}

impl fmt::Display for Refusal {
    fn fmt(&self, out: &mut fmt::Formatter<'_>) -> fmt::Result {
        out.write_str(match self {
            Refusal::InvalidOperation => "there is no such operation: take CREATE_ACCOUNTS, CREATE_TRANSFERS or LOOKUP_ACCOUNTS",
            Refusal::InvalidDataSize => "the packet's data isn't a whole number of events",
            Refusal::TooMuchData => "the packet has more events than the ledger's limit: make several packets",
            Refusal::Full => "the submitter has no number left: take another submitter",
            Refusal::NoMemory => "memory ran out: make the call again once there is more",
            Refusal::Shutdown => "`shut` was called: nothing after it is committed",
            Refusal::Stopped => "the ledger stopped: its places are used up",
            Refusal::BadLimit => "the limit isn't 1 to 8190",
            Refusal::BadSubmitters => "there is no such submitter: a ledger has 1 to 16, counted from 0",
            Refusal::MomentTooLarge => "the moment of a pulse is above 2^62 nanoseconds, or the clock at opening above 2^63 - 1",
            Refusal::NotNext => "the entry isn't the next one: restore all entries, in the order of places",
            Refusal::InUse => "the ledger is in use: restore into one that was just opened",
            Refusal::NotHandedOut => "the place is above what was handed out: call `next_entry` and store its entry first",
            Refusal::NotStored => {
                "what is committed isn't stored: store it first, as `commit` does; if that failed, drop the ledger, open another and restore"
            }
        })
    }
}

impl fmt::Display for NotCommitted {
    fn fmt(&self, out: &mut fmt::Formatter<'_>) -> fmt::Result {
        out.write_str(match self {
            NotCommitted::Shutdown => "the packet isn't committed: it was queued after `shut`",
            NotCommitted::Stopped => "the packet isn't committed: the ledger stopped, since its places are used up",
        })
    }
}

impl fmt::Display for Error {
    fn fmt(&self, out: &mut fmt::Formatter<'_>) -> fmt::Result {
        match self {
            Error::Refused(refusal) => refusal.fmt(out),
            Error::Queued { number } => {
                write!(out, "memory ran out, and packet {number} stays queued: `flush` or `commit` it, and don't make the call again")
            }
            Error::NotCommitted(why) => why.fmt(out),
            Error::AccountsFailed { count, first } => failures::show(out, *count, first),
            Error::TransfersFailed { count, first } => failures::show(out, *count, first),
            Error::EventsFailed { count, first } => failures::show(out, *count, first),
        }
    }
}

impl std::error::Error for Refusal {}
impl std::error::Error for NotCommitted {}
impl std::error::Error for Error {}

fn done(status: u32) -> Result<(), Refusal> {
    if status == 0 {
        Ok(())
    } else {
        Err(Refusal::of(status))
    }
}

/// What happened to a packet. Only a committed one has results: 8 bytes for each event that failed, or 128 for each account
/// found.
#[must_use = "it says whether the packet is committed"]
#[derive(Clone, Copy, Debug, PartialEq, Eq)]
pub enum Outcome<'a> {
    /// Committed at this place among all packets and pulses.
    Committed { place: u64, results: &'a [u8] },
    /// Queued after `shut`.
    Shutdown,
    /// There was no place left for its batch.
    Stopped,
}

/// The reply to one packet, which its submitter and number name.
#[must_use = "it says whether the packet is committed, and what failed"]
#[derive(Clone, Copy, Debug, PartialEq, Eq)]
pub struct Reply<'a> {
    pub submitter: u32,
    /// The packet's number among its submitter's.
    pub number: u64,
    pub operation: u8,
    pub user_data: u64,
    pub outcome: Outcome<'a>,
}

impl<'a> Reply<'a> {
    /// Returns the results of a committed packet.
    pub fn results(&self) -> Result<&'a [u8], NotCommitted> {
        match self.outcome {
            Outcome::Committed { results, .. } => Ok(results),
            Outcome::Shutdown => Err(NotCommitted::Shutdown),
            Outcome::Stopped => Err(NotCommitted::Stopped),
        }
    }

    /// Returns the events of a committed packet that failed. A look-up has none.
    pub fn failures(&self) -> Result<Failures<Failure>, NotCommitted> {
        let results = self.results()?;
        let failed = if self.operation == LOOKUP_ACCOUNTS { &[] } else { results };
        Ok(Failures::of(failures_in(failed)))
    }

    /// Returns whether the packet is committed and none of its events failed.
    #[must_use]
    pub fn succeeded(&self) -> bool {
        self.results().is_ok_and(|results| results.is_empty() || self.operation == LOOKUP_ACCOUNTS)
    }
}

/// Returns the failures in the results of a packet that creates.
fn failures_in(results: &[u8]) -> impl Iterator<Item = Failure> + '_ {
    let word = |bytes: &[u8]| u32::from_le_bytes([bytes[0], bytes[1], bytes[2], bytes[3]]);
    results.chunks_exact(8).map(move |each| Failure {
        index: word(each),
        result: word(&each[4..]),
    })
}

fn bytes_of_accounts(accounts: &[Account]) -> Vec<u8> {
    accounts.iter().flat_map(Account::to_bytes).collect()
}

fn bytes_of_transfers(transfers: &[Transfer]) -> Vec<u8> {
    transfers.iter().flat_map(Transfer::to_bytes).collect()
}

/// Returns the accounts that weren't created, by the results of their packet.
fn account_failures(results: &[u8]) -> Failures<CreateAccountsResult> {
    let of = |failure: Failure| CreateAccountsResult {
        index: failure.index,
        result: CreateAccountResult::of(failure.result).expect("a result of an account"),
    };
    Failures::of(failures_in(results).map(of))
}

/// Returns the transfers that weren't created, by the results of their packet.
fn transfer_failures(results: &[u8]) -> Failures<CreateTransfersResult> {
    let of = |failure: Failure| CreateTransfersResult {
        index: failure.index,
        result: CreateTransferResult::of(failure.result).expect("a result of a transfer"),
    };
    Failures::of(failures_in(results).map(of))
}

/// A reply that was read while another was looked for.
struct Kept {
    head: raw::Head,
    results: Vec<u8>,
}

fn reply_of<'a>(head: &raw::Head, results: &'a [u8]) -> Reply<'a> {
    Reply {
        submitter: head.submitter,
        number: head.number,
        operation: head.operation as u8,
        user_data: head.user_data,
        outcome: match head.outcome {
            raw::COMMITTED => Outcome::Committed {
                place: head.place,
                results,
            },
            raw::SHUTDOWN => Outcome::Shutdown,
            _ => Outcome::Stopped,
        },
    }
}

/// A ledger in memory. It may move to another thread; calls are made one at a time. A `Ledger<Recorded>` is one whose host keeps the journal.
pub struct Ledger<J = Unrecorded> {
    handle: Box<raw::Handle>,
    kept: VecDeque<Kept>,
    journal: J,
}

/// Of a ledger that keeps no journal, as `Ledger::open` opens it.
#[derive(Debug)]
pub struct Unrecorded(());

// SAFETY: what is behind the handle is memory of the heap that belongs to no thread, which is proved of the library
// (`crates/kip/proofs/engine_pointer`). Each call takes `&mut self`, so none is made during another.
unsafe impl<J: Send> Send for Ledger<J> {}

// SAFETY, of each call below: the handle was zeroed before it was opened, has one owner, and is changed only by these
// calls; each slice passes its own pointer, which is never null, and its own length; the arguments don't overlap.
impl Ledger {
    /// Opens a ledger whose clock starts at `clock` nanoseconds (at most 2^63 - 1), for packets of up to `limit` events (1 to 8190) and
    /// 1 to 16 submitters.
    pub fn open(clock: u64, limit: u32, submitters: u32) -> Result<Ledger, Refusal> {
        let mut handle = Box::new(raw::Handle::closed());
        done(unsafe { raw::kip_open(&mut *handle, clock, limit, submitters) })?;
        Ok(Ledger::over(handle, Unrecorded(())))
    }

    /// Opens a ledger as `open` does, and hashes ids with a seed. Use a seed if ids can be chosen by someone you don't
    /// trust: two numbers from the operating system's random source, kept secret. Replies don't depend on it.
    pub fn open_seeded(
        clock: u64,
        limit: u32,
        submitters: u32,
        seed: [u64; 2],
    ) -> Result<Ledger, Refusal> {
        let mut handle = Box::new(raw::Handle::closed());
        let [low, high] = seed;
        done(unsafe { raw::kip_open_seeded(&mut *handle, clock, limit, submitters, low, high) })?;
        Ok(Ledger::over(handle, Unrecorded(())))
    }

    /// Reads the next reply, which may be another packet's than the last one queued. Its results are in the buffer, in place of what was
    /// there, and nothing else of it is written. `None` doesn't say that all is committed: packets that are held have a reply after `flush`.
    #[must_use = "only the reply says whether its packet is committed"]
    pub fn reply<'a>(&mut self, buffer: &'a mut Vec<u8>) -> Option<Reply<'a>> {
        self.next_reply(buffer)
    }

    /// Commits one packet of submitter 0, and returns its results. Replies to other packets are kept for `reply`.
    fn committed(&mut self, operation: u8, data: &[u8]) -> Result<Vec<u8>, Error> {
        let number = self.submit(0, operation, data, 0)?;
        self.flush().map_err(|_| Error::Queued { number })?;
        Ok(self.results_of(number)?)
    }

    /// Commits one packet of submitter 0, and returns a result for each account that failed: `Ok` doesn't say that they were created. If
    /// memory runs out as it is committed, the error is `Queued`.
    pub fn create_accounts(&mut self, accounts: &[Account]) -> Result<Failures<CreateAccountsResult>, Error> {
        let results = self.committed(CREATE_ACCOUNTS, &bytes_of_accounts(accounts))?;
        Ok(account_failures(&results))
    }

    /// Commits one packet of submitter 0, and returns a result for each transfer that failed: `Ok` doesn't say that they were created. If
    /// memory runs out as it is committed, the error is `Queued`.
    pub fn create_transfers(&mut self, transfers: &[Transfer]) -> Result<Failures<CreateTransfersResult>, Error> {
        let results = self.committed(CREATE_TRANSFERS, &bytes_of_transfers(transfers))?;
        Ok(transfer_failures(&results))
    }
}

// SAFETY, of each call below: as above.
impl<J> Ledger<J> {
    fn over(handle: Box<raw::Handle>, journal: J) -> Ledger<J> {
        Ledger {
            handle,
            kept: VecDeque::new(),
            journal,
        }
    }

    /// Reserves capacity for accounts and transfers that are still to be made. Until then no commit waits for their maps
    /// to grow. After `NoMemory` the ledger can be used further.
    pub fn reserve(&mut self, accounts: usize, transfers: usize) -> Result<(), Refusal> {
        done(unsafe { raw::kip_reserve(&mut *self.handle, accounts, transfers) })
    }

    /// Queues a packet with a copy of the data, and returns its number among its submitter's. A call for which memory runs out,
    /// also as it commits what waits, is refused as `NoMemory`: nothing has changed, and it can be made again.
    pub fn submit(
        &mut self,
        submitter: u32,
        operation: u8,
        data: &[u8],
        user_data: u64,
    ) -> Result<u64, Refusal> {
        let mut number = 0;
        done(unsafe {
            raw::kip_submit_bytes(
                &mut *self.handle,
                submitter,
                operation,
                data.as_ptr(),
                data.len(),
                user_data,
                &mut number,
            )
        })?;
        Ok(number)
    }

    /// Queues a pulse, which raises the clock to a moment of at most 2^62 nanoseconds.
    pub fn pulse(&mut self, nanoseconds: u64) -> Result<(), Refusal> {
        done(unsafe { raw::kip_pulse(&mut *self.handle, nanoseconds) })
    }

    /// Queues the Close: packets after it aren't committed.
    pub fn shut(&mut self) -> Result<(), Refusal> {
        done(unsafe { raw::kip_shut(&mut *self.handle) })
    }

    /// Commits the packets that wait for others to join.
    pub fn flush(&mut self) -> Result<(), Refusal> {
        done(unsafe { raw::kip_flush(&mut *self.handle) })
    }

    /// Returns whether 2^63 places are used up: nothing more is committed.
    #[must_use]
    pub fn stopped(&mut self) -> bool {
        unsafe { raw::kip_stopped(&mut *self.handle) == 8 }
    }

    /// Reads the next reply's head, and its results into the buffer, whose former contents are gone.
    fn read(&mut self, buffer: &mut Vec<u8>) -> Option<raw::Head> {
        let mut head = raw::Head::default();
        buffer.clear();
        loop {
            let (at, size) = (buffer.as_mut_ptr(), buffer.capacity());
            match unsafe { raw::kip_reply_bytes(&mut *self.handle, &mut head, at, size) } {
                0 => {
                    // SAFETY: as many bytes as the head says were written at the start of the buffer.
                    unsafe { buffer.set_len(head.size as usize) };
                    return Some(head);
                }
                raw::TOO_SMALL => buffer.reserve(head.size as usize),
                raw::NO_REPLY => return None,
                other => unreachable!("status {other}"),
            }
        }
    }

    /// Reads the next reply, or one that was kept.
    fn next_reply<'a>(&mut self, buffer: &'a mut Vec<u8>) -> Option<Reply<'a>> {
        let head = match self.kept.pop_front() {
            Some(kept) => {
                *buffer = kept.results;
                kept.head
            }
            None => self.read(buffer)?,
        };
        Some(reply_of(&head, buffer))
    }

    /// Returns the results of a packet of submitter 0, whose reply can be read. Replies to other packets are kept for `reply`.
    fn results_of(&mut self, number: u64) -> Result<Vec<u8>, NotCommitted> {
        loop {
            let mut results = Vec::new();
            let Some(head) = self.read(&mut results) else {
                unreachable!("a packet that is committed and stored has a reply")
            };
            if (head.submitter, head.number) != (0, number) {
                self.kept.push_back(Kept { head, results });
                continue;
            }
            return match head.outcome {
                raw::COMMITTED => Ok(results),
                raw::SHUTDOWN => Err(NotCommitted::Shutdown),
                _ => Err(NotCommitted::Stopped),
            };
        }
    }

    /// Returns the account with an id; packets that wait aren't in it.
    #[must_use]
    pub fn lookup_account(&mut self, id: u128) -> Option<Account> {
        let mut bytes = [0; 128];
        let (low, high) = (id as u64, (id >> 64) as u64);
        match unsafe { raw::kip_lookup_account(&mut *self.handle, low, high, &mut bytes) } {
            0 => Some(Account::from_bytes(&bytes)),
            raw::NOT_FOUND => None,
            other => unreachable!("status {other}"),
        }
    }

    /// Returns the account at an index in the order of making.
    #[must_use]
    pub fn account_at(&mut self, index: usize) -> Option<Account> {
        let mut bytes = [0; 128];
        match unsafe { raw::kip_account_at(&mut *self.handle, index, &mut bytes) } {
            0 => Some(Account::from_bytes(&bytes)),
            raw::NOT_FOUND => None,
            other => unreachable!("status {other}"),
        }
    }

    fn transfer_and_status(&mut self, id: u128) -> Option<(Transfer, Option<PendingStatus>)> {
        let (mut bytes, mut pending) = ([0; 128], 0);
        let (low, high) = (id as u64, (id >> 64) as u64);
        match unsafe { raw::kip_lookup_transfer(&mut *self.handle, low, high, &mut bytes, &mut pending) } {
            0 => Some((Transfer::from_bytes(&bytes), PendingStatus::of(pending))),
            raw::NOT_FOUND => None,
            other => unreachable!("status {other}"),
        }
    }

    /// Returns the transfer with an id; a post or a void with its resolved fields.
    #[must_use]
    pub fn lookup_transfer(&mut self, id: u128) -> Option<Transfer> {
        Some(self.transfer_and_status(id)?.0)
    }

    /// Returns the status of the pending transfer with an id.
    #[must_use]
    pub fn transfer_status(&mut self, id: u128) -> Option<PendingStatus> {
        self.transfer_and_status(id)?.1
    }

    /// Returns the transfer at an index in the order of making, with its status if it is pending.
    #[must_use]
    pub fn transfer_at(&mut self, index: usize) -> Option<(Transfer, Option<PendingStatus>)> {
        let (mut bytes, mut pending) = ([0; 128], 0);
        match unsafe { raw::kip_transfer_at(&mut *self.handle, index, &mut bytes, &mut pending) } {
            0 => Some((Transfer::from_bytes(&bytes), PendingStatus::of(pending))),
            raw::NOT_FOUND => None,
            other => unreachable!("status {other}"),
        }
    }

    /// Returns the accounts with these ids, in their order; ids without one are left out.
    #[must_use]
    pub fn lookup_accounts(&mut self, ids: &[u128]) -> Vec<Account> {
        ids.iter().filter_map(|id| self.lookup_account(*id)).collect()
    }

    /// Returns the transfers with these ids, in their order; ids without one are left out.
    #[must_use]
    pub fn lookup_transfers(&mut self, ids: &[u128]) -> Vec<Transfer> {
        ids.iter().filter_map(|id| self.lookup_transfer(*id)).collect()
    }

    /// Returns how many accounts, transfers and failed ids are stored; packets that are held aren't in it.
    #[must_use]
    pub fn counts(&mut self) -> Counts {
        let mut counts = Counts::default();
        let status = unsafe { raw::kip_counts(&mut *self.handle, &mut counts) };
        assert_eq!(status, 0);
        counts
    }

    /// Returns the clock in nanoseconds.
    #[must_use]
    pub fn clock(&mut self) -> u64 {
        let mut nanoseconds = 0;
        let status = unsafe { raw::kip_clock(&mut *self.handle, &mut nanoseconds) };
        assert_eq!(status, 0);
        nanoseconds
    }

    /// Returns how many packets and pulses are committed: the place of the next one.
    #[must_use]
    pub fn places(&mut self) -> u64 {
        let mut places = 0;
        let status = unsafe { raw::kip_places(&mut *self.handle, &mut places) };
        assert_eq!(status, 0);
        places
    }
}

impl<J> fmt::Debug for Ledger<J> {
    fn fmt(&self, out: &mut fmt::Formatter<'_>) -> fmt::Result {
        out.debug_struct("Ledger").finish_non_exhaustive()
    }
}

impl<J> Drop for Ledger<J> {
    fn drop(&mut self) {
        unsafe { raw::kip_close(&mut *self.handle) };
    }
}

/// Returns the library's version: major, minor and patch in a byte each.
#[must_use]
pub fn version() -> u32 {
    unsafe { raw::kip_version() }
}
