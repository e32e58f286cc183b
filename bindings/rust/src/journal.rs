//! A ledger whose host keeps the journal in a store of its own.

use crate::{
    account_failures, bytes_of_accounts, bytes_of_transfers, done, raw, transfer_failures, Account, CreateAccountsResult,
    CreateTransfersResult, Error, Failures, Ledger, Refusal, Reply, Transfer, CREATE_ACCOUNTS, CREATE_TRANSFERS,
};
use std::collections::hash_map::RandomState;
use std::fmt;
use std::hash::BuildHasher;

/// What a pulse's entry has for an operation.
const PULSE: u8 = 0;

/// An operation that the library refuses.
const NO_OPERATION: u32 = 256;

/// An entry of the journal: a packet or a pulse that is committed, at its place among all of them.
#[must_use = "the store needs each entry"]
#[derive(Clone, Debug, PartialEq, Eq)]
pub struct Entry {
    pub place: u64,
    pub item: Item,
}

/// What an entry has at its place. The bytes of a packet's events are those that were given to `submit`.
#[derive(Clone, Debug, PartialEq, Eq)]
pub enum Item {
    Packet {
        submitter: u32,
        /// The packet's number among its submitter's.
        number: u64,
        operation: u8,
        events: Vec<u8>,
    },
    /// A moment in nanoseconds.
    Pulse { moment: u64 },
}

impl Entry {
    fn of(head: &raw::EntryHead, events: Vec<u8>) -> Entry {
        let item = match head.operation as u8 {
            PULSE => Item::Pulse { moment: head.moment },
            operation => Item::Packet {
                submitter: head.submitter,
                number: head.number,
                operation,
                events,
            },
        };
        Entry { place: head.place, item }
    }

    /// Returns the entry as the library takes it, with a packet's events.
    fn parts(&self) -> (raw::EntryHead, &[u8]) {
        let head = raw::EntryHead { place: self.place, ..raw::EntryHead::default() };
        match &self.item {
            Item::Pulse { moment } => (raw::EntryHead { moment: *moment, ..head }, &[]),
            Item::Packet { submitter, number, operation, events } => {
                let head = raw::EntryHead {
                    number: *number,
                    size: events.len() as u64,
                    submitter: *submitter,
                    // (a packet with a pulse's operation is no pulse)
                    operation: if *operation == PULSE { NO_OPERATION } else { u32::from(*operation) },
                    ..head
                };
                (head, events)
            }
        }
    }
}

/// Of a ledger whose host keeps the journal, as `Ledger::open_recorded` opens it.
#[derive(Debug)]
pub struct Recorded {
    /// The place below which all entries were handed out.
    handed: u64,
    /// The place below which all entries are stored.
    durable: u64,
}

/// Why a call that stores failed.
#[derive(Clone, Copy, Debug, PartialEq, Eq)]
pub enum StoreError<E> {
    /// The ledger's error. Nothing was given to the store, or it stored all that it was given. What waits stays: see `Error::Refused`.
    Ledger(Error),
    /// The store's error. The packets are committed in memory, their replies can't be read, and only the store can say what of them a crash
    /// would leave. So drop the ledger, open another one, and restore what is stored. Look-ups of this ledger show the packets all the same.
    /// Before you say that a transfer failed, look its id up in the other ledger, or post it there with the same id.
    Store(E),
}

impl<E> From<Error> for StoreError<E> {
    fn from(error: Error) -> StoreError<E> {
        StoreError::Ledger(error)
    }
}

impl<E> From<Refusal> for StoreError<E> {
    fn from(refusal: Refusal) -> StoreError<E> {
        StoreError::Ledger(Error::Refused(refusal))
    }
}

impl<E: fmt::Display> fmt::Display for StoreError<E> {
    fn fmt(&self, out: &mut fmt::Formatter<'_>) -> fmt::Result {
        match self {
            StoreError::Ledger(error) => error.fmt(out),
            StoreError::Store(error) => write!(out, "the journal isn't stored: {error}"),
        }
    }
}

// (of any store's error, such as a `String` or a boxed one, so none is a source: `Display` has it)
impl<E: fmt::Debug + fmt::Display> std::error::Error for StoreError<E> {}

/// Returns two numbers that nobody can foresee.
fn random_seed() -> [u64; 2] {
    let random = RandomState::new();
    [random.hash_one(0), random.hash_one(1)]
}

/// A host keeps the journal in a store of its own, and so has the ledger again after a crash. No reply can be read before its packet's entry
/// is stored.
///
/// The calls that take a store do all of it. They give it the entries that are committed and not stored yet, in the order of places. It
/// returns `Ok` once a crash can't lose them.
///
/// ```
/// use kip::{Account, Entry, Ledger};
///
/// # fn main() -> Result<(), Box<dyn std::error::Error>> {
/// let mut journal: Vec<Entry> = Vec::new(); // (in memory here, where no crash is survived)
/// let mut store = |entries: &[Entry]| -> std::io::Result<()> {
///     journal.extend_from_slice(entries);
///     Ok(())
/// };
/// let mut ledger = Ledger::open_recorded(0, 8190, 1)?;
/// let account = Account { ledger: 1, code: 1, ..Account::default() };
/// ledger.create_accounts(&[Account { id: 1, ..account }, Account { id: 2, ..account }], &mut store)?.all_created()?;
/// ledger.pulse(5_000_000_000)?;
/// ledger.commit(&mut store)?;
///
/// let mut again = Ledger::open_recorded(0, 8190, 1)?;
/// for entry in &journal {
///     again.restore(entry)?;
/// }
/// assert_eq!((again.places(), again.clock()), (2, 5_000_000_000));
/// assert_eq!(again.lookup_account(2), ledger.lookup_account(2));
/// # Ok(())
/// # }
/// ```
///
/// A host that stores in another way, as in another thread, calls `next_entry` and `set_durable` itself. Look-ups show what is committed,
/// stored or not. A ledger that keeps no journal has none of these calls:
///
/// ```compile_fail,E0599
/// let mut ledger = kip::Ledger::open(0, 8190, 1).unwrap();
/// let _ = ledger.next_entry();
/// ```
// SAFETY, of each call below: as for those of any ledger.
impl Ledger<Recorded> {
    /// Opens a ledger as `open` does, for a host that keeps the journal. After a crash the host opens with the same clock, limit and
    /// submitters, and then restores what it stored. So keep these three with the entries. A host that forgets to restore stores entries at
    /// places that are taken, and its store can't be restored. Ids are hashed with a random seed, on which replies don't depend.
    pub fn open_recorded(clock: u64, limit: u32, submitters: u32) -> Result<Ledger<Recorded>, Refusal> {
        Ledger::open_recorded_seeded(clock, limit, submitters, random_seed())
    }

    /// Opens a ledger as `open_recorded` does, and hashes ids with this seed, as `open_seeded` does.
    pub fn open_recorded_seeded(
        clock: u64,
        limit: u32,
        submitters: u32,
        seed: [u64; 2],
    ) -> Result<Ledger<Recorded>, Refusal> {
        let mut handle = Box::new(raw::Handle::closed());
        let [low, high] = seed;
        done(unsafe { raw::kip_open_recorded(&mut *handle, clock, limit, submitters, low, high) })?;
        Ok(Ledger::over(handle, Recorded { handed: 0, durable: 0 }))
    }

    /// Commits an entry again, by itself and at the next place. Its reply never comes again, its packet has its old number, and it isn't handed
    /// out.
    /// Entries are restored in the order of places, ahead of the ledger's own packets.
    ///
    /// The refusals are `InUse`, those of `submit` or `pulse`, and `NotNext`. The ledger is then as it was.
    pub fn restore(&mut self, entry: &Entry) -> Result<(), Refusal> {
        // (the library doesn't know which replies are kept, nor whether a pulse that it handed out is stored)
        if !self.kept.is_empty() || self.must_have_stored().is_err() {
            return Err(Refusal::InUse);
        }
        let (head, events) = entry.parts();
        done(unsafe { raw::kip_restore_bytes(&mut *self.handle, &head, events.as_ptr(), events.len()) })?;
        let places = self.places();
        self.journal = Recorded { handed: places, durable: places };
        Ok(())
    }

    /// Hands out the next entry of the journal: first what was committed first. `None` says that all that is committed was handed out;
    /// packets that wait are committed by `flush`. The host stores each entry, and then calls `set_durable`. The compiler doesn't warn of
    /// `next_entry()?;`, which drops an entry that isn't handed out again.
    ///
    /// The only refusal is `NoMemory`: the entry stays the next one.
    pub fn next_entry(&mut self) -> Result<Option<Entry>, Refusal> {
        let (mut head, mut events) = (raw::EntryHead::default(), Vec::new());
        loop {
            let (at, size) = (events.as_mut_ptr(), events.capacity());
            match unsafe { raw::kip_entry_bytes(&mut *self.handle, &mut head, at, size) } {
                0 => break,
                raw::TOO_SMALL => events.try_reserve_exact(head.size as usize).map_err(|_| Refusal::NoMemory)?,
                raw::NO_ENTRY => return Ok(None),
                other => return Err(Refusal::of(other)),
            }
        }
        // SAFETY: as many bytes as the head says were written at the start of the buffer.
        unsafe { events.set_len(head.size as usize) };
        self.journal.handed = head.place + 1;
        Ok(Some(Entry::of(&head, events)))
    }

    /// Notes that all entries at places below a number are stored, so that a crash can't lose them: then their replies can be read. Nothing
    /// checks that they are. A lower number than before changes nothing.
    ///
    /// The only refusal is `NotHandedOut`, of a number above the place of the next entry. The ledger is then as it was.
    pub fn set_durable(&mut self, places: u64) -> Result<(), Refusal> {
        done(unsafe { raw::kip_durable(&mut *self.handle, places) })?;
        self.journal.durable = self.journal.durable.max(places);
        Ok(())
    }

    /// Refuses to go on while entries that were handed out aren't stored.
    fn must_have_stored(&self) -> Result<(), Refusal> {
        if self.journal.handed == self.journal.durable {
            Ok(())
        } else {
            Err(Refusal::NotStored)
        }
    }

    /// Commits the packets that wait, and gives the store all entries that it hasn't got, if there are any. Then all replies can be read.
    ///
    /// It is refused as `NotStored`, and nothing has changed, if entries that were handed out before aren't stored: the store failed, or
    /// `next_entry` took them and `set_durable` doesn't say that they are. After `NoMemory` what was handed out is stored, and the rest is
    /// committed and stored by the next `commit`. So call it again, and submit nothing again.
    pub fn commit<E>(&mut self, store: impl FnOnce(&[Entry]) -> Result<(), E>) -> Result<(), StoreError<E>> {
        self.must_have_stored()?;
        self.flush()?;
        let mut entries = Vec::new();
        let end = loop {
            if entries.try_reserve(1).is_err() {
                break Err(Refusal::NoMemory);
            }
            match self.next_entry() {
                Ok(Some(entry)) => entries.push(entry),
                Ok(None) => break Ok(()),
                Err(refusal) => break Err(refusal),
            }
        };
        if !entries.is_empty() {
            store(&entries).map_err(StoreError::Store)?;
            self.set_durable(self.journal.handed)?;
        }
        Ok(end?)
    }

    /// Reads the next reply as `reply` of any ledger does: its packet is stored, or isn't committed.
    ///
    /// It is refused as `NotStored` if no reply can be read while something that is committed isn't stored. `None` says that nothing is left
    /// to be stored; packets that wait have a reply after `commit`. The compiler doesn't warn of `reply(&mut buffer)?;`, which drops a reply.
    pub fn reply<'a>(&mut self, buffer: &'a mut Vec<u8>) -> Result<Option<Reply<'a>>, Refusal> {
        let reply = self.next_reply(buffer);
        if reply.is_none() && self.journal.durable < self.places() {
            return Err(Refusal::NotStored);
        }
        Ok(reply)
    }

    /// Commits and stores one packet of submitter 0, and returns its results. Replies to other packets are kept for `reply`.
    fn stored<E>(
        &mut self,
        operation: u8,
        data: &[u8],
        store: impl FnOnce(&[Entry]) -> Result<(), E>,
    ) -> Result<Vec<u8>, StoreError<E>> {
        self.must_have_stored()?;
        let number = self.submit(0, operation, data, 0)?;
        self.commit(store).map_err(|error| match error {
            StoreError::Ledger(_) => StoreError::Ledger(Error::Queued { number }),
            failed => failed,
        })?;
        Ok(self.results_of(number).map_err(Error::from)?)
    }

    /// Commits one packet of submitter 0, stores it with all that is committed ahead of it, and returns a result for each account that failed:
    /// `Ok` doesn't say that they were created. The errors are those of `submit` and `commit`; if memory runs out after the packet was
    /// queued, `Queued`.
    pub fn create_accounts<E>(
        &mut self,
        accounts: &[Account],
        store: impl FnOnce(&[Entry]) -> Result<(), E>,
    ) -> Result<Failures<CreateAccountsResult>, StoreError<E>> {
        let results = self.stored(CREATE_ACCOUNTS, &bytes_of_accounts(accounts), store)?;
        Ok(account_failures(&results))
    }

    /// Commits one packet of submitter 0, stores it with all that is committed ahead of it, and returns a result for each transfer that failed:
    /// `Ok` doesn't say that they were created. The errors are those of `submit` and `commit`; if memory runs out after the packet was
    /// queued, `Queued`.
    pub fn create_transfers<E>(
        &mut self,
        transfers: &[Transfer],
        store: impl FnOnce(&[Entry]) -> Result<(), E>,
    ) -> Result<Failures<CreateTransfersResult>, StoreError<E>> {
        let results = self.stored(CREATE_TRANSFERS, &bytes_of_transfers(transfers), store)?;
        Ok(transfer_failures(&results))
    }
}

#[cfg(test)]
mod tests {
    #[test]
    fn both_halves_of_a_random_seed_differ_each_time() {
        let (first, second) = (super::random_seed(), super::random_seed());
        assert!(first[0] != second[0] && first[1] != second[1] && first[0] != first[1], "{first:?} {second:?}");
    }
}
