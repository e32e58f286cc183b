//! Memory that runs out as a packet is committed, or as its entry is handed out, and memory that a ledger frees. In a file of its own, since
//! the limit is the whole process's.
use kip::{Account, Counts, Entry, Error, Ledger, Recorded, Refusal, StoreError, Transfer, CREATE_TRANSFERS};
use std::convert::Infallible;
use std::sync::{Mutex, MutexGuard, PoisonError};

/// Held by the test that runs.
static ONLY: Mutex<()> = Mutex::new(());

fn only() -> MutexGuard<'static, ()> {
    ONLY.lock().unwrap_or_else(PoisonError::into_inner)
}

#[repr(C)]
struct Limits {
    soft: u64,
    hard: u64,
}

const RLIMIT_AS: i32 = 9;

extern "C" {
    fn getrlimit(resource: i32, limits: *mut Limits) -> i32;
    fn setrlimit(resource: i32, limits: *const Limits) -> i32;
}

/// Returns how many bytes this process has mapped.
fn size() -> u64 {
    let pages = std::fs::read_to_string("/proc/self/statm").expect("statm is there");
    pages.split(' ').next().and_then(|it| it.parse::<u64>().ok()).expect("statm has a number") * 4096
}

/// Makes a call while this process can't map more than some further bytes.
fn limited<T>(more: u64, call: impl FnOnce() -> T) -> T {
    let mut before = Limits { soft: 0, hard: 0 };
    assert_eq!(unsafe { getrlimit(RLIMIT_AS, &mut before) }, 0);
    let limits = Limits { soft: size() + more, hard: before.hard };
    assert_eq!(unsafe { setrlimit(RLIMIT_AS, &limits) }, 0);
    let made = call();
    assert_eq!(unsafe { setrlimit(RLIMIT_AS, &before) }, 0);
    made
}

/// Returns 8,190 transfers to an account that isn't there, so that their ids are stored as failed.
fn failing(packet: u64) -> Vec<Transfer> {
    let of = |it: u64| Transfer {
        id: u128::from(packet * 8190 + it + 1),
        debit_account_id: 1,
        credit_account_id: 9,
        amount: 1,
        ledger: 1,
        code: 1,
        ..Transfer::default()
    };
    (0..8190).map(of).collect()
}

const ACCOUNT: [u8; 128] = {
    let mut bytes = [0; 128];
    (bytes[0], bytes[112], bytes[116]) = (1, 1, 1); // its id, its ledger and its code
    bytes
};

/// Makes packets of failing transfers until one is refused, and returns its number and why.
fn until_refused<E>(mut create: impl FnMut(&[Transfer]) -> Result<usize, E>) -> (u64, E) {
    limited(16 << 20, || {
        let mut number = 1;
        loop {
            match create(&failing(number)) {
                Ok(failures) => assert_eq!(failures, 8190),
                Err(error) => return (number, error),
            }
            number += 1;
        }
    })
}

#[test]
fn a_packet_without_memory_to_commit_it_stays_queued() {
    let _only = only();
    let mut ledger = Ledger::open(0, 8190, 1).expect("it opens");
    assert!(ledger.create_accounts(&[Account::from_bytes(&ACCOUNT)]).is_ok_and(|failures| failures.is_empty()));
    let (number, refused) = until_refused(|transfers| ledger.create_transfers(transfers).map(|it| it.len()));
    assert_eq!(refused, Error::Queued { number });
    let mut buffer = Vec::new();
    assert!(ledger.reply(&mut buffer).is_none());
    assert_eq!(ledger.flush(), Ok(()));
    let reply = ledger.reply(&mut buffer).expect("the packet is committed");
    assert_eq!(reply.number, number);
    assert_eq!(reply.failures().expect("it is committed").len(), 8190);
    let Counts { failed_ids, .. } = ledger.counts();
    assert_eq!(failed_ids, number * 8190);
}

/// A store that keeps only the places.
fn keeping(places: &mut Vec<u64>) -> impl FnMut(&[Entry]) -> Result<(), Infallible> + '_ {
    |entries| {
        places.extend(entries.iter().map(|entry| entry.place));
        Ok(())
    }
}

fn recorded() -> Ledger<Recorded> {
    let mut ledger = Ledger::open_recorded(0, 8190, 1).expect("it opens");
    let created = ledger.create_accounts(&[Account::from_bytes(&ACCOUNT)], |_| Ok::<_, Infallible>(()));
    assert!(created.is_ok_and(|failures| failures.is_empty()));
    ledger
}

#[test]
fn a_packet_without_memory_to_commit_it_is_stored_later() {
    let _only = only();
    let (mut ledger, mut places, mut buffer) = (recorded(), Vec::with_capacity(10_000), Vec::new());
    let (number, refused) = until_refused(|transfers| ledger.create_transfers(transfers, keeping(&mut places)).map(|it| it.len()));
    assert_eq!(refused, StoreError::Ledger(Error::Queued { number }));
    assert!(places.iter().copied().eq(1..number));
    assert_eq!(ledger.commit(keeping(&mut places)), Ok(()));
    assert_eq!(places.last(), Some(&number));
    let reply = ledger.reply(&mut buffer).expect("it is stored").expect("a reply");
    assert_eq!((reply.number, reply.failures().map(|it| it.len())), (number, Ok(8190)));
    assert_eq!(ledger.counts().failed_ids, number * 8190);
}

/// What was handed out is stored, and its replies can be read. The rest follows once memory is there.
#[test]
fn entries_without_memory_to_hand_them_out_stay() {
    let _only = only();
    let (mut ledger, mut places, mut buffer) = (recorded(), Vec::with_capacity(100), Vec::new());
    let data: Vec<u8> = failing(1).iter().flat_map(Transfer::to_bytes).collect();
    for _ in 0..64 {
        ledger.submit(0, CREATE_TRANSFERS, &data, 0).expect("it is queued");
    }
    ledger.flush().expect("memory is there");
    let refused = limited(8 << 20, || ledger.commit(keeping(&mut places)));
    assert_eq!(refused, Err(Refusal::NoMemory.into()));
    let stored = places.len();
    assert!(0 < stored && stored < 64, "{stored} of 64 were handed out");
    for place in 1..=stored as u64 {
        assert!(ledger.reply(&mut buffer).is_ok_and(|reply| reply.is_some_and(|it| it.number == place)));
    }
    assert_eq!(ledger.reply(&mut buffer), Err(Refusal::NotStored));
    assert_eq!(ledger.commit(keeping(&mut places)), Ok(()));
    assert!(places.iter().copied().eq(1..=64));
}

/// So does a list of entries for which there isn't memory, whatever each of them takes.
#[test]
fn entries_without_memory_for_their_list_stay() {
    let _only = only();
    // (the list takes more than malloc keeps of what others freed)
    let (mut ledger, mut stored) = (recorded(), 1);
    for moment in 0..1_100_000 {
        ledger.pulse(moment).expect("memory is there");
    }
    let mut store = |entries: &[Entry]| -> Result<(), Infallible> {
        assert!(entries.iter().map(|entry| entry.place).eq(stored..stored + entries.len() as u64));
        stored += entries.len() as u64;
        Ok(())
    };
    assert_eq!(limited(8 << 20, || ledger.commit(&mut store)), Err(Refusal::NoMemory.into()));
    assert_eq!(ledger.reply(&mut Vec::new()), Err(Refusal::NotStored));
    assert_eq!(ledger.commit(&mut store), Ok(()));
    assert_eq!((stored, ledger.reply(&mut Vec::new())), (1_100_001, Ok(None)));
}

/// Each ledger that is dropped gives its memory back.
#[test]
fn ledgers_are_closed_as_they_are_dropped() {
    let _only = only();
    limited(64 << 20, || {
        for _ in 0..100 {
            let mut ledger = Ledger::open_recorded(0, 8190, 1).expect("it opens");
            assert_eq!(ledger.reserve(0, 100_000), Ok(()));
        }
    });
}
