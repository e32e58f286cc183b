//! Ledgers whose host keeps the journal. What is expected is what `include/kip.h` says of the calls, and TigerBeetle's rules.
use kip::{
    Account, AccountFlags, Counts, CreateTransferResult, Entry, Error, Item, Ledger, NotCommitted, Outcome, PendingStatus, Recorded, Refusal,
    StoreError, Transfer, TransferFlags, CREATE_ACCOUNTS, CREATE_TRANSFERS, LOOKUP_ACCOUNTS,
};
use std::convert::Infallible;
use std::time::{Duration, Instant};

type Failed = Box<dyn std::error::Error>;

/// Ids whose upper halves differ, so that they need all 128 bits.
fn wide(number: u128) -> u128 {
    (number << 64) + 7
}

fn account(id: u128) -> Account {
    Account { id, ledger: 1, code: 1, ..Account::default() }
}

fn transfer(id: u128, from: u128, to: u128) -> Transfer {
    Transfer { id, debit_account_id: from, credit_account_id: to, amount: 5, ledger: 1, code: 1, ..Transfer::default() }
}

fn accounts(ids: impl IntoIterator<Item = u128>) -> Vec<u8> {
    ids.into_iter().flat_map(|id| account(id).to_bytes()).collect()
}

fn bytes_of(transfers: &[Transfer]) -> Vec<u8> {
    transfers.iter().flat_map(Transfer::to_bytes).collect()
}

fn packet(place: u64, submitter: u32, number: u64, events: Vec<u8>) -> Entry {
    Entry { place, item: Item::Packet { submitter, number, operation: CREATE_ACCOUNTS, events } }
}

fn pulse(place: u64, moment: u64) -> Entry {
    Entry { place, item: Item::Pulse { moment } }
}

/// Takes all entries that are there.
fn taken(ledger: &mut Ledger<Recorded>) -> Vec<Entry> {
    std::iter::from_fn(|| ledger.next_entry().expect("memory is there")).collect()
}

/// A store that keeps entries in a vector.
fn keeping(journal: &mut Vec<Entry>) -> impl FnMut(&[Entry]) -> Result<(), Infallible> + '_ {
    |entries| {
        journal.extend_from_slice(entries);
        Ok(())
    }
}

fn restored(submitters: u32, journal: &[Entry]) -> Result<Ledger<Recorded>, Refusal> {
    let mut ledger = Ledger::open_recorded(0, 8190, submitters)?;
    for entry in journal {
        ledger.restore(entry)?;
    }
    Ok(ledger)
}

/// All that can be looked up.
#[derive(Debug, PartialEq)]
struct State {
    accounts: Vec<Account>,
    transfers: Vec<(Transfer, Option<PendingStatus>)>,
    counts: Counts,
    clock: u64,
    places: u64,
}

fn state<J>(ledger: &mut Ledger<J>) -> State {
    State {
        accounts: (0..).map_while(|index| ledger.account_at(index)).collect(),
        transfers: (0..).map_while(|index| ledger.transfer_at(index)).collect(),
        counts: ledger.counts(),
        clock: ledger.clock(),
        places: ledger.places(),
    }
}

/// Submitter, number, place and results.
type Answer = (u32, u64, u64, Vec<u8>);

/// Reads all replies, which are those of committed packets.
fn answers(ledger: &mut Ledger<Recorded>) -> Result<Vec<Answer>, Refusal> {
    let (mut all, mut buffer) = (Vec::new(), Vec::new());
    while let Some(reply) = ledger.reply(&mut buffer)? {
        match reply.outcome {
            Outcome::Committed { place, results } => all.push((reply.submitter, reply.number, place, results.to_vec())),
            other => panic!("{other:?}"),
        }
    }
    Ok(all)
}

/// Returns the place of the next reply, which is a committed packet's.
fn next_place(ledger: &mut Ledger<Recorded>) -> u64 {
    match ledger.reply(&mut Vec::new()).expect("it is stored").expect("a reply").outcome {
        Outcome::Committed { place, .. } => place,
        other => panic!("{other:?}"),
    }
}

#[test]
fn a_reply_is_read_once_its_entry_is_stored() -> Result<(), Failed> {
    let mut ledger = Ledger::open_recorded(0, 8190, 1)?;
    let mut buffer = Vec::new();
    assert_eq!(ledger.reply(&mut buffer), Ok(None));
    for id in 1..=2 {
        ledger.submit(0, CREATE_ACCOUNTS, &accounts([id]), 0)?;
    }
    assert_eq!(ledger.reply(&mut buffer), Ok(None)); // (they wait)
    ledger.flush()?;
    assert_eq!((ledger.reply(&mut buffer), ledger.places()), (Err(Refusal::NotStored), 2));
    assert_eq!(ledger.set_durable(1), Err(Refusal::NotHandedOut));
    assert_eq!(ledger.next_entry()?, Some(packet(0, 0, 0, accounts([1]))));
    assert_eq!(ledger.reply(&mut buffer), Err(Refusal::NotStored));
    assert_eq!(ledger.next_entry()?, Some(packet(1, 0, 1, accounts([2]))));
    assert_eq!(ledger.next_entry()?, None);
    for too_far in [3, u64::MAX] {
        assert_eq!(ledger.set_durable(too_far), Err(Refusal::NotHandedOut));
    }
    assert_eq!(ledger.reply(&mut buffer), Err(Refusal::NotStored));
    ledger.set_durable(1)?;
    assert_eq!((next_place(&mut ledger), ledger.reply(&mut buffer)), (0, Err(Refusal::NotStored)));
    ledger.set_durable(0)?; // (a lower number changes nothing)
    assert_eq!(ledger.reply(&mut buffer), Err(Refusal::NotStored));
    ledger.set_durable(2)?;
    ledger.set_durable(1)?;
    assert_eq!((next_place(&mut ledger), ledger.reply(&mut buffer)), (1, Ok(None)));
    Ok(())
}

#[test]
fn entries_are_in_the_order_of_places_with_pulses_between() -> Result<(), Failed> {
    let mut ledger = Ledger::open_recorded(0, 8190, 2)?;
    let ids = wide(1).to_le_bytes();
    ledger.pulse(7)?;
    ledger.submit(1, CREATE_ACCOUNTS, &accounts([wide(1)]), 0)?;
    ledger.submit(0, CREATE_ACCOUNTS, &[], 0)?; // (it joins the one ahead of it, and has an entry of its own)
    assert_eq!(taken(&mut ledger), [pulse(0, 7)]);
    ledger.pulse(70)?;
    ledger.pulse(60)?; // (the clock doesn't go back, and the pulse takes a place)
    ledger.submit(1, LOOKUP_ACCOUNTS, &ids, 0)?;
    ledger.flush()?;
    let lookup = Item::Packet { submitter: 1, number: 1, operation: LOOKUP_ACCOUNTS, events: ids.to_vec() };
    let first = [packet(1, 1, 0, accounts([wide(1)])), packet(2, 0, 0, Vec::new()), pulse(3, 70), pulse(4, 60)];
    let wanted: Vec<Entry> = first.into_iter().chain([Entry { place: 5, item: lookup }]).collect();
    assert_eq!((taken(&mut ledger), ledger.places(), ledger.clock()), (wanted, 6, 70));
    ledger.set_durable(6)?;
    let found = ledger.lookup_account(wide(1)).ok_or("account")?.to_bytes().to_vec();
    assert_eq!(answers(&mut ledger)?, [(1, 0, 1, Vec::new()), (0, 0, 2, Vec::new()), (1, 1, 5, found)]);
    Ok(())
}

/// Queues what a bank does in a day: a packet of each submitter, and a pulse at which a pending transfer expires.
fn queue_day(ledger: &mut Ledger<Recorded>, submitters: u32) -> Result<(), Refusal> {
    let limited = Account { flags: AccountFlags::DEBITS_MUST_NOT_EXCEED_CREDITS, ..account(wide(3)) };
    let made = [accounts([wide(1), wide(2)]), limited.to_bytes().to_vec()].concat();
    let pending = |id, timeout| Transfer { flags: TransferFlags::PENDING, timeout, ..transfer(id, wide(1), wide(2)) };
    let post = |id, pending_id| Transfer { id, pending_id, amount: 3, flags: TransferFlags::POST_PENDING_TRANSFER, ..Transfer::default() };
    ledger.submit(0, CREATE_ACCOUNTS, &made, 0)?;
    for submitter in 0..submitters {
        let first = wide(100 * u128::from(submitter + 1));
        let chain = Transfer { flags: TransferFlags::LINKED, ..transfer(first + 2, wide(1), wide(2)) };
        let packet = [pending(first, 1), pending(first + 1, 0), chain, transfer(first + 3, wide(1), wide(9)), transfer(first + 4, wide(3), wide(1))];
        ledger.submit(submitter, CREATE_TRANSFERS, &bytes_of(&packet), 0)?;
    }
    ledger.pulse(2_000_000_000)?;
    for submitter in 0..submitters {
        let first = wide(100 * u128::from(submitter + 1));
        let packet = [post(first + 5, first), post(first + 6, first + 1), transfer(first + 3, wide(1), wide(2))];
        ledger.submit(submitter, CREATE_TRANSFERS, &bytes_of(&packet), 0)?;
    }
    ledger.flush()
}

/// The bytes of failures, each an index and a number of TigerBeetle's.
fn failures(all: &[(u32, u32)]) -> Vec<u8> {
    all.iter().flat_map(|(index, result)| [index.to_le_bytes(), result.to_le_bytes()].concat()).collect()
}

/// Packets that shared batches are restored by themselves. The ledger and its further replies are the same.
#[test]
fn restored_entries_give_the_same_ledger_and_replies() -> Result<(), Failed> {
    let (mut journal, submitters) = (Vec::new(), 16);
    let mut ledger = Ledger::open_recorded(0, 8190, submitters)?;
    queue_day(&mut ledger, submitters)?;
    ledger.commit(keeping(&mut journal))?;
    let first = answers(&mut ledger)?;
    // linked_event_failed 1, credit_account_not_found 22, exceeds_credits 54; then pending_transfer_expired 35 and id_already_failed 68.
    let (morning, evening) = (failures(&[(2, 1), (3, 22), (4, 54)]), failures(&[(0, 35), (2, 68)]));
    let day = |number: u64, place: u64, results: &Vec<u8>| -> Vec<Answer> {
        (0..16).map(|it| (it, number + u64::from(it == 0), place + u64::from(it), results.clone())).collect()
    };
    assert_eq!(first, [vec![(0, 0, 0, Vec::new())], day(0, 1, &morning), day(1, 18, &evening)].concat());
    let posted = ledger.lookup_account(wide(1)).ok_or("account 1")?;
    assert_eq!((posted.debits_posted, posted.debits_pending), (3 * 16, 0)); // (3 of 5 are posted of one of each two)

    let mut again = restored(submitters, &journal)?;
    assert_eq!((state(&mut again), again.places()), (state(&mut ledger), 34));
    assert_eq!((again.next_entry()?, again.reply(&mut Vec::new())), (None, Ok(None)));
    // What is queued now has the numbers and places that follow. The accounts exist (21), and so do transfers (46).
    let mut later = Vec::new();
    for bank in [&mut ledger, &mut again] {
        queue_day(bank, submitters)?;
        bank.commit(keeping(&mut later))?;
    }
    let (mine, its) = later.split_at(later.len() / 2);
    assert_eq!((mine, mine.len(), mine[0].place), (its, 34, 34));
    let replies = answers(&mut again)?;
    assert_eq!(replies, answers(&mut ledger)?);
    assert_eq!(replies[0], (0, 3, 34, failures(&[(0, 21), (1, 21), (2, 21)])));
    assert_eq!(replies[16], (15, 2, 50, failures(&[(0, 46), (1, 46), (2, 1), (3, 68), (4, 68)])));
    assert_eq!(state(&mut again), state(&mut ledger));
    Ok(())
}

/// Tries to restore what a ledger has no place for, each with its refusal.
fn must_refuse(ledger: &mut Ledger<Recorded>, refused: &[(Entry, Refusal)]) {
    let before = state(ledger);
    for (entry, refusal) in refused {
        assert_eq!(ledger.restore(entry), Err(*refusal), "{entry:?}");
        assert_eq!(state(ledger), before, "{entry:?}");
    }
}

#[test]
fn an_entry_that_does_not_follow_is_refused_by_name() -> Result<(), Failed> {
    let other = |operation, events: &[u8]| Entry { place: 1, item: Item::Packet { submitter: 1, number: 0, operation, events: events.to_vec() } };
    let mut ledger = Ledger::open_recorded(0, 3, 2)?;
    ledger.restore(&packet(0, 0, 0, accounts([1])))?;
    must_refuse(
        &mut ledger,
        &[
            (packet(0, 0, 0, accounts([1])), Refusal::NotNext),
            (packet(2, 0, 1, accounts([2])), Refusal::NotNext),
            (packet(u64::MAX, 0, 1, accounts([2])), Refusal::NotNext),
            (packet(1, 0, 0, accounts([2])), Refusal::NotNext),
            (packet(1, 0, 2, accounts([2])), Refusal::NotNext),
            (packet(1, 1, u64::MAX, accounts([2])), Refusal::NotNext),
            (pulse(0, 5), Refusal::NotNext),
            (pulse(2, 5), Refusal::NotNext),
            (pulse(1, (1 << 62) + 1), Refusal::MomentTooLarge),
            (packet(1, 2, 0, accounts([2])), Refusal::BadSubmitters),
            (packet(1, u32::MAX, 0, accounts([2])), Refusal::BadSubmitters),
            (packet(1, 1, 0, vec![0; 127]), Refusal::InvalidDataSize),
            (packet(1, 1, 0, accounts(2..6)), Refusal::TooMuchData),
            (other(77, &[]), Refusal::InvalidOperation),
            // A packet with a pulse's operation is none.
            (other(0, &[]), Refusal::InvalidOperation),
            (other(0, &accounts([2])), Refusal::InvalidOperation),
        ],
    );
    ledger.restore(&packet(1, 1, 0, accounts(2..5)))?;
    ledger.restore(&pulse(2, 1 << 62))?;
    assert_eq!((ledger.places(), ledger.clock(), ledger.counts().accounts), (3, 1 << 62, 4));
    assert_eq!((ledger.submit(0, CREATE_ACCOUNTS, &[], 0), ledger.submit(1, CREATE_ACCOUNTS, &[], 0)), (Ok(1), Ok(1)));
    Ok(())
}

#[test]
fn a_ledger_in_use_restores_nothing() -> Result<(), Failed> {
    let mut ledger = Ledger::open_recorded(0, 8190, 2)?;
    let next = |place, number| [(packet(place, 0, number, Vec::new()), Refusal::InUse), (pulse(place, 5), Refusal::InUse)];
    ledger.pulse(5)?;
    must_refuse(&mut ledger, &next(1, 0)); // (the pulse isn't handed out)
    assert_eq!(taken(&mut ledger).len(), 1);
    must_refuse(&mut ledger, &next(1, 0)); // (nor is it stored)
    ledger.set_durable(1)?;
    ledger.restore(&packet(1, 0, 0, Vec::new()))?;
    ledger.submit(0, CREATE_ACCOUNTS, &[], 0)?;
    must_refuse(&mut ledger, &next(2, 1)); // (the packet waits)
    ledger.flush()?;
    must_refuse(&mut ledger, &next(3, 2));
    assert_eq!(taken(&mut ledger).len(), 1);
    must_refuse(&mut ledger, &next(3, 2));
    ledger.set_durable(3)?;
    must_refuse(&mut ledger, &next(3, 2)); // (its reply is unread)
    assert_eq!(next_place(&mut ledger), 2);
    ledger.restore(&pulse(3, 6))?;
    // A reply that was read on the way to another is unread too.
    ledger.submit(1, CREATE_ACCOUNTS, &[], 0)?;
    ledger.create_accounts(&[], keeping(&mut Vec::new()))?.all_created()?;
    must_refuse(&mut ledger, &next(6, 3));
    assert_eq!(next_place(&mut ledger), 4);
    ledger.restore(&pulse(6, 6))?;
    ledger.shut()?;
    must_refuse(&mut ledger, &next(7, 3));
    Ok(())
}

#[test]
fn settings_are_refused_by_name() {
    let open = |clock, limit, submitters| Ledger::open_recorded(clock, limit, submitters).err();
    assert_eq!(open(0, 0, 1), Some(Refusal::BadLimit));
    assert_eq!(open(0, 8191, 1), Some(Refusal::BadLimit));
    assert_eq!(open(0, 1, 17), Some(Refusal::BadSubmitters));
    assert_eq!(open(1 << 63, 1, 1), Some(Refusal::MomentTooLarge));
    assert_eq!((open((1 << 63) - 1, 1, 16), open(0, 8190, 1)), (None, None));
    assert_eq!(Ledger::open_recorded_seeded(0, 0, 1, [3, 5]).err(), Some(Refusal::BadLimit));
}

/// A seed changes which hash an id has, and no reply.
#[test]
fn seeds_change_no_entry_and_no_reply() -> Result<(), Failed> {
    let made = |mut ledger: Ledger<Recorded>| -> Result<_, Failed> {
        let mut journal = Vec::new();
        queue_day(&mut ledger, 2)?;
        ledger.commit(keeping(&mut journal))?;
        Ok((journal, answers(&mut ledger)?, state(&mut ledger)))
    };
    let wanted = made(Ledger::open_recorded_seeded(0, 8190, 2, [3, 5])?)?;
    assert_eq!(made(Ledger::open_recorded_seeded(0, 8190, 2, [u64::MAX, 0])?)?, wanted);
    assert_eq!(made(Ledger::open_recorded(0, 8190, 2)?)?, wanted);
    Ok(())
}

#[test]
fn a_commit_stores_all_that_waits_at_once() -> Result<(), Failed> {
    let mut ledger = Ledger::open_recorded(0, 8190, 1)?;
    ledger.commit(|_| -> Result<(), Infallible> { panic!("there is nothing to store") })?;
    for id in 1..=3 {
        ledger.submit(0, CREATE_ACCOUNTS, &accounts([id]), 0)?;
    }
    ledger.pulse(9)?;
    let mut seen = Vec::new();
    ledger.commit(|entries| {
        seen.push(entries.to_vec());
        Ok::<_, Infallible>(())
    })?;
    let wanted = [packet(0, 0, 0, accounts([1])), packet(1, 0, 1, accounts([2])), packet(2, 0, 2, accounts([3])), pulse(3, 9)];
    assert_eq!(seen, [wanted]);
    assert_eq!(answers(&mut ledger)?.iter().map(|it| it.2).collect::<Vec<_>>(), [0, 1, 2]);
    ledger.commit(|_| -> Result<(), Infallible> { panic!("all of it is stored") })?;
    Ok(())
}

#[test]
fn the_calls_that_create_store_before_they_return() -> Result<(), Failed> {
    let (mut journal, mut ledger) = (Vec::new(), Ledger::open_recorded(0, 8190, 2)?);
    ledger.submit(1, CREATE_ACCOUNTS, &accounts([0]), 71)?;
    ledger.create_accounts(&[account(wide(1)), account(wide(2))], keeping(&mut journal))?.all_created()?;
    assert_eq!(journal, [packet(0, 1, 0, accounts([0])), packet(1, 0, 0, accounts([wide(1), wide(2)]))]);
    let failed = ledger.create_transfers(&[transfer(1, wide(1), wide(2)), transfer(2, wide(1), 2)], keeping(&mut journal))?;
    assert_eq!((failed.len(), failed[0].index, failed[0].result), (1, 1, CreateTransferResult::CreditAccountNotFound));
    let again = ledger.create_transfers(&[transfer(1, wide(1), wide(2))], keeping(&mut journal))?;
    assert_eq!((again.len(), again[0].result, journal.len()), (1, CreateTransferResult::Exists, 4));
    // The other submitter's reply was kept: id_must_not_be_zero is 6.
    assert_eq!(answers(&mut ledger)?, [(1, 0, 0, failures(&[(0, 6)]))]);
    let mut copy = restored(2, &journal)?;
    assert_eq!(state(&mut copy), state(&mut ledger));
    assert_eq!(ledger.lookup_account(wide(2)).map(|it| it.credits_posted), Some(5));
    Ok(())
}

#[derive(Clone, Copy, Debug, PartialEq)]
struct DiskFull;

impl std::fmt::Display for DiskFull {
    fn fmt(&self, out: &mut std::fmt::Formatter<'_>) -> std::fmt::Result {
        write!(out, "the disk is full")
    }
}

/// After a store has failed, nothing that it was given is acknowledged, and nothing is stored behind it.
#[test]
fn a_store_that_fails_gives_no_reply() -> Result<(), Failed> {
    let not_stored = StoreError::Ledger(Error::Refused(Refusal::NotStored));
    let (mut journal, mut ledger) = (Vec::new(), Ledger::open_recorded(0, 8190, 1)?);
    ledger.create_accounts(&[account(1), account(2)], keeping(&mut journal))?.all_created()?;
    let error = ledger.create_transfers(&[transfer(1, 1, 2)], |_| Err(DiskFull)).expect_err("the store fails");
    assert_eq!((error, error.to_string()), (StoreError::Store(DiskFull), "the journal isn't stored: the disk is full".to_string()));
    assert_eq!(ledger.reply(&mut Vec::new()), Err(Refusal::NotStored));
    let before = state(&mut ledger);
    let unused = |_: &[Entry]| -> Result<(), DiskFull> { panic!("what is behind a gap is given to the store") };
    assert_eq!(ledger.create_transfers(&[transfer(2, 1, 2)], unused), Err(not_stored));
    assert_eq!(ledger.create_accounts(&[account(3)], unused), Err(not_stored));
    assert_eq!(ledger.commit(unused), Err(not_stored));
    assert_eq!((state(&mut ledger), not_stored.to_string()), (before, Refusal::NotStored.to_string()));
    // What was refused wasn't queued: the transfer's packet had number 1, and this one has the next.
    assert_eq!(ledger.submit(0, CREATE_ACCOUNTS, &[], 0), Ok(2));
    // What is stored gives the ledger without it.
    assert_eq!(state(&mut restored(1, &journal)?).transfers, []);
    // A host that knows better says so, and goes on.
    ledger.set_durable(2)?;
    ledger.commit(keeping(&mut journal))?;
    assert_eq!((next_place(&mut ledger), journal.len(), journal[1].place), (1, 2, 2));
    Ok(())
}

/// A store's error may be text, or boxed, which is no error of its own: `?` takes it all the same.
#[test]
fn any_error_of_a_store_is_boxed() {
    fn called<E: std::fmt::Debug + std::fmt::Display + 'static>(why: E) -> Result<(), Failed> {
        let mut ledger = Ledger::open_recorded(0, 8190, 1)?;
        ledger.create_accounts(&[account(1)], |_| Err(why))?.all_created()?;
        Ok(())
    }
    let said = |called: Result<(), Failed>| called.expect_err("the store fails").to_string();
    let boxed: Failed = DiskFull.to_string().into();
    for found in [said(called(DiskFull)), said(called("the disk is full")), said(called(DiskFull.to_string())), said(called(boxed))] {
        assert_eq!(found, "the journal isn't stored: the disk is full");
    }
}

/// Replies that were kept come first, and in their order.
#[test]
fn kept_replies_come_in_the_order_of_places() -> Result<(), Failed> {
    let mut ledger = Ledger::open_recorded(0, 8190, 1)?;
    let store = |_: &[Entry]| -> Result<(), Infallible> { Ok(()) };
    ledger.submit(0, CREATE_ACCOUNTS, &accounts([1]), 0)?;
    ledger.submit(0, CREATE_ACCOUNTS, &accounts([0]), 0)?;
    ledger.create_accounts(&[account(2)], store)?.all_created()?;
    ledger.submit(0, CREATE_ACCOUNTS, &accounts([1]), 0)?;
    ledger.commit(store)?;
    // id_must_not_be_zero is 6, and exists is 21.
    assert_eq!(answers(&mut ledger)?, [(0, 0, 0, Vec::new()), (0, 1, 1, failures(&[(0, 6)])), (0, 3, 3, failures(&[(0, 21)]))]);
    Ok(())
}

/// Returns how long it takes to commit 2,000 accounts, with what an id has in its lower or its upper half and a number in the other one.
fn time_of(open: impl Fn() -> Result<Ledger<Recorded>, Refusal>, half: u64, is_upper: bool) -> Result<Duration, Failed> {
    let id = |it: u128| if is_upper { u128::from(half) << 64 | it } else { it << 64 | u128::from(half) };
    let made = accounts((1..=2000).map(id));
    let mut best = Duration::MAX;
    for _ in 0..3 {
        let mut ledger = open()?;
        ledger.submit(0, CREATE_ACCOUNTS, &made, 0)?;
        let start = Instant::now();
        ledger.flush()?;
        best = best.min(start.elapsed());
        assert_eq!(ledger.counts().accounts, 2000);
    }
    Ok(best)
}

/// All ids whose lower half is the seed's with `LOW`, or whose upper half is the seed's with `HIGH`, have one hash, which takes longer. So it
/// is seen that both halves of a seed are used, and that `open_recorded` uses random ones.
#[test]
fn ids_that_collide_under_a_seed_do_not_under_a_random_one() -> Result<(), Failed> {
    const LOW: u64 = 0x243f_6a88_85a3_08e3;
    const HIGH: u64 = 0x9e37_79b9_7f4a_7c15;
    let (seed, of_seed) = ([3, 5], || Ledger::open_recorded_seeded(0, 8190, 1, [3, 5]));
    for (is_upper, constant, half) in [(false, LOW, seed[0]), (true, HIGH, seed[1])] {
        let slow = time_of(of_seed, constant ^ half, is_upper)?;
        let fast = time_of(|| Ledger::open_recorded(0, 8190, 1), constant, is_upper)?;
        assert!(slow > 4 * fast, "upper half {is_upper}: {slow:?} with ids that collide, {fast:?} with a random seed");
    }
    Ok(())
}

/// A store that panics hasn't stored.
#[test]
fn a_store_that_panics_gives_no_reply() -> Result<(), Failed> {
    let mut ledger = Ledger::open_recorded(0, 8190, 1)?;
    let call = std::panic::AssertUnwindSafe(|| ledger.create_accounts(&[account(1)], |_| -> Result<(), Infallible> { std::panic::panic_any(1) }));
    assert!(std::panic::catch_unwind(call).is_err());
    assert_eq!(ledger.reply(&mut Vec::new()), Err(Refusal::NotStored));
    assert_eq!(ledger.commit(keeping(&mut Vec::new())), Err(Refusal::NotStored.into()));
    Ok(())
}

/// What `next_entry` handed out is for `set_durable`: a commit doesn't call it stored.
#[test]
fn a_commit_waits_for_what_was_handed_out_before_it() -> Result<(), Failed> {
    let (mut journal, mut ledger) = (Vec::new(), Ledger::open_recorded(0, 8190, 1)?);
    ledger.pulse(5)?;
    ledger.submit(0, CREATE_ACCOUNTS, &accounts([1]), 0)?;
    assert_eq!(ledger.next_entry()?, Some(pulse(0, 5)));
    assert_eq!(ledger.commit(keeping(&mut journal)), Err(Refusal::NotStored.into()));
    assert_eq!(ledger.places(), 1); // (and the packet still waits)
    ledger.set_durable(1)?;
    ledger.commit(keeping(&mut journal))?;
    assert_eq!((journal, next_place(&mut ledger)), (vec![packet(1, 0, 0, accounts([1]))], 1));
    Ok(())
}

#[test]
fn what_is_not_committed_waits_only_for_replies_before_it() -> Result<(), Failed> {
    let (mut buffer, mut ledger) = (Vec::new(), Ledger::open_recorded(0, 8190, 1)?);
    ledger.submit(0, CREATE_ACCOUNTS, &accounts([1]), 0)?;
    ledger.shut()?;
    ledger.submit(0, CREATE_ACCOUNTS, &accounts([2]), 0)?;
    assert_eq!(ledger.reply(&mut buffer), Err(Refusal::NotStored));
    let mut stored = 0;
    let store = |entries: &[Entry]| -> Result<(), Infallible> {
        stored += entries.len();
        Ok(())
    };
    let shut = StoreError::Ledger(Error::NotCommitted(NotCommitted::Shutdown));
    assert_eq!(ledger.create_accounts(&[account(3)], store), Err(shut));
    assert_eq!((stored, next_place(&mut ledger)), (1, 0));
    assert_eq!(ledger.reply(&mut buffer)?.ok_or("a reply")?.outcome, Outcome::Shutdown);
    assert_eq!((ledger.reply(&mut buffer), ledger.next_entry()), (Ok(None), Ok(None)));
    assert_eq!(ledger.create_transfers(&[], |_| -> Result<(), Infallible> { panic!("it isn't committed") }), Err(shut));
    assert_eq!(ledger.counts().accounts, 1);
    Ok(())
}

#[test]
fn packets_of_8190_events_are_stored_and_restored() -> Result<(), Failed> {
    let (mut journal, mut ledger) = (Vec::new(), Ledger::open_recorded(0, 8190, 1)?);
    let made: Vec<Account> = (1..=8190).map(|it| account(wide(it))).collect();
    ledger.create_accounts(&made, keeping(&mut journal))?.all_created()?;
    let posted: Vec<Transfer> = (1..=8190).map(|it| transfer(wide(it), wide(it), wide(it % 8190 + 1))).collect();
    ledger.create_transfers(&posted, keeping(&mut journal))?.all_created()?;
    let all_exist = ledger.create_transfers(&posted, keeping(&mut journal))?;
    assert!(all_exist.len() == 8190 && all_exist.iter().all(|it| it.result == CreateTransferResult::Exists));
    let sizes = journal.iter().map(|it| match &it.item {
        Item::Packet { events, .. } => events.len(),
        Item::Pulse { .. } => 0,
    });
    assert_eq!(sizes.collect::<Vec<_>>(), [8190 * 128; 3]);
    let too_many = posted.iter().chain(&posted[..1]).copied().collect::<Vec<_>>();
    assert_eq!(ledger.create_transfers(&too_many, keeping(&mut journal)), Err(Refusal::TooMuchData.into()));
    let mut again = restored(1, &journal)?;
    assert_eq!(again.restore(&packet(3, 0, 3, vec![0; 8191 * 128])), Err(Refusal::TooMuchData));
    let found = state(&mut again);
    assert_eq!((found.counts.accounts, found.counts.transfers, found.places), (8190, 8190, 3));
    assert!(found.accounts.iter().all(|it| (it.debits_posted, it.credits_posted) == (5, 5)));
    assert_eq!(found.transfers.iter().map(|it| it.0.id).collect::<Vec<_>>(), (1..=8190).map(wide).collect::<Vec<_>>());
    assert_eq!(found, state(&mut ledger));
    Ok(())
}

/// Many packets of all submitters wait for their store at once: none is given up, and each has its own number and place.
#[test]
fn fifty_thousand_packets_of_sixteen_submitters() -> Result<(), Failed> {
    let (count, every) = (50_000_u64, 16);
    let mut ledger = Ledger::open_recorded(0, 8190, every)?;
    for id in 0..count {
        let submitter = (id % u64::from(every)) as u32;
        assert_eq!(ledger.submit(submitter, CREATE_ACCOUNTS, &accounts([wide(u128::from(id) + 1)]), id)?, id / u64::from(every));
        ledger.pulse(id * 10)?;
    }
    let journal = taken(&mut ledger);
    assert!(journal.iter().map(|it| it.place).eq(0..2 * count));
    assert_eq!(ledger.reply(&mut Vec::new()), Err(Refusal::NotStored));
    ledger.set_durable(2 * count)?;
    let replies = answers(&mut ledger)?;
    assert!(replies.iter().map(|it| it.2).eq((0..count).map(|id| 2 * id)));
    assert!(replies.iter().all(|it| it.3.is_empty()));
    let mut again = restored(every, &journal)?;
    assert_eq!((again.counts().accounts, again.places()), (count, 2 * count));
    assert_eq!(state(&mut again), state(&mut ledger));
    assert_eq!(again.submit(15, CREATE_ACCOUNTS, &[], 0)?, count / 16);
    Ok(())
}

/// Another thread stores, while this one queues and commits.
#[test]
fn a_thread_of_its_own_stores() -> Result<(), Failed> {
    let (to_store, entries) = std::sync::mpsc::channel::<Entry>();
    let (say, stored) = std::sync::mpsc::channel();
    let storing = std::thread::spawn(move || {
        entries.into_iter().fold(Vec::new(), |mut journal, entry| {
            say.send(entry.place + 1).expect("the ledger's thread is there");
            journal.push(entry);
            journal
        })
    });
    let mut ledger = Ledger::open_recorded(0, 8190, 1)?;
    for id in 1..=1000 {
        ledger.submit(0, CREATE_ACCOUNTS, &accounts([id]), 0)?;
        ledger.flush()?;
        taken(&mut ledger).into_iter().try_for_each(|entry| to_store.send(entry))?;
    }
    for places in stored.into_iter().take(1000) {
        ledger.set_durable(places)?;
        assert_eq!(next_place(&mut ledger), places - 1);
    }
    drop(to_store);
    let journal = storing.join().map_err(|_| "the thread fails")?;
    // A ledger moves to another thread too.
    let again = std::thread::spawn(move || restored(1, &journal).map(|mut it| state(&mut it)));
    assert_eq!(again.join().map_err(|_| "the thread fails")??, state(&mut ledger));
    Ok(())
}
