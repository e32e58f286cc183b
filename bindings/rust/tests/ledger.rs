use kip::{
    Account, AccountFlags, Counts, CreateAccountResult, CreateTransferResult, CreateTransfersResult, Error, Failure, Ledger,
    NotCommitted, Outcome, PendingStatus, Refusal, Transfer, TransferFlags, CREATE_ACCOUNTS, CREATE_TRANSFERS, LOOKUP_ACCOUNTS,
};

const ACCOUNT: Account = Account {
    id: 0,
    debits_pending: 0,
    debits_posted: 0,
    credits_pending: 0,
    credits_posted: 0,
    user_data_128: 0,
    user_data_64: 0,
    user_data_32: 0,
    reserved: 0,
    ledger: 1,
    code: 1,
    flags: 0,
    timestamp: 0,
};

fn transfer(id: u128, from: u128, to: u128) -> Transfer {
    Transfer { id, debit_account_id: from, credit_account_id: to, amount: 5, ledger: 1, code: 1, ..Transfer::default() }
}

fn bytes_of(transfers: &[Transfer]) -> Vec<u8> {
    transfers.iter().flat_map(Transfer::to_bytes).collect()
}

fn two_accounts() -> Vec<u8> {
    [Account { id: 1, ..ACCOUNT }.to_bytes(), Account { id: 2, ..ACCOUNT }.to_bytes()].concat()
}

#[test]
fn records_have_tigerbeetles_layout() {
    let account = Account { id: 1 << 64, reserved: 7, flags: AccountFlags::HISTORY, timestamp: 9, ..ACCOUNT };
    let bytes = account.to_bytes();
    // id at 0, reserved at 108, ledger at 112, code at 116, flags at 118, timestamp at 120.
    assert_eq!((bytes[8], bytes[108], bytes[112], bytes[116], bytes[118], bytes[120]), (1, 7, 1, 1, 8, 9));
    assert_eq!(bytes.iter().filter(|byte| **byte != 0).count(), 6);
    assert_eq!(Account::from_bytes(&bytes), account);
    let transfer = Transfer { amount: 3, pending_id: 4, timeout: 5, flags: TransferFlags::PENDING, ..Transfer::default() };
    let bytes = transfer.to_bytes();
    assert_eq!((bytes[48], bytes[64], bytes[108], bytes[118]), (3, 4, 5, 2));
    assert_eq!(Transfer::from_bytes(&bytes), transfer);
}

#[test]
fn linked_pair_fails_whole() -> Result<(), Error> {
    let mut ledger = Ledger::open(0, 8190, 1)?;
    ledger.submit(0, CREATE_ACCOUNTS, &two_accounts(), 1)?;
    let pair = [Transfer { flags: TransferFlags::LINKED, ..transfer(1, 1, 2) }, transfer(2, 1, 9)];
    ledger.submit(0, CREATE_TRANSFERS, &bytes_of(&pair), 2)?;
    ledger.flush()?;
    let mut buffer = Vec::new();
    let reply = ledger.reply(&mut buffer).unwrap();
    assert_eq!(reply.outcome, Outcome::Committed { place: 0, results: &[] });
    let reply = ledger.reply(&mut buffer).unwrap();
    assert_eq!((reply.user_data, reply.number, reply.operation), (2, 1, CREATE_TRANSFERS));
    // Event 0 fails with 1 (linked_event_failed), event 1 with 22 (credit_account_not_found).
    let results = [0, 0, 0, 0, 1, 0, 0, 0, 1, 0, 0, 0, 22, 0, 0, 0];
    assert_eq!(reply.outcome, Outcome::Committed { place: 1, results: &results });
    let failed = [Failure { index: 0, result: 1 }, Failure { index: 1, result: 22 }];
    assert_eq!(reply.failures()?.into_vec(), failed);
    assert_eq!(ledger.reply(&mut buffer), None);
    let account = ledger.lookup_account(1).unwrap();
    assert_eq!((account.debits_posted, account.credits_posted), (0, 0));
    assert_eq!(ledger.lookup_account(9), None);
    Ok(())
}

#[test]
fn calls_of_a_client() -> Result<(), Error> {
    let mut ledger = Ledger::open(0, 8190, 1)?;
    let results = ledger.create_accounts(&[Account { id: 1, ..ACCOUNT }, Account { code: 0, id: 2, ..ACCOUNT }])?;
    assert_eq!((results[0].index, results[0].result), (1, CreateAccountResult::CodeMustNotBeZero));
    assert_eq!(results[0].result.name(), "code_must_not_be_zero");
    assert!(ledger.create_accounts(&[Account { id: 2, ..ACCOUNT }])?.is_empty());
    let held = Transfer { flags: TransferFlags::PENDING, ..transfer(3, 1, 2) };
    let void = Transfer { id: 4, pending_id: 3, flags: TransferFlags::VOID_PENDING_TRANSFER, ..Transfer::default() };
    assert!(ledger.create_transfers(&[held])?.is_empty());
    assert_eq!(ledger.transfer_status(3), Some(PendingStatus::Pending));
    let results = ledger.create_transfers(&[void, held])?;
    assert_eq!((results.len(), results[0].index, results[0].result), (1, 1, CreateTransferResult::Exists));
    assert_eq!(ledger.transfer_status(3), Some(PendingStatus::Voided));
    assert_eq!((ledger.transfer_status(4), ledger.transfer_status(9)), (None, None));
    // A void has the amount and the accounts of what it voids.
    let found = ledger.lookup_transfers(&[4, 9, 3]);
    assert_eq!(found.iter().map(|it| (it.id, it.amount, it.code)).collect::<Vec<_>>(), [(4, 5, 1), (3, 5, 1)]);
    assert_eq!(ledger.lookup_accounts(&[2, 7, 1]).iter().map(|it| it.id).collect::<Vec<_>>(), [2, 1]);
    assert_eq!(ledger.account_at(1).map(|it| it.id), Some(2));
    assert_eq!(ledger.account_at(2), None);
    // Transfers in the order of making: the pending one, and the void with the fields of what it voids.
    let at = |found: Option<(Transfer, Option<PendingStatus>)>| found.map(|(it, status)| (it.id, it.amount, status));
    assert_eq!(at(ledger.transfer_at(0)), Some((3, 5, Some(PendingStatus::Voided))));
    assert_eq!(at(ledger.transfer_at(1)), Some((4, 5, None)));
    assert_eq!((ledger.transfer_at(2), ledger.transfer_at(usize::MAX)), (None, None));
    Ok(())
}

/// The ids of transfers whose results keep them, and no others, are refused as `IdAlreadyFailed` later.
#[test]
fn ids_are_kept_by_result() -> Result<(), Error> {
    let mut ledger = Ledger::open(0, 8190, 1)?;
    let limited = Account { id: 3, flags: AccountFlags::DEBITS_MUST_NOT_EXCEED_CREDITS, ..ACCOUNT };
    ledger.create_accounts(&[Account { id: 1, ..ACCOUNT }, Account { id: 2, ..ACCOUNT }, limited])?.all_created()?;
    let post = Transfer { id: 12, pending_id: 99, flags: TransferFlags::POST_PENDING_TRANSFER, ..Transfer::default() };
    let failing = [transfer(10, 9, 2), transfer(11, 1, 9), post, transfer(13, 3, 1), transfer(14, 1, 1), transfer(15, 0, 1)];
    let results = ledger.create_transfers(&failing)?;
    assert_eq!(results.len(), failing.len());
    let kept: Vec<u128> = results.iter().filter(|it| it.result.keeps_id()).map(|it| failing[it.index as usize].id).collect();
    assert_eq!(kept, [10, 11, 12, 13]);
    assert_eq!(ledger.counts(), Counts { accounts: 3, transfers: 0, failed_ids: kept.len() as u64 });
    let again: Vec<Transfer> = failing.iter().map(|it| transfer(it.id, 1, 2)).collect();
    let refused = ledger.create_transfers(&again)?;
    assert!(refused.iter().all(|it| it.result == CreateTransferResult::IdAlreadyFailed));
    assert_eq!(refused.iter().map(|it| again[it.index as usize].id).collect::<Vec<_>>(), kept);
    assert_eq!(ledger.counts(), Counts { accounts: 3, transfers: 2, failed_ids: kept.len() as u64 });
    Ok(())
}

#[test]
fn a_call_returns_its_own_reply() -> Result<(), Error> {
    let mut ledger = Ledger::open(0, 8190, 2)?;
    ledger.submit(0, CREATE_ACCOUNTS, &two_accounts(), 1)?;
    ledger.submit(1, CREATE_TRANSFERS, &bytes_of(&[transfer(1, 1, 9)]), 7)?;
    // That packet's event fails, this one's doesn't.
    assert!(ledger.create_transfers(&[transfer(2, 1, 2)])?.is_empty());
    let mut buffer = Vec::new();
    assert_eq!(ledger.reply(&mut buffer).unwrap().user_data, 1);
    let reply = ledger.reply(&mut buffer).unwrap();
    assert_eq!((reply.submitter, reply.user_data), (1, 7));
    assert_eq!(reply.outcome, Outcome::Committed { place: 1, results: &[0, 0, 0, 0, 22, 0, 0, 0] });
    assert_eq!(ledger.reply(&mut buffer), None);
    Ok(())
}

/// The bounds are those in the refusal's sentence.
#[test]
fn moments_and_clocks_have_a_greatest() {
    assert_eq!(Ledger::open(1 << 63, 1, 1).err(), Some(Refusal::MomentTooLarge));
    assert_eq!(Ledger::open((1 << 63) - 1, 1, 1).unwrap().clock(), (1 << 63) - 1);
    let mut ledger = Ledger::open(0, 1, 1).unwrap();
    assert_eq!(ledger.pulse((1 << 62) + 1), Err(Refusal::MomentTooLarge));
    assert_eq!(ledger.pulse(1 << 62), Ok(()));
    let said = Refusal::MomentTooLarge.to_string();
    assert!(said.contains("of a pulse is above 2^62 nanoseconds") && said.contains("clock at opening above 2^63 - 1"), "{said}");
}

#[test]
fn refusals_have_names() {
    assert_eq!(Ledger::open(0, 0, 1).err(), Some(Refusal::BadLimit));
    assert_eq!(Ledger::open(0, 1, 17).err(), Some(Refusal::BadSubmitters));
    let mut ledger = Ledger::open(7, 1, 1).unwrap();
    assert_eq!(ledger.submit(1, CREATE_ACCOUNTS, &[], 0), Err(Refusal::BadSubmitters));
    assert_eq!(ledger.submit(0, 7, &[], 0), Err(Refusal::InvalidOperation));
    assert_eq!(ledger.submit(0, CREATE_ACCOUNTS, &[0], 0), Err(Refusal::InvalidDataSize));
    assert_eq!(ledger.submit(0, CREATE_ACCOUNTS, &two_accounts(), 0), Err(Refusal::TooMuchData));
    assert_eq!(ledger.pulse(u64::MAX), Err(Refusal::MomentTooLarge));
    assert_eq!((ledger.clock(), ledger.places()), (7, 0));
    assert_eq!(ledger.pulse(8), Ok(()));
    assert_eq!((ledger.clock(), ledger.places()), (8, 1));
    assert_eq!(ledger.shut(), Ok(()));
    assert_eq!(ledger.shut(), Err(Refusal::Shutdown));
    assert_eq!(ledger.submit(0, CREATE_ACCOUNTS, &[], 3), Ok(0));
    let mut buffer = vec![1, 2, 3];
    assert_eq!(ledger.reply(&mut buffer).unwrap().outcome, Outcome::Shutdown);
    assert!(buffer.is_empty());
    assert_eq!(ledger.create_transfers(&[]), Err(Error::NotCommitted(NotCommitted::Shutdown)));
    assert!(!ledger.stopped());
    assert_eq!(kip::version(), 0x100);
}

/// Failures end a function by `?`, as this crate's error or as any. A packet whose events succeeded goes on.
#[test]
fn failures_become_errors() -> Result<(), Error> {
    fn post(ledger: &mut Ledger, transfers: &[Transfer]) -> Result<(), Box<dyn std::error::Error>> {
        ledger.create_transfers(transfers)?.all_created()?;
        Ok(())
    }
    let mut ledger = Ledger::open(0, 8190, 1)?;
    ledger.create_accounts(&[Account { id: 1, ..ACCOUNT }, Account { id: 2, ..ACCOUNT }])?.all_created()?;
    assert!(post(&mut ledger, &[transfer(1, 1, 2)]).is_ok());
    let error = post(&mut ledger, &[transfer(2, 1, 2), transfer(3, 1, 9), transfer(4, 1, 1)]).unwrap_err();
    assert_eq!(error.to_string(), "2 failed: transfer 1: credit_account_not_found, ..");
    let failed = ledger.create_transfers(&[transfer(5, 9, 2)])?.all_created().unwrap_err();
    assert_eq!(failed.failures(), [CreateTransfersResult { index: 0, result: CreateTransferResult::DebitAccountNotFound }]);
    assert_eq!(failed.to_string(), "1 failed: transfer 0: debit_account_not_found");
    assert_eq!(Error::from(failed.clone()), Error::TransfersFailed { count: 1, first: failed.failures()[0] });
    assert_eq!(Error::from(failed.clone()).to_string(), failed.to_string());
    let again = ledger.create_accounts(&[Account { id: 2, ..ACCOUNT }])?;
    assert_eq!((again.len(), again[0].to_string()), (1, "account 0: exists".to_string()));
    assert!(matches!(again.all_created().map_err(Error::from), Err(Error::AccountsFailed { count: 1, .. })));
    Ok(())
}

/// Each error is shown as a sentence, and not by its name.
#[test]
fn errors_are_sentences() {
    let refusals = [
        Refusal::InvalidOperation, Refusal::InvalidDataSize, Refusal::TooMuchData, Refusal::Full, Refusal::NoMemory, Refusal::Shutdown,
        Refusal::Stopped, Refusal::BadLimit, Refusal::BadSubmitters, Refusal::MomentTooLarge, Refusal::NotNext, Refusal::InUse,
        Refusal::NotHandedOut, Refusal::NotStored,
    ];
    for refusal in refusals {
        let (said, name) = (Error::Refused(refusal).to_string(), format!("{refusal:?}"));
        assert!(said == refusal.to_string() && said.contains(' ') && !said.contains(&name), "{said}");
    }
    for why in [NotCommitted::Shutdown, NotCommitted::Stopped] {
        let said = Error::NotCommitted(why).to_string();
        assert!(said == why.to_string() && said.starts_with("the packet isn't committed: "), "{said}");
    }
    let not_stored = "what is committed isn't stored: store it first, as `commit` does; if that failed, drop the ledger, open another and restore";
    assert_eq!(Refusal::NotStored.to_string(), not_stored);
    let queued = "memory ran out, and packet 7 stays queued: `flush` or `commit` it, and don't make the call again";
    assert_eq!(Error::Queued { number: 7 }.to_string(), queued);
}

/// Only a packet that is committed and whose events all succeeded has succeeded. A look-up has no failures, whatever it finds.
#[test]
fn replies_say_whether_they_succeeded() -> Result<(), Error> {
    let mut ledger = Ledger::open(0, 8190, 1)?;
    let ids = [1u128, 2, 9].map(u128::to_le_bytes).concat();
    ledger.submit(0, CREATE_ACCOUNTS, &two_accounts(), 0)?;
    ledger.submit(0, CREATE_TRANSFERS, &bytes_of(&[transfer(1, 1, 9)]), 0)?;
    ledger.submit(0, LOOKUP_ACCOUNTS, &ids, 0)?;
    ledger.shut()?;
    ledger.submit(0, CREATE_TRANSFERS, &bytes_of(&[transfer(2, 1, 2)]), 0)?;
    let mut buffer = Vec::new();
    let reply = ledger.reply(&mut buffer).unwrap();
    assert!(reply.succeeded() && reply.failures()?.is_empty());
    let reply = ledger.reply(&mut buffer).unwrap();
    assert!(!reply.succeeded());
    let first = Failure { index: 0, result: 22 };
    assert_eq!(reply.failures()?.all_created().map_err(Error::from), Err(Error::EventsFailed { count: 1, first }));
    let reply = ledger.reply(&mut buffer).unwrap();
    assert!(reply.succeeded() && reply.failures()?.is_empty());
    assert_eq!(reply.results().map(<[u8]>::len), Ok(256));
    let reply = ledger.reply(&mut buffer).unwrap();
    assert!(!reply.succeeded());
    assert_eq!((reply.results(), reply.failures()), (Err(NotCommitted::Shutdown), Err(NotCommitted::Shutdown)));
    Ok(())
}

#[test]
fn a_ledger_can_be_shown() {
    assert_eq!(Ledger::open(0, 0, 1).unwrap_err(), Refusal::BadLimit);
    assert_eq!(format!("{:?}", Ledger::open(0, 1, 1)), "Ok(Ledger { .. })");
}

#[test]
fn dropped_with_packets_held() {
    for _ in 0..100 {
        let mut ledger = Ledger::open(0, 8190, 16).unwrap();
        ledger.submit(15, CREATE_ACCOUNTS, &two_accounts(), 0).unwrap();
    }
}

#[test]
fn moves_from_thread_to_thread() -> Result<(), Error> {
    let mut ledger = Ledger::open(0, 8190, 1)?;
    ledger.create_accounts(&[Account { id: 1, ..ACCOUNT }, Account { id: 2, ..ACCOUNT }])?.all_created()?;
    for id in 1..=20 {
        ledger = std::thread::spawn(move || {
            assert!(ledger.create_transfers(&[transfer(id, 1, 2)]).unwrap().is_empty());
            ledger
        })
        .join()
        .unwrap();
    }
    assert_eq!(ledger.lookup_account(1).unwrap().debits_posted, 100);
    Ok(())
}

#[test]
fn reply_leaves_the_rest_of_its_buffer() -> Result<(), Error> {
    let mut ledger = Ledger::open(0, 8190, 1)?;
    ledger.submit(0, CREATE_ACCOUNTS, &[0; 128], 0)?;
    ledger.flush()?;
    let mut buffer = vec![0xAA; 1 << 20];
    assert!(ledger.reply(&mut buffer).is_some());
    assert_eq!(buffer.len(), 8);
    // SAFETY: all of it was written above.
    unsafe { buffer.set_len(1 << 20) };
    assert!(buffer[8..].iter().all(|byte| *byte == 0xAA));
    Ok(())
}

/// Commits accounts and transfers whose ids all have hash 0 without a seed, and returns the results of each packet.
fn results_of_colliding_ids(ledger: &mut Ledger) -> Result<[Vec<u8>; 3], Refusal> {
    let id = |low: u128| (0x9e37_79b9_7f4a_7c15 << 64) + low;
    let accounts: Vec<u8> = (0..100).flat_map(|i| Account { id: id(i), ..ACCOUNT }.to_bytes()).collect();
    let transfers: Vec<_> = (0..100).map(|i| transfer(id(i), id(i), id(2 * i))).collect();
    ledger.submit(0, CREATE_ACCOUNTS, &accounts, 1)?;
    ledger.submit(0, CREATE_TRANSFERS, &bytes_of(&transfers), 2)?;
    ledger.submit(0, CREATE_TRANSFERS, &bytes_of(&transfers), 3)?;
    ledger.flush()?;
    let mut buffer = Vec::new();
    Ok(std::array::from_fn(|at| match ledger.reply(&mut buffer).expect("a reply").outcome {
        Outcome::Committed { place, results } if place == at as u64 => results.to_vec(),
        other => panic!("{other:?}"),
    }))
}

#[test]
fn seed_and_reservations_change_no_reply() -> Result<(), Refusal> {
    let mut fair = Ledger::open(0, 8190, 1)?;
    let mut seeded = Ledger::open_seeded(0, 8190, 1, [3, 5])?;
    seeded.reserve(100, 200)?;
    assert_eq!(seeded.reserve(0, 1 << 60), Err(Refusal::NoMemory));
    assert_eq!(seeded.reserve(usize::MAX, 0), Err(Refusal::NoMemory));
    let results = results_of_colliding_ids(&mut fair)?;
    // The transfer from account 0 to itself, the 50 to accounts that aren't there, and then all 100 again fail.
    assert_eq!((results[0].len(), results[1].len(), results[2].len()), (0, 8 * 51, 8 * 100));
    assert_eq!(results_of_colliding_ids(&mut seeded)?, results);
    let account = (0x9e37_79b9_7f4a_7c15 << 64) + 2;
    assert_eq!(seeded.lookup_account(account), fair.lookup_account(account));
    assert!(seeded.lookup_account(account).is_some());
    assert_eq!(Ledger::open_seeded(0, 0, 1, [3, 5]).err(), Some(Refusal::BadLimit));
    Ok(())
}

/// The resident memory of this process, in bytes.
#[cfg(target_os = "linux")]
fn resident() -> usize {
    let pages = std::fs::read_to_string("/proc/self/statm").unwrap();
    4096 * pages.split(' ').nth(1).unwrap().parse::<usize>().unwrap()
}

/// Commits packets of 8,190 transfers that all fail, so that nothing is stored, and reads the replies.
#[cfg(target_os = "linux")]
fn commit_failing(ledger: &mut Ledger, packets: usize) -> Result<(), Refusal> {
    let data = transfer(0, 1, 2).to_bytes().repeat(8190);
    let mut buffer = Vec::new();
    for _ in 0..packets {
        ledger.submit(0, CREATE_TRANSFERS, &data, 0)?;
        ledger.flush()?;
        match ledger.reply(&mut buffer).unwrap().outcome {
            Outcome::Committed { results, .. } => assert_eq!(results.len(), 8 * 8190),
            other => panic!("{other:?}"),
        }
    }
    Ok(())
}

/// A journal of these packets would have 200 MiB.
#[cfg(target_os = "linux")]
#[test]
fn memory_does_not_grow_without_what_is_stored() -> Result<(), Refusal> {
    let mut ledger = Ledger::open(0, 8190, 1)?;
    commit_failing(&mut ledger, 10)?;
    let before = resident();
    commit_failing(&mut ledger, 200)?;
    let grown = resident().saturating_sub(before);
    assert!(grown < 32 << 20, "{grown} bytes more");
    Ok(())
}
