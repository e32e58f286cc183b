//! Two accounts, one transfer that succeeds and one that fails, and a packet after the Close.

use kip::{Account, CreateTransferResult, Ledger, Outcome, Transfer, CREATE_TRANSFERS};

fn main() -> Result<(), kip::Error> {
    let mut ledger = Ledger::open(0, 8190, 1)?;
    let account = Account { ledger: 1, code: 1, ..Account::default() };
    ledger.create_accounts(&[Account { id: 1, ..account }, Account { id: 2, ..account }])?.all_created()?;

    let transfer = Transfer { id: 1, debit_account_id: 1, credit_account_id: 2, amount: 30, ledger: 1, code: 1, ..Transfer::default() };
    let lost = Transfer { id: 2, credit_account_id: 9, ..transfer };
    for failed in ledger.create_transfers(&[transfer, lost])? {
        println!("event {}: {}", failed.index, failed.result.name());
    }
    println!("account 1: debits posted {}", ledger.lookup_accounts(&[1])[0].debits_posted);

    // The same by packets, whose replies say first whether they are committed.
    ledger.submit(0, CREATE_TRANSFERS, &Transfer { id: 3, ..transfer }.to_bytes(), 70)?;
    ledger.shut()?;
    ledger.submit(0, CREATE_TRANSFERS, &Transfer { id: 4, ..transfer }.to_bytes(), 71)?;
    let mut buffer = Vec::new();
    while let Some(reply) = ledger.reply(&mut buffer) {
        match reply.outcome {
            Outcome::Committed { place, .. } => {
                let failures = reply.failures()?;
                println!("packet {}: committed at place {place}, {} failed", reply.user_data, failures.len());
                for failure in failures {
                    println!("  {:?}", CreateTransferResult::of(failure.result));
                }
            }
            Outcome::Shutdown => println!("packet {}: not committed, shut", reply.user_data),
            Outcome::Stopped => println!("packet {}: not committed, stopped", reply.user_data),
        }
    }
    Ok(())
}
