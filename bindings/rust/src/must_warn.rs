//! Calls whose results must be looked at: the compiler warns of each that isn't. Only doc tests.
//!
//! It doesn't look into an `Option`. So nothing warns of `reply(buffer)?;` and `next_entry()?;` of a `Ledger<Recorded>`, and their docs say so.

macro_rules! must_warn {
    ($($name:ident $call:literal)*) => {$(
        must_warn! { $name, concat!("```compile_fail\n", head!(), $call, tail!(), "\n\n```\n", head!(), "let _ = ", $call, tail!()) }
    )*};
    ($name:ident, $tests:expr) => {
        #[doc = $tests]
        pub struct $name;
    };
}

macro_rules! head {
    () => {
        "#![deny(unused_must_use)]
fn call(ledger: &mut kip::Ledger, reply: kip::Reply, buffer: &mut Vec<u8>) -> Result<(), Box<dyn std::error::Error>> {
let _ = (reply, &buffer, &ledger);
let mut recorded = kip::Ledger::open_recorded(0, 1, 1)?;
let store = |_: &[kip::Entry]| -> Result<(), std::fmt::Error> { Ok(()) };
let _ = (&mut recorded, store);
"
    };
}

macro_rules! tail {
    () => {
        ";
Ok(())
}
```"
    };
}

must_warn! {
    Accounts "ledger.create_accounts(&[])?"
    Transfers "ledger.create_transfers(&[])?"
    Failed "ledger.create_transfers(&[])?.all_created()"
    NextReply "ledger.reply(buffer)"
    Reply "ledger.reply(buffer).unwrap()"
    Outcome "reply.outcome"
    Failures "reply.failures()?"
    Succeeded "reply.succeeded()"
    Stopped "ledger.stopped()"
    StoredAccounts "recorded.create_accounts(&[], store)?"
    StoredTransfers "recorded.create_transfers(&[], store)?"
    Commit "recorded.commit(store)"
    Restore "recorded.restore(&kip::Entry { place: 0, item: kip::Item::Pulse { moment: 0 } })"
    StoredReply "recorded.reply(buffer)?.unwrap()"
    StoredReplyOrNone "recorded.reply(buffer)"
    NextEntry "recorded.next_entry()?.unwrap()"
    NextEntryOrNone "recorded.next_entry()"
    SetDurable "recorded.set_durable(0)"
}
