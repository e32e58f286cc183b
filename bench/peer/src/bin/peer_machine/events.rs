//! The events: those of `bench_machine`.

use peer::layout::EVENT_SIZE;
use std::str::FromStr;

type Event = [u8; EVENT_SIZE];

/// The events of the largest packet.
const PACKET: u64 = 8190;

/// The kinds of events; `bench_machine` says what each is.
#[derive(Clone, Copy)]
pub enum Kind {
    Accounts,
    Plain,
    Random,
    TwoPhase,
    Late,
    Pending,
    Spread,
    Chains,
    LongChain,
    Early,
    Ledger,
    Missing,
    Exists,
    Mixed,
    Attacked,
    Lookups,
}

impl FromStr for Kind {
    type Err = String;

    fn from_str(word: &str) -> Result<Kind, String> {
        match word {
            "accounts" => Ok(Kind::Accounts),
            "plain" => Ok(Kind::Plain),
            "random" => Ok(Kind::Random),
            "two-phase" => Ok(Kind::TwoPhase),
            "late" => Ok(Kind::Late),
            "pending" => Ok(Kind::Pending),
            "spread" => Ok(Kind::Spread),
            "chains" => Ok(Kind::Chains),
            "long-chain" => Ok(Kind::LongChain),
            "early" => Ok(Kind::Early),
            "ledger" => Ok(Kind::Ledger),
            "missing" => Ok(Kind::Missing),
            "exists" => Ok(Kind::Exists),
            "mixed" => Ok(Kind::Mixed),
            "attacked" => Ok(Kind::Attacked),
            "lookups" => Ok(Kind::Lookups),
            _ => Err(format!("no kind of event: {word}")),
        }
    }
}

fn put_number(event: &mut Event, offset: usize, number: u64) {
    event[offset..offset + 8].copy_from_slice(&number.to_le_bytes());
}

/// An event in ledger 1 with code 1.
fn event(id: u64) -> Event {
    let mut event = [0; EVENT_SIZE];
    put_number(&mut event, 0, id);
    event[112] = 1;
    event[116] = 1;
    event
}

/// A transfer of the amount 1 between two accounts, which are counted from 0.
fn between(id: u64, debit: u64, credit: u64) -> Event {
    let mut event = event(id);
    put_number(&mut event, 16, debit + 1);
    put_number(&mut event, 32, credit + 1);
    event[48] = 1;
    event
}

fn plain(made: u64, accounts: u64) -> Event {
    let debit = made.wrapping_mul(7) % accounts;
    between(
        made + 1,
        debit,
        (debit + 1 + made % (accounts - 2)) % accounts,
    )
}

fn scattered(made: u64) -> u64 {
    made.wrapping_mul(0x9e37_79b9_7f4a_7c15) >> 20
}

fn random(made: u64, accounts: u64) -> Event {
    let debit = scattered(made) % accounts;
    let credit = (debit + 1 + scattered(made ^ 0xffff) % (accounts - 2)) % accounts;
    between(made + 1, debit, credit)
}

fn pending(made: u64, accounts: u64, timeout: u32) -> Event {
    let mut event = plain(made, accounts);
    event[108..112].copy_from_slice(&timeout.to_le_bytes());
    event[118] = 2;
    event
}

fn resolving(made: u64, named: u64) -> Event {
    let mut event = [0; EVENT_SIZE];
    put_number(&mut event, 0, made + 1);
    put_number(&mut event, 64, named);
    if made % 4 == 1 {
        event[48..64].fill(255);
        event[118] = 4;
    } else {
        event[118] = 8;
    }
    event
}

fn late(made: u64, accounts: u64) -> Event {
    if ((made - accounts) / PACKET).is_multiple_of(2) {
        pending(made, accounts, 100)
    } else {
        resolving(made, made - PACKET + 1)
    }
}

fn in_another_ledger(made: u64, accounts: u64) -> Event {
    let mut event = plain(made, accounts);
    event[112] = 2;
    event
}

fn linked(made: u64, accounts: u64, length: u64) -> Event {
    let mut event = plain(made, accounts);
    if made % length != length - 1 {
        event[118] = 1;
        event
    } else if length > 10 || (made / length).is_multiple_of(10) {
        in_another_ledger(made, accounts)
    } else {
        event
    }
}

/// A plain transfer with one byte set.
fn with_byte(made: u64, accounts: u64, place: usize) -> Event {
    let mut event = plain(made, accounts);
    event[place] = 1;
    event
}

fn mixed(made: u64, accounts: u64) -> Event {
    match made % 10 {
        0 => with_byte(made, accounts, 120),
        1 => in_another_ledger(made, accounts),
        2 => with_byte(made, accounts, 24),
        3 => pending(made, accounts, 100),
        4 => resolving(made, made),
        _ => plain(made, accounts),
    }
}

fn attacked(made: u64, accounts: u64) -> Event {
    let mut event = plain(made, accounts);
    if made - accounts < PACKET {
        put_number(&mut event, 8, 0x9e37_79b9_7f4a_7c15);
    } else if made - accounts < 2 * PACKET {
        put_number(&mut event, 0, 0x243f_6a88_85a3_08e3);
        put_number(&mut event, 8, made);
    }
    event
}

/// The event of a kind after a number of others; those before the packets are accounts.
pub fn event_of(kind: Kind, made: u64, accounts: u64) -> Event {
    match kind {
        Kind::Accounts => event(made + 1),
        Kind::Plain | Kind::Lookups => plain(made, accounts),
        Kind::Random => random(made, accounts),
        Kind::TwoPhase if made.is_multiple_of(2) => pending(made, accounts, 100),
        Kind::TwoPhase => resolving(made, made),
        Kind::Late => late(made, accounts),
        Kind::Pending => pending(made, accounts, 100),
        Kind::Spread => pending(made, accounts, (scattered(made) % 1_000_000) as u32),
        Kind::Chains => linked(made, accounts, 10),
        Kind::LongChain => linked(made - accounts, accounts, PACKET),
        Kind::Early => with_byte(made, accounts, 120),
        Kind::Ledger => in_another_ledger(made, accounts),
        Kind::Missing => with_byte(made, accounts, 24),
        Kind::Exists => plain((made - accounts) % PACKET + accounts, accounts),
        Kind::Mixed => mixed(made, accounts),
        Kind::Attacked => attacked(made, accounts),
    }
}
