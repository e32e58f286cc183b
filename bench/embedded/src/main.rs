//! The embedded ledger and the peer's state machine over the same made packets: `embedded EVENTS SEED MOST
//! CLOCK`. Failures,
//! accounts found, places, numbers and user words are compared for each packet, and all accounts and the clock after
//! each flush. Prints how often each result came.

mod made;

use kip::{Ledger, Outcome};
use made::{ACCOUNTS, Numbers, Past, packet};
use peer::layout::{Account, CREATE_ACCOUNTS, CREATE_TRANSFERS};
use peer::machine::Machine;
use std::collections::{BTreeMap, VecDeque};

/// What the peer made of a packet.
struct Wanted {
    user: u64,
    number: u64,
    place: u64,
    results: Vec<u8>,
}

struct Both {
    ledger: Ledger,
    machine: Machine,
    wanted: VecDeque<Wanted>,
    numbers: Vec<u64>,
    places: u64,
    results: Vec<u8>,
    verdicts: BTreeMap<(u8, u32), u64>,
}

fn account_bytes(account: &Account) -> [u8; 128] {
    let mut bytes = [0; 128];
    let wide = [
        account.id, account.debits_pending, account.debits_posted, account.credits_pending, account.credits_posted,
        account.user_data_128,
    ];
    for (at, number) in wide.into_iter().enumerate() {
        bytes[16 * at..16 * at + 16].copy_from_slice(&number.to_le_bytes());
    }
    bytes[96..104].copy_from_slice(&account.user_data_64.to_le_bytes());
    bytes[104..108].copy_from_slice(&account.user_data_32.to_le_bytes());
    bytes[108..112].copy_from_slice(&account.reserved.to_le_bytes());
    bytes[112..116].copy_from_slice(&account.ledger.to_le_bytes());
    bytes[116..118].copy_from_slice(&account.code.to_le_bytes());
    bytes[118..120].copy_from_slice(&account.flags.to_le_bytes());
    bytes[120..].copy_from_slice(&account.timestamp.to_le_bytes());
    bytes
}

impl Both {
    fn submit(&mut self, submitter: u32, operation: u8, data: &[u8], user: u64) {
        let number = self.ledger.submit(submitter, operation, data, user).expect("queued");
        assert_eq!(number, self.numbers[submitter as usize]);
        self.numbers[submitter as usize] += 1;
        let mut results = Vec::new();
        if operation == CREATE_ACCOUNTS || operation == CREATE_TRANSFERS {
            let failures = match operation {
                CREATE_ACCOUNTS => self.machine.create_accounts(data),
                _ => self.machine.create_transfers(data),
            };
            for failure in failures {
                *self.verdicts.entry((operation, failure.code)).or_default() += 1;
                results.extend(failure.index.to_le_bytes());
                results.extend(failure.code.to_le_bytes());
            }
        } else {
            results.extend(self.machine.lookup_accounts(data).iter().flat_map(account_bytes));
        }
        self.wanted.push_back(Wanted { user, number, place: self.places, results });
        self.places += 1;
    }

    fn read(&mut self) {
        while let Some(reply) = self.ledger.reply(&mut self.results) {
            let wanted = self.wanted.pop_front().expect("a packet");
            assert_eq!((reply.user_data, reply.number), (wanted.user, wanted.number));
            assert_eq!(reply.outcome, Outcome::Committed { place: wanted.place, results: &wanted.results });
        }
    }

    fn flush(&mut self) {
        self.ledger.flush().expect("flushed");
        self.read();
        assert!(self.wanted.is_empty());
        assert_eq!(self.ledger.clock(), self.machine.clock());
        for id in 0..ACCOUNTS + 2 {
            let id = u128::from(id);
            let found = self.machine.lookup_accounts(&id.to_le_bytes());
            let account = self.ledger.lookup_account(id);
            assert_eq!(account.map(|account| account.to_bytes()), found.first().map(account_bytes));
        }
    }
}

fn main() {
    let words: Vec<u64> = std::env::args().skip(1).map(|word| word.parse().expect("a number")).collect();
    let [events, seed, most, clock] = words[..] else { panic!("four numbers") };
    let mut numbers = Numbers(seed);
    let mut both = Both {
        ledger: Ledger::open(clock, 8190, 16).expect("settings"),
        machine: Machine::new(clock),
        wanted: VecDeque::new(),
        numbers: vec![0; 16],
        places: 0,
        results: Vec::new(),
        verdicts: BTreeMap::new(),
    };
    let (mut done, mut past, mut packets) = (0, Past::default(), 0_u64);
    while done < events {
        let next = packet(&mut numbers, most, &mut past);
        done += next.data.len() as u64 / if next.operation == 131 { 16 } else { 128 };
        both.submit(numbers.below(16) as u32, next.operation, &next.data, numbers.next());
        packets += 1;
        let moment = both.machine.clock() + numbers.below(4_000_000_000);
        if numbers.below(16) == 0 && moment <= 1 << 62 {
            both.ledger.pulse(moment).expect("a pulse");
            both.machine.pulse(moment);
            both.places += 1;
        }
        both.read();
        if numbers.below(64) == 0 {
            both.flush();
        }
    }
    both.flush();
    println!("{done} events in {packets} packets: the same");
    for ((operation, code), count) in both.verdicts {
        println!("{operation} {code}: {count}");
    }
}
