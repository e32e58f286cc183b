//! What both state machines do.

use crate::layout::{Account, Failure};
use crate::machine::Machine;
use crate::strong::Machine as StrongMachine;

pub trait StateMachine {
    /// With room for so many accounts and transfers, or without where both are 0.
    fn with_room(accounts: usize, transfers: usize) -> Self;

    fn create_accounts(&mut self, body: &[u8]) -> Vec<Failure>;

    fn create_transfers(&mut self, body: &[u8]) -> Vec<Failure>;

    fn lookup_accounts(&self, body: &[u8]) -> Vec<Account>;

    /// A sum over the balances of the first accounts, whatever their order.
    fn sum_of_balances(&self, accounts: usize) -> u128;
}

fn sum_of<'a>(accounts: impl Iterator<Item = &'a Account>) -> u128 {
    accounts
        .map(|account| account.id * (3 * account.debits_posted + account.credits_posted))
        .sum()
}

impl StateMachine for Machine {
    fn with_room(accounts: usize, transfers: usize) -> Machine {
        let mut machine = Machine::new(0);
        if transfers > 0 {
            machine.reserve(accounts, transfers);
        }
        machine
    }

    fn create_accounts(&mut self, body: &[u8]) -> Vec<Failure> {
        self.create_accounts(body)
    }

    fn create_transfers(&mut self, body: &[u8]) -> Vec<Failure> {
        self.create_transfers(body)
    }

    fn lookup_accounts(&self, body: &[u8]) -> Vec<Account> {
        self.lookup_accounts(body)
    }

    fn sum_of_balances(&self, accounts: usize) -> u128 {
        sum_of(self.accounts().take(accounts))
    }
}

impl StateMachine for StrongMachine {
    fn with_room(accounts: usize, transfers: usize) -> StrongMachine {
        StrongMachine::new(0, if transfers > 0 { accounts } else { 0 }, transfers)
    }

    fn create_accounts(&mut self, body: &[u8]) -> Vec<Failure> {
        self.create_accounts(body)
    }

    fn create_transfers(&mut self, body: &[u8]) -> Vec<Failure> {
        self.create_transfers(body)
    }

    fn lookup_accounts(&self, body: &[u8]) -> Vec<Account> {
        self.lookup_accounts(body)
    }

    fn sum_of_balances(&self, accounts: usize) -> u128 {
        sum_of(self.accounts().iter().take(accounts))
    }
}
