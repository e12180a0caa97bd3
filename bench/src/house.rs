//! A house of cash accounts that keeps their present balances in a table.

use crate::division::MOST;
use crate::refusal::Refusal;

pub const MOST_ACCOUNTS: usize = 128;
const HIGHEST_ACCOUNT: u64 = 9_999;
const MOST_BALANCE: u64 = 1_000_000_000_000_000;

#[derive(Clone, Copy, Debug, PartialEq, Eq)]
pub struct Account {
    pub number: u64,
    pub balance: u64,
}

#[derive(Clone, Debug)]
pub struct TableHouse {
    accounts: Vec<Account>,
}

impl TableHouse {
    pub fn make(accounts: Vec<Account>) -> Result<TableHouse, Refusal> {
        if accounts.len() > MOST_ACCOUNTS {
            return Err(Refusal::new(19, 'h'));
        }
        for (place, account) in accounts.iter().enumerate() {
            let twice = accounts[..place]
                .iter()
                .any(|earlier| earlier.number == account.number);
            if twice || account.number > HIGHEST_ACCOUNT || account.balance > MOST_BALANCE {
                return Err(Refusal::new(26, 'h'));
            }
        }
        Ok(TableHouse { accounts })
    }

    pub fn accounts(&self) -> &[Account] {
        &self.accounts
    }

    pub fn balance(&self, number: u64) -> Result<u64, Refusal> {
        self.find(number).map(|place| self.accounts[place].balance)
    }

    /// Moves the amount, or refuses and moves nothing; this house is always ready.
    pub fn transfer(&mut self, from: u64, to: u64, amount: u64) -> Result<(), Refusal> {
        if amount == 0 || amount > MOST {
            return Err(Refusal::new(12, 'h'));
        }
        if from == to {
            return Err(Refusal::new(22, 'h'));
        }
        let (payer, receiver) = (self.find(from)?, self.find(to)?);
        if self.accounts[payer].balance < amount {
            return Err(Refusal::new(53, 'h'));
        }
        if self.accounts[receiver].balance + amount > MOST_BALANCE {
            return Err(Refusal::new(54, 'h'));
        }
        self.accounts[payer].balance -= amount;
        self.accounts[receiver].balance += amount;
        Ok(())
    }

    fn find(&self, number: u64) -> Result<usize, Refusal> {
        let place = self
            .accounts
            .iter()
            .position(|account| account.number == number);
        place.ok_or(Refusal::new(52, 'h'))
    }
}
