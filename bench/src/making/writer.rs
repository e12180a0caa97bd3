//! A sheet while it is written: its bytes, and the desk that has run them so far.

use crate::house::Account;
use crate::rows::{Row, Standing};
use crate::sheet::{Desk, Outcome, MARK};

pub struct Writer {
    text: Vec<u8>,
    desk: Desk,
}

/// The fund's account, which is empty, and the settlement account with this balance.
pub fn fund(settlement: u64) -> Vec<Account> {
    let account = |number, balance| Account { number, balance };
    vec![account(0, 0), account(1, settlement)]
}

impl Writer {
    /// Writes the head; with accounts over which no book opens, the desk is that of an empty house.
    pub fn new(accounts: &[Account]) -> Writer {
        let mut text = MARK.to_vec();
        for account in accounts {
            text.extend(format!("H {} {}\n", account.number, account.balance).bytes());
        }
        let empty = vec![Account {
            number: 0,
            balance: 0,
        }];
        let desk = Desk::open(accounts.to_vec()).or_else(|_| Desk::open(empty));
        Writer {
            text,
            desk: desk.expect("an empty house opens"),
        }
    }

    /// Writes a line and runs it; answers whether a later line would still be read.
    pub fn line(&mut self, line: &str) -> bool {
        let start = self.text.len();
        self.text.extend(line.bytes());
        self.text.push(b'\n');
        !matches!(self.desk.take(&self.text[start..]), Outcome::Stopped(_))
    }

    /// Writes bytes that nobody runs.
    pub fn bytes(&mut self, bytes: &[u8]) {
        self.text.extend(bytes);
    }

    pub fn length(&self) -> usize {
        self.text.len()
    }

    pub fn into_sheet(self) -> Vec<u8> {
        self.text
    }

    pub fn desk(&self) -> &Desk {
        &self.desk
    }

    pub fn rows(&self) -> &[Row] {
        self.desk.book().rows()
    }

    pub fn balance(&self, account: u64) -> u64 {
        self.desk.book().house().balance(account).unwrap_or(0)
    }

    pub fn shares(&self) -> u64 {
        self.desk.book().all_shares()
    }

    pub fn active(&self) -> Vec<Row> {
        self.rows()
            .iter()
            .filter(|row| row.standing == Standing::Active)
            .copied()
            .collect()
    }

    /// Numbers of accounts that are a member's and no row's.
    pub fn outside(&self) -> Vec<u64> {
        let accounts = self
            .desk
            .book()
            .house()
            .accounts()
            .iter()
            .map(|account| account.number);
        accounts
            .filter(|number| *number > 9 && self.rows().iter().all(|row| row.code != *number))
            .collect()
    }
}
