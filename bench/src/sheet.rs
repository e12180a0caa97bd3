//! The run of a day sheet: from its bytes to the text that is printed.

use std::collections::BTreeMap;
use std::fmt::Write;

use crate::contribution::{Security, Trade};
use crate::fund::{Book, Case};
use crate::house::{Account, TableHouse, MOST_ACCOUNTS};
use crate::reader::{read, Call, Line};
use crate::refusal::Refusal;

pub const MOST_BYTES: usize = 65_536;
pub const MOST_SECURITIES: usize = 64;
pub const MOST_TRADES: usize = 512;
pub const MARK: &[u8] = b"AFG 1\n";

/// The amounts that an accepted call answers.
#[derive(Clone, Copy, Debug, PartialEq, Eq)]
pub enum Answer {
    One([u64; 1]),
    Two([u64; 2]),
    Four([u64; 4]),
}

/// What came of a line below the head.
#[derive(Clone, Copy, Debug, PartialEq, Eq)]
pub enum Outcome {
    Kept,
    Called(char, Result<Answer, Refusal>),
    /// The run ends with this number of letter `s`.
    Stopped(u8),
}

/// The book of a sheet with what the lines until now have left for later ones.
#[derive(Debug)]
pub struct Desk {
    book: Book,
    case: Option<Case>,
    securities: Vec<Security>,
    trades: BTreeMap<u64, Vec<Trade>>,
    trade_count: usize,
}

/// Why no book was opened: the line, its letter, and the refusal.
struct Unopened(usize, char, Refusal);

impl Answer {
    pub fn amounts(&self) -> &[u64] {
        match self {
            Answer::One(amounts) => amounts,
            Answer::Two(amounts) => amounts,
            Answer::Four(amounts) => amounts,
        }
    }
}

impl Desk {
    pub fn open(accounts: Vec<Account>) -> Result<Desk, Refusal> {
        let book = Book::open(TableHouse::make(accounts)?)?;
        Ok(Desk {
            book,
            case: None,
            securities: Vec::new(),
            trades: BTreeMap::new(),
            trade_count: 0,
        })
    }

    pub fn book(&self) -> &Book {
        &self.book
    }

    pub fn securities(&self) -> &[Security] {
        &self.securities
    }

    pub fn trade_count(&self) -> usize {
        self.trade_count
    }

    pub fn trades_of(&self, code: u64) -> &[Trade] {
        self.trades.get(&code).map_or(&[], Vec::as_slice)
    }

    /// Runs a line below the head.
    pub fn take(&mut self, line: &[u8]) -> Outcome {
        match read(line) {
            None | Some(Line::Account(_)) => Outcome::Stopped(24),
            Some(Line::Security(_)) if self.securities.len() == MOST_SECURITIES => {
                Outcome::Stopped(19)
            }
            Some(Line::Security(security)) => {
                self.securities.push(security);
                Outcome::Kept
            }
            Some(Line::Trade(..)) if self.trade_count == MOST_TRADES => Outcome::Stopped(19),
            Some(Line::Trade(code, trade)) => {
                self.trades.entry(code).or_default().push(trade);
                self.trade_count += 1;
                Outcome::Kept
            }
            Some(Line::Call(call)) => Outcome::Called(call.letter(), self.call(call)),
        }
    }

    /// Closes a case that is still open and answers its number.
    pub fn close(&mut self) -> Option<u64> {
        let case = self.case.take()?;
        self.book.close(&case).ok()
    }

    fn call(&mut self, call: Call) -> Result<Answer, Refusal> {
        let amount = match call {
            Call::Join(code) => self.book.join(code)?,
            Call::Update(code) => self.update(code)?,
            Call::Regulate(code) => return self.book.regulate(code).map(Answer::Two),
            Call::Open(code) => self
                .book
                .open_case(code)
                .map(|case| self.case.insert(case).number())?,
            Call::Leave(code) => self.book.leave(code)?,
            Call::Income(amount) => self.book.income(amount)?,
            Call::Use(amount) => {
                return self
                    .book
                    .use_fund(held(&self.case)?, amount)
                    .map(Answer::Four)
            }
            Call::Recover(amount) => self.book.recover(held(&self.case)?, amount)?,
            Call::Close => {
                let number = self.book.close(held(&self.case)?)?;
                self.case = None;
                number
            }
            Call::Transfer(from, to, amount) => self.book.other_transfer(from, to, amount)?,
        };
        Ok(Answer::One([amount]))
    }

    fn update(&mut self, code: u64) -> Result<u64, Refusal> {
        let trades = self.trades.get(&code).map_or(&[][..], Vec::as_slice);
        self.book.update(code, &self.securities, trades)
    }
}

fn held(case: &Option<Case>) -> Result<&Case, Refusal> {
    case.as_ref().ok_or(Refusal::new(37, 'b'))
}

/// What a sheet prints.
pub fn run(sheet: &[u8]) -> String {
    let mut text = String::new();
    match day(sheet, &mut text) {
        Ok(desk) => {
            let book = desk.book();
            print(
                &mut text,
                "end",
                &[
                    book.all_shares(),
                    book.fund_balance(),
                    book.rows().len() as u64,
                ],
            );
        }
        Err(Unopened(number, letter, refusal)) => {
            print_refused(&mut text, number, letter, refusal);
            print(&mut text, "end", &[0, 0, 0]);
        }
    }
    text
}

/// Runs the sheet up to its end line, which is printed from the desk.
fn day(sheet: &[u8], text: &mut String) -> Result<Desk, Unopened> {
    let stop = |line, number| Unopened(line, '?', Refusal::at(number, 's', line));
    if sheet.len() > MOST_BYTES {
        return Err(stop(1, 19));
    }
    let rest = sheet.strip_prefix(MARK).ok_or(stop(1, 23))?;
    let mut lines = rest.split_inclusive(|byte| *byte == b'\n').peekable();
    let mut number = 1;
    let mut accounts = Vec::new();
    while let Some(line) = lines.next_if(|line| line[0] == b'H') {
        number += 1;
        let Some(Line::Account(account)) = read(line) else {
            return Err(stop(number, 24));
        };
        if accounts.len() == MOST_ACCOUNTS {
            return Err(stop(number, 19));
        }
        accounts.push(account);
    }
    let mut desk = Desk::open(accounts).map_err(|refusal| Unopened(number + 1, 'O', refusal))?;
    for line in lines {
        number += 1;
        match desk.take(line) {
            Outcome::Kept => {}
            Outcome::Called(letter, Ok(answer)) => print_called(text, number, letter, &answer),
            Outcome::Called(letter, Err(refusal)) => print_refused(text, number, letter, refusal),
            Outcome::Stopped(why) => {
                print_refused(text, number, '?', Refusal::at(why, 's', number));
                break;
            }
        }
    }
    if let Some(case) = desk.close() {
        print_called(text, number + 1, 'C', &Answer::One([case]));
    }
    Ok(desk)
}

fn print(text: &mut String, start: &str, amounts: &[u64]) {
    text.push_str(start);
    for amount in amounts {
        let _ = write!(text, " {amount}");
    }
    text.push('\n');
}

fn print_called(text: &mut String, number: usize, letter: char, answer: &Answer) {
    let _ = write!(text, "{number} {letter}");
    print(text, "", answer.amounts());
}

fn print_refused(text: &mut String, number: usize, letter: char, refusal: Refusal) {
    let _ = writeln!(
        text,
        "{number} {letter} N {} {}",
        refusal.number, refusal.layer
    );
}
