//! What one line of a sheet says.

use crate::contribution::{Isin, Security, Side, Trade};
use crate::house::Account;

#[derive(Clone, Copy, Debug, PartialEq, Eq)]
pub enum Line {
    Account(Account),
    Security(Security),
    Trade(u64, Trade),
    Call(Call),
}

#[derive(Clone, Copy, Debug, PartialEq, Eq)]
pub enum Call {
    Join(u64),
    Update(u64),
    Regulate(u64),
    Open(u64),
    Leave(u64),
    Income(u64),
    Use(u64),
    Recover(u64),
    Close,
    Transfer(u64, u64, u64),
}

impl Call {
    pub fn letter(self) -> char {
        match self {
            Call::Join(_) => 'J',
            Call::Update(_) => 'U',
            Call::Regulate(_) => 'R',
            Call::Open(_) => 'D',
            Call::Leave(_) => 'L',
            Call::Income(_) => 'I',
            Call::Use(_) => 'W',
            Call::Recover(_) => 'B',
            Call::Close => 'C',
            Call::Transfer(..) => 'X',
        }
    }
}

/// The fields of a line that were not read yet.
struct Fields<'a, I: Iterator<Item = &'a [u8]>>(I);

impl<'a, I: Iterator<Item = &'a [u8]>> Fields<'a, I> {
    fn number(&mut self) -> Option<u64> {
        number(self.0.next()?)
    }

    fn isin(&mut self) -> Option<Isin> {
        self.0.next()?.try_into().ok().map(Isin)
    }

    fn side(&mut self) -> Option<Side> {
        match self.0.next()? {
            b"K" => Some(Side::Bought),
            b"S" => Some(Side::Sold),
            _ => None,
        }
    }

    fn account(&mut self) -> Option<Account> {
        Some(Account {
            number: self.number()?,
            balance: self.number()?,
        })
    }

    fn security(&mut self) -> Option<Security> {
        Some(Security {
            isin: self.isin()?,
            price: self.number()?,
            risk: self.number()?,
            rate: self.number()?,
        })
    }

    fn trade(&mut self) -> Option<Trade> {
        Some(Trade {
            isin: self.isin()?,
            side: self.side()?,
            quantity: self.number()?,
            price: self.number()?,
        })
    }

    fn call(&mut self, letter: u8) -> Option<Call> {
        Some(match letter {
            b'J' => Call::Join(self.number()?),
            b'U' => Call::Update(self.number()?),
            b'R' => Call::Regulate(self.number()?),
            b'D' => Call::Open(self.number()?),
            b'L' => Call::Leave(self.number()?),
            b'I' => Call::Income(self.number()?),
            b'W' => Call::Use(self.number()?),
            b'B' => Call::Recover(self.number()?),
            b'C' => Call::Close,
            b'X' => Call::Transfer(self.number()?, self.number()?, self.number()?),
            _ => return None,
        })
    }
}

/// The line with its last byte; none if it is not well formed.
pub fn read(line: &[u8]) -> Option<Line> {
    let text = line.strip_suffix(b"\n")?;
    let mut fields = Fields(text.split(|byte| *byte == b' '));
    let &[letter] = fields.0.next()? else {
        return None;
    };
    let line = match letter {
        b'H' => Line::Account(fields.account()?),
        b'P' => Line::Security(fields.security()?),
        b'T' => Line::Trade(fields.number()?, fields.trade()?),
        _ => Line::Call(fields.call(letter)?),
    };
    fields.0.next().is_none().then_some(line)
}

/// 1 to 10 digits without a leading zero.
fn number(field: &[u8]) -> Option<u64> {
    if field.is_empty() || field.len() > 10 || (field.len() > 1 && field[0] == b'0') {
        return None;
    }
    let mut number = 0;
    for digit in field {
        if !digit.is_ascii_digit() {
            return None;
        }
        number = number * 10 + u64::from(digit - b'0');
    }
    Some(number)
}
