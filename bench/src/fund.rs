//! The book of the fund: the members' rows, the open case, and the ten calls.

use crate::contribution::{assess, renewed, Security, Trade, MINIMUM};
use crate::division::{Division, MOST};
use crate::house::TableHouse;
use crate::refusal::Refusal;
use crate::rows::{Row, Standing};

const FUND: u64 = 0;
const SETTLEMENT: u64 = 1;
const MOST_ROWS: usize = 64;
const MOST_CASES: u64 = 65_535;

/// What an accepted open case hands out and the calls of a case take back.
#[derive(Debug)]
pub struct Case {
    number: u64,
}

/// What the book keeps of the open case.
#[derive(Clone, Copy, Debug, PartialEq, Eq)]
pub struct CaseSums {
    pub number: u64,
    pub charged: u64,
    pub recovered: u64,
}

#[derive(Debug)]
pub struct Book {
    house: TableHouse,
    rows: Vec<Row>,
    open: Option<CaseSums>,
    cases: u64,
}

fn refused(number: u8) -> Refusal {
    Refusal::new(number, 'b')
}

fn check(holds: bool, number: u8) -> Result<(), Refusal> {
    if holds {
        Ok(())
    } else {
        Err(refused(number))
    }
}

fn check_code(code: u64) -> Result<(), Refusal> {
    check((10..=9_999).contains(&code), 11)
}

fn check_amount(amount: u64) -> Result<(), Refusal> {
    check((1..=MOST).contains(&amount), 12)
}

impl Case {
    pub fn number(&self) -> u64 {
        self.number
    }
}

impl Book {
    pub fn open(house: TableHouse) -> Result<Book, Refusal> {
        check(house.balance(FUND)? == 0, 43)?;
        Ok(Book {
            house,
            rows: Vec::with_capacity(MOST_ROWS),
            open: None,
            cases: 0,
        })
    }

    pub fn house(&self) -> &TableHouse {
        &self.house
    }

    pub fn rows(&self) -> &[Row] {
        &self.rows
    }

    pub fn case_sums(&self) -> Option<CaseSums> {
        self.open
    }

    pub fn all_shares(&self) -> u64 {
        self.rows.iter().map(|row| row.base + row.reserve).sum()
    }

    pub fn fund_balance(&self) -> u64 {
        self.house.balance(FUND).unwrap_or(0)
    }

    pub fn join(&mut self, code: u64) -> Result<u64, Refusal> {
        check_code(code)?;
        check(self.find(code).is_err(), 32)?;
        check(self.rows.len() < MOST_ROWS, 33)?;
        self.check_room(MINIMUM)?;
        self.house.transfer(code, FUND, MINIMUM)?;
        self.rows.push(Row::new(code));
        Ok(MINIMUM)
    }

    pub fn update(
        &mut self,
        code: u64,
        securities: &[Security],
        trades: &[Trade],
    ) -> Result<u64, Refusal> {
        check_code(code)?;
        let calculated = assess(securities, trades)?;
        let place = self.find(code)?;
        let row = &mut self.rows[place];
        check(row.is_active(), 35)?;
        row.required = renewed(row.required, calculated);
        Ok(row.required)
    }

    /// Answers what the member paid in and what he was paid out.
    pub fn regulate(&mut self, code: u64) -> Result<[u64; 2], Refusal> {
        check_code(code)?;
        let place = self.find(code)?;
        let row = self.rows[place];
        check(row.is_active(), 35)?;
        let paid_in = row.required.saturating_sub(row.base);
        let paid_out = row.base.saturating_sub(row.required);
        check(paid_out == 0 || self.open.is_none(), 36)?;
        self.check_room(paid_in)?;
        if paid_in > 0 {
            self.house.transfer(code, FUND, paid_in)?;
        } else if paid_out > 0 {
            self.house.transfer(FUND, code, paid_out)?;
        }
        self.rows[place].base = row.required;
        Ok([paid_in, paid_out])
    }

    pub fn income(&mut self, amount: u64) -> Result<u64, Refusal> {
        check_amount(amount)?;
        let bases: u64 = self.rows.iter().map(|row| row.base).sum();
        check(bases > 0, 40)?;
        self.check_room(amount)?;
        self.house.transfer(SETTLEMENT, FUND, amount)?;
        let mut division = Division::new(amount, bases);
        for row in &mut self.rows {
            row.reserve += division.part(row.base);
        }
        Ok(amount)
    }

    pub fn open_case(&mut self, code: u64) -> Result<Case, Refusal> {
        check_code(code)?;
        let place = self.find(code)?;
        check(self.open.is_none(), 36)?;
        check(self.rows[place].is_active(), 35)?;
        check(self.cases < MOST_CASES, 42)?;
        self.cases += 1;
        self.rows[place].standing = Standing::Defaulting;
        self.open = Some(CaseSums {
            number: self.cases,
            charged: 0,
            recovered: 0,
        });
        Ok(Case { number: self.cases })
    }

    /// Answers what each of the four groups paid.
    pub fn use_fund(&mut self, case: &Case, amount: u64) -> Result<[u64; 4], Refusal> {
        check_amount(amount)?;
        let sums = self.sums_of(case)?;
        check(amount <= self.all_shares(), 38)?;
        check(sums.charged + amount <= MOST, 39)?;
        self.house.transfer(FUND, SETTLEMENT, amount)?;
        self.open = Some(CaseSums {
            charged: sums.charged + amount,
            ..sums
        });
        Ok(self.charge(amount))
    }

    pub fn recover(&mut self, case: &Case, amount: u64) -> Result<u64, Refusal> {
        check_amount(amount)?;
        let sums = self.sums_of(case)?;
        check(amount <= sums.charged - sums.recovered, 41)?;
        self.check_room(amount)?;
        self.house.transfer(SETTLEMENT, FUND, amount)?;
        let mut division = Division::new(amount, sums.charged);
        for row in &mut self.rows {
            row.reserve += division.part(row.charged);
        }
        self.open = Some(CaseSums {
            recovered: sums.recovered + amount,
            ..sums
        });
        Ok(amount)
    }

    pub fn close(&mut self, case: &Case) -> Result<u64, Refusal> {
        let sums = self.sums_of(case)?;
        for row in &mut self.rows {
            row.charged = 0;
            if row.is_defaulting() {
                row.standing = Standing::Barred;
            }
        }
        self.open = None;
        Ok(sums.number)
    }

    pub fn leave(&mut self, code: u64) -> Result<u64, Refusal> {
        check_code(code)?;
        let place = self.find(code)?;
        check(self.open.is_none(), 36)?;
        let share = self.rows[place].base + self.rows[place].reserve;
        if share > 0 {
            self.house.transfer(FUND, code, share)?;
        }
        self.rows.remove(place);
        Ok(share)
    }

    pub fn other_transfer(&mut self, from: u64, to: u64, amount: u64) -> Result<u64, Refusal> {
        check(from != FUND && to != FUND, 21)?;
        self.house.transfer(from, to, amount)?;
        Ok(amount)
    }

    fn find(&self, code: u64) -> Result<usize, Refusal> {
        self.rows
            .iter()
            .position(|row| row.code == code)
            .ok_or(refused(31))
    }

    fn check_room(&self, amount: u64) -> Result<(), Refusal> {
        check(self.all_shares() + amount <= MOST, 34)
    }

    fn sums_of(&self, case: &Case) -> Result<CaseSums, Refusal> {
        self.open
            .filter(|sums| sums.number == case.number)
            .ok_or(refused(37))
    }

    /// Takes the amount, which is not above all shares, from the four groups in their order.
    fn charge(&mut self, amount: u64) -> [u64; 4] {
        let mut group = [0; 4];
        for row in &self.rows {
            let first = if row.is_defaulting() { 0 } else { 2 };
            group[first] += row.base;
            group[first + 1] += row.reserve;
        }
        let mut left = amount;
        let paid = group.map(|shares| {
            let pays = left.min(shares);
            left -= pays;
            pays
        });
        let mut bases = Division::new(paid[2], group[2].max(1));
        let mut reserves = Division::new(paid[3], group[3].max(1));
        for row in &mut self.rows {
            if row.is_defaulting() {
                row.charge_base(paid[0]);
                row.charge_reserve(paid[1]);
            } else {
                row.charge_base(bases.part(row.base));
                row.charge_reserve(reserves.part(row.reserve));
            }
        }
        paid
    }
}
