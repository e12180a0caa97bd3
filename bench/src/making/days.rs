//! Days as they happen: nearly every call is one that the book accepts, with or without defaults.

use crate::contribution::Isin;
use crate::division::MOST;
use crate::house::Account;
use crate::making::acts::{self, Act, BETWEEN_CASES, IN_A_CASE, QUIET};
use crate::making::edges;
use crate::making::random::Random;
use crate::making::writer::{fund, Writer};

const MOST_PRODUCT: u64 = 100_000_000;

struct Day<'a> {
    random: &'a mut Random,
    sheet: Writer,
}

/// A day on which nobody defaults.
pub fn quiet(random: &mut Random) -> Writer {
    let lines = length(random);
    Day::begin(random).go_on(lines, false)
}

/// A day with defaults, one after the other.
pub fn troubled(random: &mut Random) -> Writer {
    let lines = length(random);
    Day::begin(random).go_on(lines, true)
}

fn length(random: &mut Random) -> u64 {
    if random.percent(30) {
        random.between(300, 2_000)
    } else {
        random.spread(20, 300)
    }
}

/// Goes on with a sheet that was begun elsewhere.
pub fn further(random: &mut Random, sheet: Writer, lines: u64, defaults: bool) -> Writer {
    Day { random, sheet }.go_on(lines, defaults)
}

pub fn isin(random: &mut Random) -> String {
    let sign = |random: &mut Random, count| {
        b"ABCDEFGHIJKLMNOPQRSTUVWXYZ0123456789"[random.below(count)] as char
    };
    let mut text: String = (0..2).map(|_| sign(random, 26)).collect();
    text.extend((0..9).map(|_| sign(random, 36)));
    text.push(b"0123456789"[random.below(10)] as char);
    text
}

pub fn shown(isin: &Isin) -> String {
    String::from_utf8_lossy(&isin.0).into_owned()
}

impl Day<'_> {
    fn begin(random: &mut Random) -> Day<'_> {
        let mut accounts = fund(random.spread(1_000, 9_999_999_999));
        let members = random.spread(1, 40);
        let first = random.between(10, 9_000);
        for member in 0..members {
            let low = if random.percent(8) { 0 } else { 2_000_000 };
            accounts.push(Account {
                number: first + 3 * member,
                balance: random.spread(low, 9_999_999_999),
            });
        }
        if random.percent(30) {
            accounts.reverse();
        }
        let mut day = Day {
            sheet: Writer::new(&accounts),
            random,
        };
        for _ in 0..day.random.between(0, members) {
            day.do_act(Act::Join);
        }
        day
    }

    fn go_on(mut self, lines: u64, defaults: bool) -> Writer {
        for _ in 0..lines {
            let in_a_case = self.sheet.desk().book().case_sums().is_some();
            let table = match (defaults, in_a_case) {
                (false, _) => QUIET,
                (true, false) => BETWEEN_CASES,
                (true, true) => IN_A_CASE,
            };
            let act = acts::choose(self.random, table);
            if self.sheet.length() > 65_000 || !self.do_act(act) {
                break;
            }
        }
        self.sheet
    }

    /// Writes the line for an act that is possible now; answers whether the sheet goes on.
    fn do_act(&mut self, act: Act) -> bool {
        let line = match act {
            Act::Join => self.join(),
            Act::Price => self.price(),
            Act::Trade => self.trade(),
            Act::Update => self.update(),
            Act::Regulate => self.regulate(),
            Act::Income => self.income(),
            Act::Transfer => self.transfer(),
            Act::Leave => self.of_member('L'),
            Act::Open => self.open(),
            Act::Use => self.use_fund(),
            Act::Recover => self.recover(),
            Act::Close => Some("C".to_string()),
            Act::Wild => Some(edges::call(self.random, &self.sheet)),
        };
        line.is_none_or(|line| self.sheet.line(&line))
    }

    fn join(&mut self) -> Option<String> {
        let mut able = self.sheet.outside();
        able.retain(|number| self.sheet.balance(*number) >= 2_000_000);
        let code = self.random.pick(&able)?;
        (self.sheet.shares() + 2_000_000 <= MOST).then(|| format!("J {code}"))
    }

    fn price(&mut self) -> Option<String> {
        if self.sheet.desk().securities().len() == 64 {
            return None;
        }
        let (isin, price) = (isin(self.random), self.random.spread(1, 1_000_000));
        let rate = self.random.one_of(&[10_000, 10_000, 43_215, 39_876, 271]);
        Some(format!(
            "P {isin} {price} {} {rate}",
            self.random.spread(0, 3_000)
        ))
    }

    fn trade(&mut self) -> Option<String> {
        let rows = self.sheet.rows();
        let securities = self.sheet.desk().securities();
        if self.sheet.desk().trade_count() == 512 || rows.is_empty() || securities.is_empty() {
            return None;
        }
        let (code, security) = (
            self.random.one_of(rows).code,
            self.random.one_of(securities),
        );
        let price = (security.price * self.random.between(80, 120) / 100).max(1);
        let most = (MOST_PRODUCT / price.max(security.price)).min(1_000_000);
        let side = if self.random.percent(60) { 'K' } else { 'S' };
        let quantity = self.random.spread(1, most.max(1));
        Some(format!(
            "T {code} {} {side} {quantity} {price}",
            shown(&security.isin)
        ))
    }

    fn update(&mut self) -> Option<String> {
        let code = self.random.pick(&self.sheet.active())?.code;
        (self.sheet.desk().trades_of(code).len() <= 128).then(|| format!("U {code}"))
    }

    fn regulate(&mut self) -> Option<String> {
        let row = self.random.pick(&self.sheet.active())?;
        let pays = row.required.saturating_sub(row.base);
        let in_a_case = self.sheet.desk().book().case_sums().is_some();
        let able = pays <= self.sheet.balance(row.code).min(MOST - self.sheet.shares());
        (able && !(in_a_case && row.required < row.base)).then(|| format!("R {}", row.code))
    }

    fn income(&mut self) -> Option<String> {
        let most = self.sheet.balance(1).min(MOST - self.sheet.shares());
        let bases: u64 = self.sheet.rows().iter().map(|row| row.base).sum();
        (most > 0 && bases > 0).then(|| format!("I {}", self.random.spread(1, most)))
    }

    fn transfer(&mut self) -> Option<String> {
        let accounts: Vec<u64> = self
            .sheet
            .desk()
            .book()
            .house()
            .accounts()
            .iter()
            .map(|a| a.number)
            .collect();
        let (from, to) = (self.random.one_of(&accounts), self.random.one_of(&accounts));
        let most = self.sheet.balance(from).min(MOST);
        (from != 0 && to != 0 && from != to && most > 0)
            .then(|| format!("X {from} {to} {}", self.random.spread(1, most)))
    }

    fn of_member(&mut self, letter: char) -> Option<String> {
        Some(format!(
            "{letter} {}",
            self.random.pick(self.sheet.rows())?.code
        ))
    }

    fn open(&mut self) -> Option<String> {
        Some(format!(
            "D {}",
            self.random.pick(&self.sheet.active())?.code
        ))
    }

    fn use_fund(&mut self) -> Option<String> {
        let sums = self.sheet.desk().book().case_sums()?;
        let most = self.sheet.shares().min(MOST - sums.charged);
        let amount = self.up_to(most, 6)?;
        Some(format!("W {amount}"))
    }

    fn recover(&mut self) -> Option<String> {
        let sums = self.sheet.desk().book().case_sums()?;
        let room = (MOST - self.sheet.shares()).min(self.sheet.balance(1));
        let most = room.min(sums.charged - sums.recovered);
        let amount = self.up_to(most, 15)?;
        Some(format!("B {amount}"))
    }

    /// An amount up to the most, which it is in so many cases of a hundred; none where there is nothing.
    fn up_to(&mut self, most: u64, whole: u64) -> Option<u64> {
        let whole = self.random.percent(whole);
        (most > 0).then(|| {
            if whole {
                most
            } else {
                self.random.spread(1, most)
            }
        })
    }
}
