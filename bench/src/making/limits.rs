//! Sheets at the limits: of accounts, members, securities, trades, amounts, prices, numbers and bytes.

use crate::division::MOST;
use crate::house::Account;
use crate::making::days;
use crate::making::edges;
use crate::making::forms;
use crate::making::prices;
use crate::making::random::Random;
use crate::making::writer::{fund, Writer};

type Maker = fn(&mut Random) -> Vec<u8>;

const MAKERS: &[Maker] = &[
    accounts,
    members,
    securities,
    trades_of_one,
    trades_of_all,
    amounts,
    forms::numbers,
    forms::sizes,
    forms::unfinished,
    forms::heads,
    prices::at_the_threshold,
    prices::at_the_edges,
    prices::isins,
];

/// The sheet of one of these kinds, in turn.
pub fn sheet(random: &mut Random, turn: usize) -> Vec<u8> {
    MAKERS[turn % MAKERS.len()](random)
}

/// The fund's account, the settlement account and members from 10 on, all rich.
pub fn rich(members: u64) -> Vec<Account> {
    let mut accounts = fund(9_999_999_999);
    accounts.extend((0..members).map(|member| Account {
        number: 10 + member,
        balance: 9_999_999_999,
    }));
    accounts
}

/// A sheet whose members have all joined.
pub fn joined(random: &mut Random, least: u64, most: u64) -> Writer {
    let count = random.between(least, most);
    let mut sheet = Writer::new(&rich(count));
    for code in 10..10 + count {
        sheet.line(&format!("J {code}"));
    }
    sheet
}

/// 127 to 129 accounts, some of them with a fault.
fn accounts(random: &mut Random) -> Vec<u8> {
    let mut accounts = rich(random.between(125, 127));
    let place = random.below(accounts.len());
    match random.below(5) {
        0 => accounts[place].number = accounts[random.below(accounts.len())].number,
        1 => {
            accounts[place].number =
                random.one_of(&[9_999, 10_000, 65_536, 4_294_967_306, 9_999_999_999])
        }
        2 => accounts[0].balance = random.one_of(&[1, 4_294_967_296]),
        _ => {}
    }
    let mut sheet = Writer::new(&accounts);
    if random.percent(20) {
        sheet.bytes(format!("H {}\n", edges::number_text(random)).as_bytes());
    }
    for _ in 0..70 {
        sheet.line(&format!("J {}", random.between(10, 137)));
    }
    days::further(random, sheet, 60, true).into_sheet()
}

/// 63 to 66 members, and what is divided among them.
fn members(random: &mut Random) -> Vec<u8> {
    let sheet = joined(random, 63, 66);
    let (lines, defaults) = (random.between(50, 300), random.percent(60));
    let mut sheet = days::further(random, sheet, lines, defaults);
    for _ in 0..20 {
        sheet.line(&format!("J {}", random.between(10, 76)));
        sheet.line(&edges::call(random, &sheet));
    }
    sheet.into_sheet()
}

/// 63 to 65 securities, sometimes with a bad line below.
fn securities(random: &mut Random) -> Vec<u8> {
    let mut sheet = joined(random, 1, 5);
    for _ in 0..random.between(63, 65) {
        let (price, risk) = (random.spread(1, 100_000_000), random.spread(0, 500));
        sheet.line(&format!("P {} {price} {risk} 10000", days::isin(random)));
    }
    if random.percent(20) {
        sheet.bytes(b"P\n");
    }
    days::further(random, sheet, 300, false).into_sheet()
}

fn trade_line(random: &mut Random, code: u64, isin: &str) -> String {
    format!(
        "T {code} {isin} {} {} {}",
        random.one_of(&["K", "S"]),
        random.spread(1, 9_000),
        random.spread(1, 9_000)
    )
}

/// 127 to 129 trades of one code, with updates of it and of another one.
fn trades_of_one(random: &mut Random) -> Vec<u8> {
    let mut sheet = joined(random, 1, 3);
    let isin = days::isin(random);
    let code = random.one_of(&[10, 10, 11, 9, 500]);
    let alike = code + random.one_of(&[65_536, 4_294_967_296]);
    sheet.line(&format!("P {isin} 1000 1250 10000"));
    for _ in 0..random.between(127, 129) {
        sheet.line(&trade_line(random, code, &isin));
        if random.percent(10) {
            let other = random.one_of(&[12, 12, alike]);
            sheet.line(&trade_line(random, other, &isin));
        }
    }
    for updated in [code, 12, 10, 13, code] {
        sheet.line(&format!("U {updated}"));
        sheet.line(&format!("R {updated}"));
    }
    days::further(random, sheet, 30, true).into_sheet()
}

/// 511 to 513 trades, the last of them well formed or not.
fn trades_of_all(random: &mut Random) -> Vec<u8> {
    let mut sheet = joined(random, 2, 6);
    let isin = days::isin(random);
    sheet.line(&format!("P {isin} 1000 1250 10000"));
    for _ in 0..random.between(510, 512) {
        let code = random.between(10, 16);
        sheet.line(&trade_line(random, code, &isin));
    }
    sheet.line("D 11");
    for code in 10..16 {
        sheet.line(&format!("U {code}"));
    }
    if random.percent(40) {
        sheet.bytes(b"T 10\n");
    }
    sheet.line(&trade_line(random, 10, &isin));
    days::further(random, sheet, 30, true).into_sheet()
}

/// Amounts and shares near 4,000,000,000.
fn amounts(random: &mut Random) -> Vec<u8> {
    let mut sheet = joined(random, 2, 6);
    let lines = [
        "P PLAAAAAAAAA1 1000 1250 10000",
        "T 10 PLAAAAAAAAA1 K 50000 1040",
        "U 10",
        "R 10",
    ];
    let back = ["T 10 PLAAAAAAAAA1 S 50000 1040", "U 10"];
    for line in lines
        .iter()
        .chain(&back)
        .take(random.between(0, 6) as usize)
    {
        sheet.line(line);
    }
    if random.percent(70) {
        let gap = random.one_of(&[0, 1, 1_999_999, 2_000_000, 2_000_001, 50_000_000]);
        sheet.line(&format!("I {}", MOST - sheet.shares() - gap));
    }
    if random.percent(70) {
        sheet.line("D 11");
    }
    for _ in 0..random.between(20, 200) {
        let letter = random.one_of(&["I", "W", "B", "W", "B"]);
        let line = match random.below(4) {
            0 if random.percent(30) => "R 10".to_string(),
            0 => edges::call(random, &sheet),
            _ => format!("{letter} {}", edges::amount(random, &sheet)),
        };
        sheet.line(&line);
    }
    days::further(random, sheet, 30, true).into_sheet()
}
