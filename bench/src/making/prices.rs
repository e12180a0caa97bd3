//! Sheets whose prices and trades lie at an edge: of each range, each product, the threshold and the highest W.

use crate::making::days;
use crate::making::limits::rich;
use crate::making::random::Random;
use crate::making::writer::Writer;

const HUNDRED: &str = "PLHUNDRED001";
const ONE: &str = "PLONE0000001";

/// Updates whose W is the last contribution, a tenth away from it, or one more than that.
pub fn at_the_threshold(random: &mut Random) -> Vec<u8> {
    let mut sheet = Writer::new(&rich(1));
    sheet.line("J 10");
    sheet.line(&format!("P {HUNDRED} 100 10000 10000"));
    sheet.line(&format!("P {ONE} 1 10000 10000"));
    let mut held = 0;
    for _ in 0..random.between(1, 20) {
        let last = sheet.rows().first().map_or(2_000_000, |row| row.required);
        let tenth = last / 10;
        let aim = match random.below(6) {
            0 => last + tenth,
            1 => last + tenth + 1,
            2 => last - tenth,
            3 => last - tenth - 1,
            4 => 1_000_000_000 + random.between(0, 1),
            _ => random.spread(1, 1_000_000_001),
        };
        held = trade_to(&mut sheet, held, aim);
        if sheet.desk().trade_count() > 500 {
            break;
        }
        sheet.line("U 10");
        if random.percent(40) {
            sheet.line("R 10");
        }
    }
    sheet.into_sheet()
}

/// Trades of member 10 after which its W is the aim, and what it then holds, in grosze.
fn trade_to(sheet: &mut Writer, held: i64, aim: u64) -> i64 {
    let change = aim as i64 - held;
    let side = if change < 0 { 'S' } else { 'K' };
    let mut hundreds = change.unsigned_abs() / 100;
    while hundreds > 0 && sheet.desk().trade_count() < 500 {
        let quantity = hundreds.min(1_000_000);
        sheet.line(&format!("T 10 {HUNDRED} {side} {quantity} 100"));
        hundreds -= quantity;
    }
    let ones = change.unsigned_abs() % 100;
    if ones > 0 {
        sheet.line(&format!("T 10 {ONE} {side} {ones} 1"));
    }
    aim as i64
}

/// One or two securities and some trades, each field now and then at an edge of its range.
pub fn at_the_edges(random: &mut Random) -> Vec<u8> {
    let mut sheet = Writer::new(&rich(3));
    for code in 10..12 {
        sheet.line(&format!("J {code}"));
    }
    if random.percent(30) {
        sheet.line("D 11");
    }
    let mut isins = Vec::new();
    let faulty = random.percent(50);
    for _ in 0..random.between(1, 4) {
        isins.push(edge_isin(random, faulty, &isins));
        let line = edge_price(random, faulty);
        sheet.line(&format!("P {} {line}", isins[isins.len() - 1]));
    }
    for _ in 0..random.between(1, 30) {
        let code = random.one_of(&[10, 10, 11, 12, 9]);
        let isin = if random.percent(4) {
            edge_isin(random, true, &isins)
        } else {
            isins[random.below(isins.len())].clone()
        };
        let line = edge_trade(random);
        sheet.line(&format!("T {code} {isin} {line}"));
        sheet.line(&format!("U {code}"));
        if random.percent(20) {
            sheet.line(&format!("R {code}"));
        }
    }
    for code in [9, 10, 11, 12, 13] {
        sheet.line(&format!("U {code}"));
    }
    sheet.into_sheet()
}

/// One trade for each of many codes, its ISIN good but for one byte.
pub fn isins(random: &mut Random) -> Vec<u8> {
    let good = days::isin(random);
    let mut sheet = Writer::new(&rich(1));
    sheet.line(&format!("P {good} 1 1 1"));
    for code in 10..10 + random.between(20, 200) {
        let isin = but_for_one(random, &good);
        sheet.line(&format!("T {code} {isin} K 1 1"));
        sheet.line(&format!("U {code}"));
    }
    let isin = but_for_one(random, &good);
    sheet.line(&format!("P {isin} 1 1 1"));
    sheet.line("U 10");
    sheet.into_sheet()
}

fn but_for_one(random: &mut Random, isin: &str) -> String {
    let place = random.below(12);
    let sign = random.one_of(&[
        "A", "Z", "0", "9", "@", "[", "/", ":", "a", "z", "\t", "\r", "\0", "-", "~",
    ]);
    format!("{}{sign}{}", &isin[..place], &isin[place + 1..])
}

/// A new ISIN, or now and then one listed before or one that has not the form.
fn edge_isin(random: &mut Random, faulty: bool, earlier: &[String]) -> String {
    let isin = days::isin(random);
    if !faulty || random.percent(30) {
        return isin;
    }
    match random.below(4) {
        0 | 1 if !earlier.is_empty() => earlier[random.below(earlier.len())].clone(),
        2 => but_for_one(random, &isin),
        _ => isin,
    }
}

fn edge_price(random: &mut Random, faulty: bool) -> String {
    let within =
        |random: &mut Random, most: u64| random.one_of(&[1, 2, 100, most, most - 1, most / 100]);
    let mut fields = [
        within(random, 100_000_000),
        within(random, 10_000),
        within(random, 100_000),
    ];
    if faulty && random.percent(30) {
        let field = random.below(3);
        fields[field] = random.one_of(&[
            0,
            10_000,
            10_001,
            100_000,
            100_001,
            100_000_000,
            100_000_001,
            9_999_999_999,
        ]);
    }
    format!("{} {} {}", fields[0], fields[1], fields[2])
}

fn edge_trade(random: &mut Random) -> String {
    let side = random.one_of(&["K", "S"]);
    let (quantity, price): (u64, u64) = match random.below(12) {
        0 => (
            random.one_of(&[0, 1, 1_000_000, 1_000_001]),
            random.one_of(&[0, 1, 100]),
        ),
        1 => (2, random.one_of(&[50_000_000, 50_000_001])),
        2 => (1, random.one_of(&[100_000_000, 100_000_001, 9_999_999_999])),
        3 => (1_000_000, random.one_of(&[100, 101])),
        _ => (random.one_of(&[1, 1, 2, 100]), random.spread(1, 1_000_000)),
    };
    format!("{side} {quantity} {price}")
}
