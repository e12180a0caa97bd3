//! Calls with numbers at an edge: of the rules' limits, of what the book holds, of the width of a number.

use crate::division::MOST;
use crate::making::random::Random;
use crate::making::writer::Writer;

const CODES: &[u64] = &[
    0,
    1,
    9,
    10,
    9_999,
    10_000,
    65_546,
    70_000,
    4_294_967_306,
    9_999_999_999,
];
const AMOUNTS: &[u64] = &[
    0,
    1,
    2,
    1_999_999,
    2_000_000,
    2_000_001,
    MOST - 1,
    MOST,
    MOST + 1,
    4_294_967_296,
    4_294_967_297,
    9_999_999_999,
];

/// A code: of a row, of an account, or one that no member has.
pub fn code(random: &mut Random, sheet: &Writer) -> u64 {
    let outside = sheet.outside();
    let of_row = random.pick(sheet.rows()).map(|row| row.code);
    match random.below(5) {
        0 | 1 => of_row.unwrap_or(10),
        2 => random.pick(&outside).unwrap_or(11),
        3 => random.between(10, 9_999),
        _ => random.one_of(CODES),
    }
}

/// The largest number that a sheet can say.
const LARGEST: u64 = 9_999_999_999;

/// An amount at an edge, one more, or one less.
pub fn amount(random: &mut Random, sheet: &Writer) -> u64 {
    let shares = sheet.shares();
    let sums = sheet.desk().book().case_sums();
    let charged = sums.map_or(0, |sums| sums.charged);
    let open = sums.map_or(0, |sums| sums.charged - sums.recovered);
    let edge = match random.below(8) {
        0 => shares,
        1 => MOST - shares,
        2 => sheet.balance(1),
        3 => MOST - charged,
        4 => open,
        5 => return random.one_of(AMOUNTS),
        6 => return random.spread(1, MOST),
        _ => return random.spread(1, shares.max(1)),
    };
    let amount = match random.below(3) {
        0 => edge,
        1 => edge + 1,
        _ => edge.saturating_sub(1),
    };
    amount.min(LARGEST)
}

/// Any call, accepted or not.
pub fn call(random: &mut Random, sheet: &Writer) -> String {
    match random.below(14) {
        kind @ 0..5 => format!(
            "{} {}",
            ["J", "U", "R", "D", "L"][kind],
            code(random, sheet)
        ),
        kind @ 5..11 => format!(
            "{} {}",
            ["I", "W", "B", "I", "W", "B"][kind - 5],
            amount(random, sheet)
        ),
        11 => "C".to_string(),
        _ => transfer(random, sheet),
    }
}

fn transfer(random: &mut Random, sheet: &Writer) -> String {
    let account = |random: &mut Random| match random.below(4) {
        0 => random.one_of(&[0, 1, 4_294_967_296, 70_000]),
        _ => code(random, sheet),
    };
    let (from, to) = (account(random), account(random));
    let to = if random.percent(10) { from } else { to };
    let amount = match random.below(3) {
        0 => sheet.balance(from) + random.between(0, 1),
        1 => random.spread(1, 1_000_000),
        _ => amount(random, sheet),
    };
    format!("X {from} {to} {}", amount.min(LARGEST))
}

/// A text for a field that holds a number: well formed at its edge, or just not.
pub fn number_text(random: &mut Random) -> String {
    let texts = [
        "0",
        "9",
        "10",
        "9999999999",
        "1000000000",
        "4294967306",
        "4294967296",
        "4000000001",
        "10000000000",
        "99999999999",
        "18446744073709551616",
        "18446744073709551626",
        "00",
        "01",
        "010",
        "0000000010",
        "-1",
        "+1",
        "1.0",
        "1,000",
        "",
        "x",
        "1x",
        "0x10",
        "1e3",
        " 1",
        "1 ",
        "10\r",
        "\t10",
        "1_0",
    ];
    random.one_of(&texts).to_string()
}
