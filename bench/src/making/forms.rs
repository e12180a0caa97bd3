//! Sheets whose form lies at an edge: numbers, the count of bytes, the last line, the first one and the head.

use crate::making::days;
use crate::making::edges;
use crate::making::limits::joined;
use crate::making::random::Random;
use crate::sheet::{MARK, MOST_BYTES};

const BAD_MARKS: &[&[u8]] = &[
    b"AFG 1",
    b"AFG 2\n",
    b"AFG  1\n",
    b"AFG 1 \n",
    b"AFG 1\r\n",
    b"",
];

/// Lines of a head, the first five without a fault of their own, and lines that do not belong there.
const HEAD_LINES: &[&str] = &[
    "H 0 0\n",
    "H 0 0\n",
    "H 0 7\n",
    "H 1 100\n",
    "H 10 2000000\n",
    "H 5 0\n",
    "H 5 0\n",
    "H 9999 9999999999\n",
    "H 10000 0\n",
    "H 10000 1\n",
    "H 4294967306 0\n",
    "H 10 10000000000\n",
    "Hello\n",
    "H\n",
    "H 1 x\n",
    "H 1\n",
    "H 1 1 1\n",
    "\n",
    "J 10\n",
    "I 5\n",
    "junk\n",
    "h 1 1\n",
    " H 1 1\n",
    "H 0 7",
    "J 10",
    " ",
];

/// A day of some lines and then a line with a number at the edge of what a number is.
pub fn numbers(random: &mut Random) -> Vec<u8> {
    let sheet = joined(random, 1, 4);
    let defaults = random.percent(70);
    let mut sheet = days::further(random, sheet, 15, defaults);
    for _ in 0..random.between(1, 6) {
        let field = edges::number_text(random);
        let line = match random.below(8) {
            0 => format!(
                "{} {field}",
                random.one_of(&["J", "U", "R", "D", "L", "I", "W", "B"])
            ),
            1 => format!("X {field} 10 5"),
            2 => format!("X 1 {field} 5"),
            3 => format!("X 1 10 {field}"),
            4 => format!("T {field} PLAAAAAAAAA1 K 1 1"),
            5 => format!("T 10 PLAAAAAAAAA1 K {field} 1"),
            6 => format!("P PLAAAAAAAAA1 {field} 1 1"),
            _ => format!("P {} 1 1 {field}", days::isin(random)),
        };
        if !sheet.line(&line) {
            break;
        }
        sheet.line("U 10");
    }
    days::further(random, sheet, 5, true).into_sheet()
}

/// 65,535 to 65,538 bytes, nearly all of them calls, the last line finished or not.
pub fn sizes(random: &mut Random) -> Vec<u8> {
    let sheet = joined(random, 1, 20);
    let defaults = random.percent(50);
    let sheet = days::further(random, sheet, 20_000, defaults);
    let length = MOST_BYTES + random.below(4) - 1;
    let mut sheet = sheet.into_sheet();
    while sheet.len() < length {
        let left = length - sheet.len();
        let digits = if left <= 13 {
            left - 3
        } else {
            random.between(1, 10.min(left as u64 - 7)) as usize
        };
        let letter = random.one_of(b"IWB");
        sheet.extend([letter, b' ']);
        sheet.extend((0..digits).map(|_| b'1' + random.below(9) as u8));
        sheet.push(b'\n');
    }
    if random.percent(25) {
        sheet[length - 1] = b'7';
    }
    if random.percent(5) {
        sheet[0] = b'a';
    }
    sheet
}

/// A day whose last line does not end.
pub fn unfinished(random: &mut Random) -> Vec<u8> {
    let sheet = joined(random, 1, 4);
    let (lines, defaults) = (random.between(0, 40), random.percent(70));
    let mut sheet = days::further(random, sheet, lines, defaults).into_sheet();
    match random.below(4) {
        0 => sheet.truncate(sheet.len() - 1),
        1 => sheet.extend(b"C"),
        2 => sheet.push(b' '),
        _ => sheet.extend(b"I 1"),
    }
    sheet
}

/// First lines and heads with a fault, a head alone, and openings that are refused.
pub fn heads(random: &mut Random) -> Vec<u8> {
    let bad = random.percent(25);
    let mut sheet = if bad { random.one_of(BAD_MARKS) } else { MARK }.to_vec();
    if random.percent(40) {
        sheet.extend(random.one_of(&["H 0 0\n", "H 0 0\n", "H 0 1\n"]).bytes());
        sheet.extend(random.one_of(HEAD_LINES).bytes());
        sheet.extend(b"J 10\n");
        return sheet;
    }
    let steady = if random.percent(60) {
        5
    } else {
        HEAD_LINES.len()
    };
    for _ in 0..random.between(0, 5) {
        sheet.extend(random.one_of(&HEAD_LINES[..steady]).bytes());
    }
    for _ in 0..random.between(0, 3) {
        sheet.extend(random.one_of(HEAD_LINES).bytes());
    }
    sheet
}
