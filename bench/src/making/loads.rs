//! Sheets of nearly 64 KiB that give a program as much to do as a sheet can.

use crate::making::days::{isin, shown};
use crate::making::edges;
use crate::making::limits::rich;
use crate::making::random::Random;
use crate::making::writer::Writer;
use crate::sheet::{MARK, MOST_BYTES};

const ENOUGH: usize = MOST_BYTES - 64;

/// The sheets by name; the first has nothing to do and shows what starting a program costs.
pub fn all() -> Vec<(&'static str, Vec<u8>)> {
    vec![
        ("nothing", MARK.to_vec()),
        ("calls", calls()),
        ("updates", updates()),
        ("default", default_case()),
    ]
}

fn joined(members: u64) -> Writer {
    let mut sheet = Writer::new(&rich(members));
    for code in 10..10 + members {
        sheet.line(&format!("J {code}"));
    }
    sheet
}

/// Calls alone, most of them accepted, over 64 members.
fn calls() -> Vec<u8> {
    let mut random = Random::new(1);
    let mut sheet = joined(64);
    while sheet.length() < ENOUGH {
        let member = random.between(10, 73);
        let line = match random.below(10) {
            0..4 => format!("I {}", random.spread(1, 200_000)),
            4..7 => format!("X {member} 1 {}", random.spread(1, 200_000)),
            7 => format!("U {member}"),
            8 => format!("R {member}"),
            _ => edges::call(&mut random, &sheet),
        };
        sheet.line(&line);
        if sheet.rows().iter().all(|row| row.code != member) {
            sheet.line(&format!("J {member}"));
        }
    }
    sheet.into_sheet()
}

/// 64 securities, 512 trades of four members, and the members' updates after each block of eight trades.
fn updates() -> Vec<u8> {
    let mut random = Random::new(2);
    let mut sheet = joined(4);
    for _ in 0..64 {
        let (isin, price) = (isin(&mut random), random.between(500, 5_000));
        sheet.line(&format!(
            "P {isin} {price} {} 10000",
            random.between(100, 2_000)
        ));
    }
    for trade in 0..512 {
        let security = random.one_of(sheet.desk().securities());
        let side = random.one_of(&["K", "S"]);
        let (quantity, price) = (
            random.between(1, 9_999),
            security.price + random.between(0, 99),
        );
        sheet.line(&format!(
            "T {} {} {side} {quantity} {price}",
            10 + trade % 4,
            shown(&security.isin)
        ));
        if trade % 8 == 7 {
            for update in 0..124 {
                sheet.line(&format!("U {}", 10 + update % 4));
            }
        }
    }
    fill(sheet, |_, line| format!("U {}", 10 + line % 4))
}

/// A default among 64 members with uses and recoveries in turn, then another one.
fn default_case() -> Vec<u8> {
    let mut random = Random::new(3);
    let mut sheet = joined(64);
    sheet.line("I 500000000");
    sheet.line("D 10");
    fill(sheet, |sheet, line| {
        let sums = sheet.desk().book().case_sums();
        match (sums, line % 400) {
            (None, _) => format!("D {}", sheet.active().first().map_or(10, |row| row.code)),
            (_, 399) => "C".to_string(),
            (Some(sums), odd) if odd % 2 == 1 => {
                format!("B {}", (sums.charged - sums.recovered).max(1))
            }
            _ => format!("W {}", random.between(100_000, 9_999_999)),
        }
    })
}

/// Adds lines until the sheet is nearly as long as a sheet can be.
fn fill(mut sheet: Writer, mut line: impl FnMut(&Writer, usize) -> String) -> Vec<u8> {
    let mut count = 0;
    while sheet.length() < ENOUGH {
        let text = line(&sheet, count);
        sheet.line(&text);
        count += 1;
    }
    sheet.into_sheet()
}
