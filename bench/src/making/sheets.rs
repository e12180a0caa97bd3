//! The sheets of a comparison, of four kinds in turn, each determined by a seed and its place.

use crate::making::days;
use crate::making::limits;
use crate::making::random::Random;

pub const KINDS: [&str; 4] = [
    "a valid day",
    "a day with defaults",
    "at a limit",
    "damaged",
];

pub fn sheet(seed: u64, place: usize) -> Vec<u8> {
    let mut random = Random::new(seed ^ (place as u64).wrapping_mul(0xD605_1C3B_9C6E_3F81));
    random.draw();
    whole_or_damaged(&mut random, place % KINDS.len(), place / KINDS.len())
}

fn whole_or_damaged(random: &mut Random, kind: usize, turn: usize) -> Vec<u8> {
    match kind {
        0 => days::quiet(random).into_sheet(),
        1 => days::troubled(random).into_sheet(),
        2 => limits::sheet(random, turn),
        _ => {
            let mut sheet = whole_or_damaged(random, turn % 3, turn / 3);
            for _ in 0..random.spread(1, 4) {
                damage(random, &mut sheet);
            }
            sheet
        }
    }
}

/// Does one damage; near the start, near the end or anywhere.
fn damage(random: &mut Random, sheet: &mut Vec<u8>) {
    if sheet.is_empty() {
        sheet.push(random.draw() as u8);
        return;
    }
    let last = sheet.len() - 1;
    let place = match random.below(4) {
        0 => random.spread(0, last as u64) as usize,
        1 => last - random.spread(0, last as u64) as usize,
        _ => random.below(sheet.len()),
    };
    let byte = random.one_of(&[
        0, 9, 10, 13, 32, 48, 57, 127, 128, 255, b'H', b'C', b'U', b'T',
    ]);
    match random.below(9) {
        0 => sheet[place] ^= 1 << random.below(8),
        1 => sheet[place] = byte,
        2 | 3 => sheet.insert(place, byte),
        4 | 5 => drop(sheet.remove(place)),
        6 => sheet.truncate(place),
        7 => sheet.insert(place, sheet[place]),
        _ => move_line(sheet, place),
    }
}

/// Puts the line at a place to the end of the sheet, as a whole.
fn move_line(sheet: &mut Vec<u8>, place: usize) {
    let start = sheet[..place]
        .iter()
        .rposition(|byte| *byte == b'\n')
        .map_or(0, |end| end + 1);
    let length = sheet[start..]
        .iter()
        .position(|byte| *byte == b'\n')
        .map_or(sheet.len() - start, |end| end + 1);
    let line: Vec<u8> = sheet.drain(start..start + length).collect();
    sheet.extend(line);
}
