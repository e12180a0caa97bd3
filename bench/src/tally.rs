//! Counts what the printed lines of many sheets say: answers, refusals and stops.

use std::collections::BTreeMap;

/// Every refusal that can come up on a sheet, by number and letter.
pub const EXPECTED: &[&str] = &[
    "11 b", "12 b", "12 h", "13 c", "14 c", "15 c", "16 c", "17 c", "18 c", "19 c", "19 s", "20 c",
    "21 b", "22 h", "23 s", "24 s", "26 h", "31 b", "32 b", "33 b", "34 b", "35 b", "36 b", "37 b",
    "38 b", "39 b", "40 b", "41 b", "43 b", "52 h", "53 h",
];

#[derive(Default)]
pub struct Tally {
    pub answered: BTreeMap<String, u64>,
    pub refused: BTreeMap<String, u64>,
}

impl Tally {
    pub fn count(&mut self, printed: &str) {
        for line in printed.lines() {
            let fields: Vec<&str> = line.split(' ').collect();
            match fields[..] {
                ["end", ..] => {}
                [_, _, "N", number, layer] => {
                    *self.refused.entry(format!("{number} {layer}")).or_default() += 1
                }
                [_, letter, ..] => *self.answered.entry(letter.to_string()).or_default() += 1,
                _ => {}
            }
        }
    }

    pub fn merge(&mut self, other: Tally) {
        for (letter, count) in other.answered {
            *self.answered.entry(letter).or_default() += count;
        }
        for (refusal, count) in other.refused {
            *self.refused.entry(refusal).or_default() += count;
        }
    }

    pub fn answered_lines(&self) -> u64 {
        self.answered.values().sum()
    }

    pub fn refused_lines(&self) -> u64 {
        self.refused.values().sum()
    }

    /// The counts, one line for the answers and one for the refusals, and what never came up.
    pub fn text(&self) -> String {
        let list = |counts: &BTreeMap<String, u64>| {
            let items: Vec<String> = counts
                .iter()
                .map(|(name, count)| format!("{name}: {count}"))
                .collect();
            items.join(", ")
        };
        let missing: Vec<&str> = EXPECTED
            .iter()
            .filter(|name| !self.refused.contains_key(**name))
            .copied()
            .collect();
        let mut text = format!(
            "answered {} lines ({})\n",
            self.answered_lines(),
            list(&self.answered)
        );
        text += &format!(
            "refused {} lines ({})\n",
            self.refused_lines(),
            list(&self.refused)
        );
        if !missing.is_empty() {
            text += &format!("never refused with {}\n", missing.join(", "));
        }
        text
    }
}
