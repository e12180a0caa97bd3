//! The division of an amount over things in proportion to their weights.

use crate::refusal::Refusal;

/// The most that can be divided, and the most that the weights of one division may sum to.
pub const MOST: u64 = 4_000_000_000;
pub const MOST_THINGS: usize = 64;

/// A division under way: it tells the part of each thing in turn.
pub struct Division {
    amount: u64,
    total: u64,
    passed: u64,
    given: u64,
}

impl Division {
    /// Both numbers are at most `MOST`, so that their product fits into 64 bits, and `total` is not 0.
    pub fn new(amount: u64, total: u64) -> Division {
        Division {
            amount,
            total,
            passed: 0,
            given: 0,
        }
    }

    /// The part of the next thing.
    pub fn part(&mut self, weight: u64) -> u64 {
        self.passed += weight;
        let before = self.given;
        self.given = self.amount * self.passed / self.total;
        self.given - before
    }
}

/// Writes the part of each thing into the caller's list.
pub fn divide(amount: u64, weights: &[u64], parts: &mut [u64]) -> Result<(), Refusal> {
    let total: u128 = weights.iter().map(|w| u128::from(*w)).sum();
    if weights.len() > MOST_THINGS || total > u128::from(MOST) || parts.len() != weights.len() {
        return Err(Refusal::new(25, 'd'));
    }
    if amount > MOST {
        return Err(Refusal::new(12, 'd'));
    }
    if total == 0 {
        return Err(Refusal::new(40, 'd'));
    }
    let mut division = Division::new(amount, total as u64);
    for (part, weight) in parts.iter_mut().zip(weights) {
        *part = division.part(*weight);
    }
    Ok(())
}
