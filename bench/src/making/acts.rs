//! What is done on a day, and how often: without defaults, between cases and in a case.

use crate::making::random::Random;

/// What is done on a day.
#[derive(Clone, Copy, PartialEq, Eq)]
pub enum Act {
    Join,
    Price,
    Trade,
    Update,
    Regulate,
    Income,
    Transfer,
    Leave,
    Open,
    Use,
    Recover,
    Close,
    Wild,
}

pub const QUIET: &[(Act, u64)] = &[
    (Act::Join, 12),
    (Act::Price, 6),
    (Act::Trade, 25),
    (Act::Update, 20),
    (Act::Regulate, 15),
    (Act::Income, 10),
    (Act::Transfer, 6),
    (Act::Leave, 3),
    (Act::Wild, 3),
];

pub const BETWEEN_CASES: &[(Act, u64)] = &[
    (Act::Join, 20),
    (Act::Price, 3),
    (Act::Trade, 8),
    (Act::Update, 10),
    (Act::Regulate, 12),
    (Act::Income, 15),
    (Act::Leave, 3),
    (Act::Open, 20),
    (Act::Wild, 4),
];

pub const IN_A_CASE: &[(Act, u64)] = &[
    (Act::Use, 30),
    (Act::Recover, 22),
    (Act::Join, 6),
    (Act::Update, 8),
    (Act::Trade, 5),
    (Act::Regulate, 8),
    (Act::Income, 8),
    (Act::Transfer, 3),
    (Act::Close, 6),
    (Act::Wild, 6),
];

/// One act of a table, each as often as the table says.
pub fn choose(random: &mut Random, table: &[(Act, u64)]) -> Act {
    let mut left = random.between(1, table.iter().map(|entry| entry.1).sum());
    for (act, weight) in table {
        if left <= *weight {
            return *act;
        }
        left -= weight;
    }
    Act::Wild
}
