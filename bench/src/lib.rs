//! The fund's day sheet in ordinary Rust, and the sheets with which another program is held against it.

pub mod contribution;
pub mod division;
pub mod fund;
pub mod house;
pub mod making;
pub mod programs;
pub mod reader;
pub mod refusal;
pub mod rows;
pub mod sheet;
pub mod tally;
