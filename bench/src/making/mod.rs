//! The making of sheets: valid days, days with defaults, sheets at every limit, damaged ones and large ones.

pub mod acts;
pub mod days;
pub mod edges;
pub mod forms;
pub mod limits;
pub mod loads;
pub mod prices;
pub mod random;
pub mod sheets;
pub mod writer;
