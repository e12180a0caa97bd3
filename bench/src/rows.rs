//! A member's row in the book.

use crate::contribution::MINIMUM;

#[derive(Clone, Copy, Debug, PartialEq, Eq)]
pub enum Standing {
    Active,
    Defaulting,
    Barred,
}

#[derive(Clone, Copy, Debug, PartialEq, Eq)]
pub struct Row {
    pub code: u64,
    pub standing: Standing,
    pub base: u64,
    pub reserve: u64,
    pub required: u64,
    pub charged: u64,
}

impl Row {
    pub fn new(code: u64) -> Row {
        Row {
            code,
            standing: Standing::Active,
            base: MINIMUM,
            reserve: 0,
            required: MINIMUM,
            charged: 0,
        }
    }

    pub fn is_active(&self) -> bool {
        self.standing == Standing::Active
    }

    pub fn is_defaulting(&self) -> bool {
        self.standing == Standing::Defaulting
    }

    pub fn charge_base(&mut self, charge: u64) {
        self.base -= charge;
        self.charged += charge;
    }

    pub fn charge_reserve(&mut self, charge: u64) {
        self.reserve -= charge;
        self.charged += charge;
    }
}
