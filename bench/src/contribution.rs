//! What a member has to contribute, from the prices of the securities and his trades.

use crate::refusal::Refusal;

/// The smallest contribution and every member's first payment.
pub const MINIMUM: u64 = 2_000_000;
const MOST_SECURITIES: usize = 64;
const MOST_TRADES: usize = 128;
const MOST_CONTRIBUTION: u64 = 1_000_000_000;
const MOST_PRICE: u64 = 100_000_000;
const MOST_PRODUCT: u64 = 100_000_000;

#[derive(Clone, Copy, Debug, PartialEq, Eq)]
pub struct Isin(pub [u8; 12]);

#[derive(Clone, Copy, Debug, PartialEq, Eq)]
pub struct Security {
    pub isin: Isin,
    pub price: u64,
    pub risk: u64,
    pub rate: u64,
}

#[derive(Clone, Copy, Debug, PartialEq, Eq)]
pub enum Side {
    Bought,
    Sold,
}

#[derive(Clone, Copy, Debug, PartialEq, Eq)]
pub struct Trade {
    pub isin: Isin,
    pub side: Side,
    pub quantity: u64,
    pub price: u64,
}

/// What a member's trades in one security come to.
#[derive(Clone, Copy, Debug, Default, PartialEq, Eq)]
pub struct Position {
    /// All bought less all sold.
    pub net: i64,
    /// What the purchases cost less what the sales brought.
    pub cost: i64,
}

impl Isin {
    pub fn is_well_formed(&self) -> bool {
        let capital = |b: &u8| b.is_ascii_uppercase();
        let sign = |b: &u8| b.is_ascii_uppercase() || b.is_ascii_digit();
        self.0[..2].iter().all(capital)
            && self.0[2..11].iter().all(sign)
            && self.0[11].is_ascii_digit()
    }
}

impl Position {
    /// V of the rules.
    pub fn value(&self, security: &Security) -> u64 {
        self.net.unsigned_abs() * security.price
    }

    /// G of the rules.
    pub fn gap(&self, security: &Security) -> i64 {
        self.cost - self.net * security.price as i64
    }

    fn add(&mut self, trade: &Trade) {
        let (quantity, cost) = (trade.quantity as i64, (trade.quantity * trade.price) as i64);
        match trade.side {
            Side::Bought => {
                self.net += quantity;
                self.cost += cost;
            }
            Side::Sold => {
                self.net -= quantity;
                self.cost -= cost;
            }
        }
    }
}

/// The new required contribution of a member whose last one is `last`.
pub fn contribution(securities: &[Security], trades: &[Trade], last: u64) -> Result<u64, Refusal> {
    Ok(renewed(last, assess(securities, trades)?))
}

/// Step 5: the last contribution stays if the new one lies no more than a tenth of it away.
pub fn renewed(last: u64, calculated: u64) -> u64 {
    let change = u128::from(calculated.abs_diff(last));
    if 10 * change <= u128::from(last) {
        last
    } else {
        calculated
    }
}

/// All checks and steps 1 to 4: W, which does not depend on the last contribution.
pub fn assess(securities: &[Security], trades: &[Trade]) -> Result<u64, Refusal> {
    if securities.len() > MOST_SECURITIES || trades.len() > MOST_TRADES {
        return Err(Refusal::new(19, 'c'));
    }
    for place in 0..securities.len() {
        check_security(securities, place)?;
    }
    let mut positions = [Position::default(); MOST_SECURITIES];
    for (place, trade) in trades.iter().enumerate() {
        let security =
            check_trade(securities, trade).map_err(|number| Refusal::at(number, 'c', place))?;
        positions[security].add(trade);
    }
    let calculated = u128::from(MINIMUM).max(unbounded(securities, &positions));
    if calculated > u128::from(MOST_CONTRIBUTION) {
        return Err(Refusal::new(20, 'c'));
    }
    Ok(calculated as u64)
}

fn check_security(securities: &[Security], place: usize) -> Result<(), Refusal> {
    let security = &securities[place];
    let refused = |number| Err(Refusal::at(number, 'c', place));
    if !security.isin.is_well_formed() {
        return refused(13);
    }
    let in_range = (1..=MOST_PRICE).contains(&security.price)
        && security.risk <= 10_000
        && (1..=100_000).contains(&security.rate);
    if !in_range {
        return refused(14);
    }
    if securities[..place]
        .iter()
        .any(|earlier| earlier.isin == security.isin)
    {
        return refused(15);
    }
    Ok(())
}

/// The position of the trade's security, or the number of the first check that fails.
fn check_trade(securities: &[Security], trade: &Trade) -> Result<usize, u8> {
    if !trade.isin.is_well_formed() {
        return Err(13);
    }
    if !(1..=1_000_000).contains(&trade.quantity) || !(1..=MOST_PRICE).contains(&trade.price) {
        return Err(16);
    }
    let place = securities
        .iter()
        .position(|security| security.isin == trade.isin)
        .ok_or(17)?;
    if trade.quantity * trade.price.max(securities[place].price) > MOST_PRODUCT {
        return Err(18);
    }
    Ok(place)
}

/// WW of the rules, rounded up once.
fn unbounded(securities: &[Security], positions: &[Position]) -> u128 {
    let mut risk: u128 = 0;
    let mut gap: i128 = 0;
    for (security, position) in securities.iter().zip(positions) {
        risk += u128::from(position.value(security)) * u128::from(security.risk * security.rate);
        gap += i128::from(position.gap(security)) * i128::from(security.rate);
    }
    let above = gap.max(0) as u128;
    (risk + 10_000 * above).div_ceil(100_000_000)
}
