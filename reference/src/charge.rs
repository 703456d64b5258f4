//! The close: adjustments, charges and credits.

use crate::book::Consumer;
use crate::number::Number;
use crate::range::{CONSUMERS, MOST_KW};
use crate::share::{self, GREATEST_TOTAL};

/// 01 "Journal in, listing out", S and T: ADF in kW and cents by consumer, and the three sums in cents.
#[derive(Clone, Debug, PartialEq, Eq)]
pub struct Settlement {
    pub adjustments: [i64; CONSUMERS],
    pub cents: [i64; CONSUMERS],
    pub charges: u64,
    pub credits: u64,
    pub undistributed: u64,
}

/// 01 "The book": before the close there are no figures of it.
impl Default for Settlement {
    fn default() -> Settlement {
        Settlement { adjustments: [0; CONSUMERS], cents: [0; CONSUMERS], charges: 0, credits: 0, undistributed: 0 }
    }
}

/// 01 "Close" (2.6.5.2): puts the figures of the declared consumers in a settlement of none, `declared` being the sum of D; meets 16, 14, 19.
pub fn settle(
    consumers: &[Option<Consumer>; CONSUMERS],
    declared: u64,
    dmp: u32,
    price: u16,
    settlement: &mut Settlement,
) -> Result<(), Number> {
    if consumers.iter().flatten().any(|consumer| consumer.dreal().is_none()) {
        return Err(Number::NoRealDemand);
    }
    let adjusted = |consumer: &Consumer| adjusted_demand(consumer, declared, dmp);
    if consumers.iter().flatten().any(|consumer| adjusted(consumer) > MOST_KW.into()) {
        return Err(Number::Adjusted);
    }
    let adjustment = |consumer: &Consumer| consumer.firm as i64 - adjusted(consumer) as i64;
    let charges = consumers.iter().flatten().map(|consumer| charge(consumer, adjustment(consumer), price)).sum();
    if charges > GREATEST_TOTAL {
        return Err(Number::Charges);
    }
    let mut weights = [0; CONSUMERS];
    for (place, consumer) in consumers.iter().enumerate() {
        let Some(consumer) = consumer else { continue };
        let adjustment = adjustment(consumer);
        settlement.adjustments[place] = adjustment;
        settlement.cents[place] = -(charge(consumer, adjustment, price) as i64);
        weights[place] = adjustment.max(0) as u32;
    }
    settlement.charges = charges;
    if weights.iter().all(|&weight| weight == 0) {
        settlement.undistributed = charges;
        return Ok(());
    }
    let mut credits = [0; CONSUMERS];
    share::divide(charges, &weights, &mut credits)?;
    for (cents, credit) in settlement.cents.iter_mut().zip(credits) {
        *cents += credit as i64;
        settlement.credits += credit;
    }
    Ok(())
}

/// 01 "Close" (2.6.5.2): DFA = Dreal·DMP / ΣD of one consumer, 0 without a Dreal.
fn adjusted_demand(consumer: &Consumer, declared: u64, dmp: u32) -> u64 {
    u64::from(consumer.dreal().unwrap_or(0)) * u64::from(dmp) / declared
}

/// 01 "Close" (2.6.5.2): -ADF·P·12 if ADF < 0 and 100·D < 98·A, else no charge.
fn charge(consumer: &Consumer, adjustment: i64, price: u16) -> u64 {
    let under_declared = 100 * u64::from(consumer.d) < 98 * u64::from(consumer.a);
    if adjustment < 0 && under_declared {
        adjustment.unsigned_abs() * u64::from(price) * 12
    } else {
        0
    }
}
