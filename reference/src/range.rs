//! Number 3: each field within its range.

use crate::call::{Call, Unit, Year, FIRST_YEAR, FORCED, PIC_GIVEN, SECOND_YEAR, SUPPLY_REPORT};
use crate::plant::{Minutes, PowerTest, MOST_MINUTES};

/// 01 "Quantities": the greatest field of power, kW.
pub const MOST_KW: u32 = 3_000_000;
/// 01 "Quantities": the greatest reading of one quarter hour, kWh.
pub const MOST_READING: u32 = 750_000;
/// 01 "Quantities": the greatest other energy, kWh.
pub const MOST_ENERGY: u32 = 4_000_000_000;
/// 01 "Quantities": units are 1 to 48.
pub const UNITS: usize = 48;
/// 01 "Quantities": producers are 1 to 16.
pub const PRODUCERS: usize = 16;
/// 02 "A7": consumers are 1 to 300.
pub const CONSUMERS: usize = 300;
/// 02 "A7": consumers are 1 to 64 in a record whose consumer field has one byte, and above 64 in one whose field has two.
pub const CONSUMERS_IN_A_BYTE: u16 = 64;

/// 01 "Numbered replies", 3: whether all fields and readings of a call are in range.
pub fn holds(call: &Call) -> bool {
    match call {
        Call::Year(year) => year_holds(year),
        Call::Unit(unit) => unit_holds(unit),
        Call::Test(test) => numbered(test.unit, UNITS) && test.component <= 2 && test_holds(&test.run),
        Call::Availability(availability) => {
            numbered(availability.unit, UNITS) && availability.component <= 2 && minutes_hold(&availability.minutes)
        }
        Call::Declare(declare) => numbered(declare.consumer, CONSUMERS) && declare.d <= MOST_KW && declare.a <= MOST_KW,
        Call::Fix(dmp) => (1..=MOST_KW).contains(dmp),
        Call::Commit(contract) | Call::Release(contract) => {
            numbered(contract.producer, PRODUCERS)
                && numbered(contract.consumer, CONSUMERS)
                && (1..=MOST_KW).contains(&contract.q)
        }
        Call::Meter(meter) => numbered(meter.consumer, CONSUMERS) && meter.dreal <= MOST_KW,
        Call::Close(price) => (1..=2_500).contains(price),
        Call::Mean(mean) => numbered(mean.consumer, CONSUMERS) && mean.mean <= MOST_KW,
    }
}

/// 01 "Quantities": a unit, producer or consumer number from 1 up to `most`.
fn numbered(number: impl Into<usize>, most: usize) -> bool {
    (1..=most).contains(&number.into())
}

/// 01 "Journal records", year: the hours of the stage, of maximum demand and of those per day.
fn year_holds(year: &Year) -> bool {
    (1..=744).contains(&year.nhrm) && (1..=744).contains(&year.nhmd) && (1..=24).contains(&year.ndhmd)
}

/// 01 "Journal records", flags: other bits, and fields that the kind or flags do not use, are 0.
fn unit_holds(unit: &Unit) -> bool {
    let always = FIRST_YEAR | SECOND_YEAR | FORCED | PIC_GIVEN;
    let flags = match unit.kind {
        1..=2 => always | SUPPLY_REPORT,
        _ => always,
    };
    let (ppr, e1, e2_and_cap) = match unit.kind {
        1 => (0, 0, 0),
        2 => (MOST_KW, 0, 0),
        3..=7 => (0, MOST_ENERGY, 0),
        8 => (0, MOST_ENERGY, MOST_ENERGY),
        _ => return false,
    };
    let pic = if unit.flags & PIC_GIVEN != 0 { MOST_KW } else { 0 };
    numbered(unit.unit, UNITS)
        && numbered(unit.producer, PRODUCERS)
        && unit.flags & !flags == 0
        && unit.pic <= pic
        && unit.ppr <= ppr
        && unit.e1 <= e1
        && unit.e2 <= e2_and_cap
        && unit.cap <= e2_and_cap
}

/// 01 "Journal records", test: ending, TC, count, the length of the lent readings and each reading.
pub fn test_holds(test: &PowerTest) -> bool {
    test.ending <= 2
        && (4..=96).contains(&test.tc)
        && test.count <= 96
        && test.readings.len() == 4 * usize::from(test.count)
        && test.kwh().all(|reading| reading <= MOST_READING)
}

/// 01 "Quantities": each figure of availability.
pub fn minutes_hold(minutes: &Minutes) -> bool {
    let Minutes { hd, hmp, hif, hed } = *minutes;
    [hd, hmp, hif, hed].iter().all(|&figure| figure <= MOST_MINUTES)
}
