//! Random calls whose fields are in range.

use super::draw::Draw;
use crate::call::{Declare, Unit, Year, FIRST_YEAR, FORCED, PIC_GIVEN, SECOND_YEAR, SUPPLY_REPORT};
use crate::plant::{Minutes, MOST_MINUTES};
use crate::range::{CONSUMERS, CONSUMERS_IN_A_BYTE, MOST_ENERGY, MOST_KW, MOST_READING};

/// What the calls of one journal have in common.
pub struct Style {
    /// A usual power, kW.
    pub scale: u32,
    /// The producers that have units.
    pub producers: u8,
    /// The consumers that declare.
    pub consumers: u16,
    /// The greatest number of a consumer, 64 or 300.
    pub greatest: u16,
    /// The units that are enrolled.
    pub units: u8,
    /// Whether all declarations are alike.
    pub alike: bool,
    /// Whether all firm offers are made to tie by years.
    pub tied: bool,
    /// Deliberate errors among 100 calls.
    pub errors: u64,
}

/// A style for one journal.
pub fn style(draw: &mut Draw) -> Style {
    let scale = draw.pick(&[3, 40, 150, 700, 700, 2_000, 10_000, 10_000, 40_000, 90_000, 400_000, 3_000_000]);
    let greatest = draw.pick(&[CONSUMERS_IN_A_BYTE, CONSUMERS as u16]);
    let consumers = if greatest == CONSUMERS_IN_A_BYTE {
        draw.pick(&[1, 2, 3, 3, 5, 8, 13, 30, 63, 64])
    } else {
        draw.pick(&[1, 2, 3, 5, 8, 8, 13, 13, 30, 30, 63, 64, 65, 66, 100, 255, 256, 257, 299, 300])
    };
    Style {
        scale,
        producers: draw.pick(&[1, 1, 2, 3, 5, 16]),
        consumers,
        greatest,
        units: draw.pick(&[0, 1, 1, 2, 2, 3, 3, 5, 8, 12, 48]),
        alike: draw.chance(20),
        tied: draw.chance(12),
        errors: draw.pick(&[0, 2, 5, 10, 10, 25]),
    }
}

/// 01 "Journal records", year.
pub fn year(draw: &mut Draw) -> Year {
    if draw.chance(40) {
        return Year { nhrm: 720, nhmd: 120, ndhmd: 4 };
    }
    Year { nhrm: 1 + draw.figure(743) as u16, nhmd: 1 + draw.figure(743) as u16, ndhmd: 1 + draw.figure(23) as u8 }
}

/// 01 "Journal records", unit: an enrolment whose energies suit the year's hours.
pub fn unit(draw: &mut Draw, style: &Style, hours: &Year, number: u8) -> Unit {
    let kind = draw.pick(&[1, 1, 2, 3, 4, 5, 6, 7, 8, 8]);
    let years = [FIRST_YEAR, SECOND_YEAR, FIRST_YEAR | SECOND_YEAR];
    let mut unit = Unit {
        unit: number,
        producer: draw.byte(1, style.producers),
        kind,
        flags: if draw.chance(85) { draw.pick(&years) } else { 0 },
        ..Unit::default()
    };
    if draw.chance(15) {
        unit.flags |= FORCED;
    }
    if draw.chance(25) {
        unit.flags |= PIC_GIVEN;
        unit.pic = if draw.chance(70) { draw.near(style.scale, MOST_KW) } else { draw.figure(MOST_KW) };
    }
    let peak = match kind {
        3 | 7 => u32::from(hours.nhrm),
        5 => u32::from(hours.nhmd),
        _ => u32::from(hours.ndhmd),
    };
    match kind {
        1 | 2 if draw.chance(88) => unit.flags |= SUPPLY_REPORT,
        _ => {}
    }
    match kind {
        1 => {}
        2 => unit.ppr = draw.near(style.scale, MOST_KW),
        3..=7 => unit.e1 = energy(draw, style, peak),
        _ => {
            unit.e1 = energy(draw, style, peak);
            unit.e2 = energy(draw, style, peak);
            unit.cap = energy(draw, style, peak);
        }
    }
    unit
}

/// 01 "Quantities": an energy that gives about the usual power over the hours.
fn energy(draw: &mut Draw, style: &Style, hours: u32) -> u32 {
    if draw.chance(10) {
        return draw.figure(MOST_ENERGY);
    }
    let middle = u64::from(style.scale) * u64::from(hours);
    draw.near(middle.min(MOST_ENERGY.into()) as u32, MOST_ENERGY)
}

/// 01 "Journal records", test: ending, TC and readings that do not meet 8.
pub struct Trial {
    pub ending: u8,
    pub tc: u8,
    pub readings: Vec<u32>,
}

/// 01 "Maximum power" (2.3.5): a test, the trips of which end about 80 %.
pub fn trial(draw: &mut Draw, style: &Style) -> Trial {
    let tc = match draw.between(0, 9) {
        0 => draw.byte(4, 96),
        1 => draw.pick(&[95, 96, 20, 24]),
        _ => draw.pick(&[4, 4, 5, 5, 6, 8, 10, 12]),
    };
    let ending = draw.pick(&[0, 0, 0, 0, 1, 1, 2, 2, 2]);
    let count = match ending {
        0 => tc,
        _ if draw.chance(20) => draw.byte(0, tc - 1),
        _ => {
            let least = (4 * u16::from(tc)).div_ceil(5) as u8;
            draw.byte(least - 1, least + 1).min(tc - 1)
        }
    };
    let quarter = style.scale / 4;
    let readings = (0..count)
        .map(|_| match draw.between(0, 19) {
            0 => draw.figure(MOST_READING),
            _ => draw.near(quarter, MOST_READING),
        })
        .collect();
    Trial { ending, tc, readings }
}

/// 01 "Availability" (annex 2.1): minutes that do not meet 9.
pub fn minutes(draw: &mut Draw) -> Minutes {
    let whole = match draw.between(0, 5) {
        0 => MOST_MINUTES,
        1 => draw.between(1, 20) as u32,
        2 => 1_000,
        _ => draw.between(1, MOST_MINUTES.into()) as u32,
    };
    let hif = match draw.between(0, 11) {
        0 | 1 => 0,
        2 => draw.figure(whole),
        _ => draw.between(0, u64::from(whole) / 8) as u32,
    };
    let hmp = draw.between(0, u64::from(whole - hif) / 4) as u32;
    let hd = whole - hif - hmp;
    let hed = match draw.between(0, 29) {
        0 => hd + hmp,
        1 | 2 => draw.figure(hd + hmp),
        3..=15 => 0,
        _ => draw.between(0, u64::from(hd + hmp) / 8) as u32,
    };
    Minutes { hd, hmp, hif, hed }
}

/// 01 "Journal records", declare: the projection lies about the 2 % of 2.6.4.
pub fn declare(draw: &mut Draw, style: &Style, consumer: u16) -> Declare {
    let d = match draw.between(0, 9) {
        _ if style.alike => style.scale.min(MOST_KW),
        0 => draw.figure(MOST_KW),
        1 => 0,
        2 => 98 * draw.between(0, u64::from(style.scale) / 98 + 1) as u32,
        _ => draw.near(style.scale, MOST_KW),
    };
    let d = d.min(MOST_KW);
    let edge = (100 * u64::from(d) / 98) as u32;
    let a = match draw.between(0, 6) {
        0 => d,
        1 => edge,
        2 | 3 => edge + 1,
        4 => draw.figure(MOST_KW),
        _ => d + draw.between(0, u64::from(d) / 4) as u32,
    };
    Declare { consumer, d, a: a.min(MOST_KW) }
}
