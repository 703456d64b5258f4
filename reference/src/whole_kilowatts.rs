//! Document 01 as it stands without 02 "A6": whole kW at each step, so that a comparison can say which offers A6 changed. It repeats the table of
//! `offer.rs`, since each of its figures is of another unit.

use crate::call::{Unit, Year};
use crate::offer::supply_report;
use crate::plant::{Component, WATTS_OF_KILOWATT};

/// 01 "Firm offer" (2.1.1 to 2.1.7): a unit's offer in kW, 0 without a needed result, availability or supply report.
pub fn firm_offer(unit: &Unit, parts: &[Component; 3], hours: &Year) -> u64 {
    complete_offer(unit, parts, hours).unwrap_or(0)
}

/// 01 "Firm offer", the table of kinds: none where a needed part is missing.
fn complete_offer(unit: &Unit, parts: &[Component; 3], hours: &Year) -> Option<u64> {
    let pp = power(&parts[0])?;
    match unit.kind {
        1 => {
            supply_report(unit)?;
            derated(&parts[0])
        }
        2 => {
            supply_report(unit)?;
            Some(parts[0].availability?.derate(pp.min(unit.ppr.into())))
        }
        3 | 7 => Some(derated(&parts[0])?.min(over(unit.e1, hours.nhrm))),
        4 | 6 => Some(derated(&parts[0])?.min(over(unit.e1, hours.ndhmd.into()))),
        5 => Some(derated(&parts[0])?.min(pp).min(over(unit.e1, hours.nhmd))),
        8 => {
            let peak = hours.ndhmd.into();
            let gen = derated(&parts[1])?.min(over(unit.e1, peak));
            let store = derated(&parts[2])?.min(over(unit.e2, peak)).min(over(unit.cap, peak));
            Some(pp.min(store + gen))
        }
        _ => None,
    }
}

/// 01 "Maximum power" (2.3.5): 4S over the divisor in kW, capped by PIC, which is the result in W rounded down to kW.
fn power(part: &Component) -> Option<u64> {
    Some(u64::from(part.power?) / WATTS_OF_KILOWATT)
}

/// 01 "Availability" (annex 2.1): a component's PP·c in kW, none without its result or its availability.
fn derated(part: &Component) -> Option<u64> {
    Some(part.availability?.derate(power(part)?))
}

/// 01 "Firm offer": an energy over hours, rounded down to whole kW.
fn over(energy: u32, hours: u16) -> u64 {
    u64::from(energy) / u64::from(hours)
}

#[cfg(test)]
mod tests {
    use super::*;
    use crate::call::SUPPLY_REPORT;
    use crate::offer;
    use crate::plant::{Minutes, PowerTest};

    const HOURS: Year = Year { nhrm: 720, nhmd: 120, ndhmd: 4 };

    /// A component with a result in W and c = 9/10.
    fn part(power: u32) -> Component {
        let availability = Some(Minutes { hd: 9, hmp: 0, hif: 1, hed: 0 });
        Component { power: Some(power), void_trip: false, availability }
    }

    #[test]
    fn a_result_is_4s_over_its_divisor_in_kw_capped_by_pic() {
        let tests = [(0, 4, 4), (0, 7, 7), (1, 9, 8), (2, 9, 8), (1, 20, 17), (2, 20, 17), (0, 96, 96)];
        for sum in 0..200 {
            for (ending, tc, count) in tests {
                let mut readings = vec![0; usize::from(count) * 4];
                readings[..4].copy_from_slice(&u32::to_le_bytes(sum));
                let test = PowerTest { ending, tc, count, readings: &readings };
                let kilowatts = 4 * u64::from(sum) / u64::from(if ending == 1 { count } else { tc });
                for pic in [None, Some(0), Some(1), Some(5), Some(3_000_000)] {
                    let mut part = Component::default();
                    assert_eq!(part.test(&test, pic), Ok(()));
                    assert_eq!(power(&part), Some(pic.map_or(kilowatts, |pic| kilowatts.min(pic.into()))));
                }
            }
        }
    }

    #[test]
    fn each_kind_has_its_offer_in_kw_at_each_step() {
        let fields = Unit { flags: SUPPLY_REPORT, ppr: 3_000_000, ..Unit::default() };
        let fields = Unit { e1: 4_000_000_000, e2: 4_000_000_000, cap: 4_000_000_000, ..fields };
        for kind in 1..8 {
            // 4,445 W are 4 kW, and times 9/10 3 kW in place of 4,000 W.
            let unit = Unit { kind, ..fields };
            let parts = [part(4_445), Component::default(), Component::default()];
            assert_eq!((firm_offer(&unit, &parts, &HOURS), offer::firm_offer(&unit, &parts, &HOURS)), (3, 4));
        }
        for kind in [3, 4, 5, 6, 7] {
            let unit = Unit { kind, e1: 0, ..fields };
            assert_eq!(firm_offer(&unit, &[part(4_445); 3], &HOURS), 0);
        }
        let storage = |e1, e2, cap| {
            let unit = Unit { kind: 8, e1, e2, cap, ..fields };
            (firm_offer(&unit, &[part(9_000); 3], &HOURS), offer::firm_offer(&unit, &[part(9_000); 3], &HOURS))
        };
        assert_eq!((storage(5, 7, 40), storage(5, 40, 7), storage(4, 8, 8)), ((2, 3), (2, 3), (3, 3)));
    }

    #[test]
    fn without_a_needed_part_the_offer_is_0() {
        let unit = Unit { ppr: 9, e1: 9_000, e2: 9_000, cap: 9_000, ..Unit::default() };
        for kind in 1..=8 {
            let reported = Unit { kind, flags: SUPPLY_REPORT, ..unit };
            assert!(firm_offer(&reported, &[part(9_000); 3], &HOURS) > 0);
            assert_eq!(firm_offer(&Unit { flags: 0, ..reported }, &[part(9_000); 3], &HOURS) == 0, kind <= 2);
            assert_eq!(firm_offer(&reported, &[Component { power: None, ..part(9_000) }; 3], &HOURS), 0);
            assert_eq!(firm_offer(&reported, &[Component { availability: None, ..part(9_000) }; 3], &HOURS), 0);
        }
    }
}
