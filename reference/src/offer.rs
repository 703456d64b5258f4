//! Firm offers and efficient offers.

use crate::call::{Unit, Year, FIRST_YEAR, FORCED, SECOND_YEAR, SUPPLY_REPORT};
use crate::plant::{Component, WATTS_OF_KILOWATT};

/// 01 "Firm offer" (2.1.1 to 2.1.7), 02 "A6": a unit's offer, rounded down to kW once it is finished.
pub fn firm_offer(unit: &Unit, parts: &[Component; 3], hours: &Year) -> u64 {
    offer_in_watts(unit, parts, hours) / WATTS_OF_KILOWATT
}

/// 02 "A6": a unit's offer before it is rounded down to kW, 0 without a needed result, availability or supply report.
pub fn offer_in_watts(unit: &Unit, parts: &[Component; 3], hours: &Year) -> u64 {
    complete_offer(unit, parts, hours).unwrap_or(0)
}

/// 01 "Firm offer", the table of kinds, 02 "A6": every figure in W, none where a needed part is missing.
fn complete_offer(unit: &Unit, parts: &[Component; 3], hours: &Year) -> Option<u64> {
    let pp = u64::from(parts[0].power?);
    match unit.kind {
        1 => {
            supply_report(unit)?;
            derated(&parts[0])
        }
        2 => {
            supply_report(unit)?;
            Some(parts[0].availability?.derate(pp.min(WATTS_OF_KILOWATT * u64::from(unit.ppr))))
        }
        3 | 7 => Some(derated(&parts[0])?.min(over(unit.e1, hours.nhrm))),
        4 | 6 => Some(derated(&parts[0])?.min(over(unit.e1, hours.ndhmd.into()))),
        5 => Some(derated(&parts[0])?.min(pp).min(over(unit.e1, hours.nhmd))),
        8 => {
            let peak = hours.ndhmd.into();
            let gen = derated(&parts[1])?.min(over(unit.e1, peak));
            let store = derated(&parts[2])?.min(over(unit.e2, peak)).min(over(unit.cap, peak));
            Some(pp.min(store + gen))
        }
        _ => None,
    }
}

/// 2.1.1, 2.1.2: kinds 1 and 2 have an offer only with the supply report.
pub fn supply_report(unit: &Unit) -> Option<()> {
    (unit.flags & SUPPLY_REPORT != 0).then_some(())
}

/// 01 "Availability" (annex 2.1): a component's PP·c in W, none without its result or its availability.
pub fn derated(part: &Component) -> Option<u64> {
    Some(part.availability?.derate(part.power?.into()))
}

/// 01 "Firm offer", 02 "A6": an energy times 1,000 over hours, rounded down to whole W.
pub fn over(energy: u32, hours: u16) -> u64 {
    WATTS_OF_KILOWATT * u64::from(energy) / u64::from(hours)
}

/// 01 "Efficient offer" (2.2.1 c), 02 "A6": the simulated year of the greater sum of offers in kW, a tie the first.
pub fn chosen_year(units: &[(u8, u64)]) -> u8 {
    let used =
        |flag: u8| -> u128 { units.iter().filter(|unit| unit.0 & flag != 0).map(|unit| u128::from(unit.1)).sum() };
    if used(SECOND_YEAR) > used(FIRST_YEAR) {
        2
    } else {
        1
    }
}

/// 01 "Efficient offer" (2.2.1 c, 2.2.2): the offer of a unit used in the chosen year or flagged 4, else 0.
pub fn efficient_offer(flags: u8, offer: u64, year: u8) -> u64 {
    let used = if year == 2 { SECOND_YEAR } else { FIRST_YEAR };
    if flags & (used | FORCED) != 0 {
        offer
    } else {
        0
    }
}

#[cfg(test)]
mod tests {
    use super::*;
    use crate::plant::Minutes;

    const HOURS: Year = Year { nhrm: 720, nhmd: 120, ndhmd: 4 };

    /// A component with a result in W and c = 9/10.
    fn part(power: u32) -> Component {
        let availability = Some(Minutes { hd: 9, hmp: 0, hif: 1, hed: 0 });
        Component { power: Some(power), void_trip: false, availability }
    }

    /// The offer of a kind that has one component, with a result in W and c = 9/10.
    fn of(power: u32, kind: u8, fields: Unit) -> u64 {
        let parts = [part(power), Component::default(), Component::default()];
        firm_offer(&Unit { kind, ..fields }, &parts, &HOURS)
    }

    fn alone(kind: u8, fields: Unit) -> u64 {
        of(1_000_000, kind, fields)
    }

    #[test]
    fn each_kind_has_its_offer() {
        let report = Unit { flags: SUPPLY_REPORT, ..Unit::default() };
        assert_eq!(alone(1, report), 900);
        assert_eq!(alone(1, Unit::default()), 0);
        assert_eq!(alone(2, Unit { ppr: 777, ..report }), 699);
        assert_eq!(alone(2, Unit { ppr: 1001, ..report }), 900);
        assert_eq!(alone(2, Unit { ppr: 777, ..Unit::default() }), 0);
        let energy = |e1| Unit { e1, ..Unit::default() };
        for (kind, hours) in [(3, 720), (7, 720), (4, 4), (6, 4), (5, 120)] {
            assert_eq!(alone(kind, energy(hours * 899 + hours - 1)), 899);
            assert_eq!(alone(kind, energy(hours * 5000)), 900);
        }
    }

    #[test]
    fn a_fraction_of_a_kilowatt_is_kept_up_to_the_finished_offer() {
        // 4,444 W times 9/10 are 3,999 W, 4,445 W times 9/10 are 4,000 W; 4 kW times 9/10 would be 3 kW in both.
        let report = Unit { flags: SUPPLY_REPORT, e1: 4_000_000_000, ..Unit::default() };
        for kind in [1, 3, 4, 5, 6, 7] {
            assert_eq!((of(4_444, kind, report), of(4_445, kind, report)), (3, 4));
        }
        // PPR 4 is 4,000 W and below PP, 5 is 5,000 W and above it.
        let fuel = |power, ppr| of(power, 2, Unit { ppr, ..report });
        assert_eq!((fuel(4_444, 4), fuel(4_445, 4)), (3, 3));
        assert_eq!((fuel(4_444, 5), fuel(4_445, 5)), (3, 4));
        assert_eq!((fuel(4_445, 4_445), fuel(999, 3_000_000)), (4, 0));
        assert_eq!(of(3_000_000_000, 2, Unit { ppr: 3_000_000, ..report }), 2_700_000);
    }

    #[test]
    fn an_energy_is_scaled_before_it_is_divided() {
        assert_eq!((over(5, 4), over(5, 744), over(4_000_000_000, 1)), (1_250, 6, 4_000_000_000_000));
        assert_eq!((over(0, 4), over(2, 3), over(743, 744)), (0, 666, 998));
        // PP·c is 4,499 W; of two energies of a kind the first gives less, the second more.
        let watts = |kind, e1| {
            let parts = [part(4_999), Component::default(), Component::default()];
            offer_in_watts(&Unit { kind, e1, ..Unit::default() }, &parts, &HOURS)
        };
        assert_eq!((watts(3, 3_239), watts(7, 3_239), watts(3, 3_240)), (4_498, 4_498, 4_499));
        assert_eq!((watts(5, 539), watts(5, 540)), (4_491, 4_499));
        assert_eq!((watts(4, 17), watts(6, 17), watts(6, 18)), (4_250, 4_250, 4_499));
    }

    #[test]
    fn storage_adds_its_two_parts_below_the_power_of_the_set() {
        let unit = Unit { kind: 8, e1: 4 * 500, e2: 4 * 300, cap: 4 * 200, ..Unit::default() };
        let parts = [part(1_000_000), part(600_000), part(400_000)];
        assert_eq!(firm_offer(&unit, &parts, &HOURS), 700);
        assert_eq!(firm_offer(&Unit { cap: 4 * 350, ..unit }, &parts, &HOURS), 800);
        assert_eq!(firm_offer(&Unit { e1: 4_000_000, e2: 4_000_000, cap: 4_000_000, ..unit }, &parts, &HOURS), 900);
        assert_eq!(firm_offer(&unit, &[part(650_000), parts[1], parts[2]], &HOURS), 650);
        // 2003/4 and 1203/4 are 500,750 W and 300,750 W, which add up to more than 801 kW.
        assert_eq!(firm_offer(&Unit { e1: 2003, e2: 1203, cap: 4000, ..unit }, &parts, &HOURS), 801);
    }

    #[test]
    fn two_fractions_of_a_kilowatt_add_up_to_one() {
        let most = 4_000_000_000;
        let offer = |powers: [u32; 3], e1: u32, e2: u32, cap: u32, ndhmd: u8| {
            firm_offer(&Unit { kind: 8, e1, e2, cap, ..Unit::default() }, &powers.map(part), &Year { ndhmd, ..HOURS })
        };
        let wide = [9_000_000; 3];
        // 1,250 and 1,750 W by E1 and E2, by E1 and CAP; 1,250 W of E1 less.
        assert_eq!((offer(wide, 5, 7, most, 4), offer(wide, 5, most, 7, 4), offer(wide, 4, 7, most, 4)), (3, 3, 2));
        // PP1·c1 and PP2·c2 of 1,800 and 1,200 W, of 1,800 and 1,199 W.
        assert_eq!(offer([9_000, 2_000, 1_334], most, most, most, 4), 3);
        assert_eq!(offer([9_000, 2_000, 1_333], most, most, most, 4), 2);
        // 9/7 and 12/7 kW are 3 kW, yet 1,285 and 1,714 W are less.
        assert_eq!(offer(wide, 9, 12, most, 7), 2);
        // PP of 2,999 W below 1,800 and 1,200 W, and of 3,001 W below twice 8,100 W.
        assert_eq!(offer([2_999, 2_000, 1_334], most, most, most, 4), 2);
        assert_eq!(offer([3_001, 9_000, 9_000], most, most, most, 4), 3);
        assert_eq!(offer([3_000_000_000; 3], most, most, most, 1), 3_000_000);
    }

    #[test]
    fn storage_with_any_part_missing_offers_0() {
        let unit = Unit { kind: 8, e1: 4000, e2: 4000, cap: 4000, ..Unit::default() };
        let set = Component { availability: None, ..part(1_000_000) };
        let parts = [set, part(600_000), part(400_000)];
        assert_eq!(firm_offer(&unit, &parts, &HOURS), 900);
        for missing in 0..3 {
            let mut fewer = parts;
            fewer[missing].power = None;
            assert_eq!(firm_offer(&unit, &fewer, &HOURS), 0);
        }
        for missing in 1..3 {
            let mut fewer = parts;
            fewer[missing].availability = None;
            assert_eq!(firm_offer(&unit, &fewer, &HOURS), 0);
        }
    }

    #[test]
    fn without_result_or_availability_the_offer_is_0() {
        let unit = Unit { flags: SUPPLY_REPORT, ppr: 1000, e1: 1_000_000, ..Unit::default() };
        for kind in 1..8 {
            let parts = [Component { power: None, ..part(1_000) }, part(9_000), part(9_000)];
            assert_eq!(firm_offer(&Unit { kind, ..unit }, &parts, &HOURS), 0);
            let parts = [Component { availability: None, ..part(1_000_000) }, part(9_000), part(9_000)];
            assert_eq!(firm_offer(&Unit { kind, ..unit }, &parts, &HOURS), 0);
        }
    }

    #[test]
    fn a_tie_takes_the_first_year() {
        assert_eq!(chosen_year(&[(1, 500), (2, 500)]), 1);
        assert_eq!(chosen_year(&[(1, 500), (2, 501)]), 2);
        assert_eq!(chosen_year(&[]), 1);
        assert_eq!(chosen_year(&[(4, 7), (0, 9)]), 1);
        assert_eq!(chosen_year(&[(3, 7), (3, 9)]), 1);
        assert_eq!(chosen_year(&[(1, 7), (3, 9), (2, 8)]), 2);
    }

    #[test]
    fn flag_4_adds_to_no_year_and_makes_the_offer_efficient() {
        let units = [(1, 500), (2, 400), (FORCED, 1000), (2 | FORCED, 50), (0, 800)];
        assert_eq!(chosen_year(&units), 1);
        let efficient: Vec<u64> = units.iter().map(|&(flags, offer)| efficient_offer(flags, offer, 1)).collect();
        assert_eq!(efficient, [500, 0, 1000, 50, 0]);
        assert_eq!(efficient_offer(2, 400, 2), 400);
        assert_eq!(efficient_offer(1, 400, 2), 0);
    }
}
