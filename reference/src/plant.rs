//! Tests of maximum power and availability of a unit's components.

use crate::number::Number;

/// 01 "Journal records", test: ending, TC and count in quarters, readings of 4 bytes in the record's form.
#[derive(Clone, Copy, Debug, PartialEq, Eq)]
pub struct PowerTest<'a> {
    pub ending: u8,
    pub tc: u8,
    pub count: u8,
    pub readings: &'a [u8],
}

impl<'a> PowerTest<'a> {
    /// 01 "Journal records": the readings in kWh, 4 bytes each, low byte first.
    pub fn kwh(&self) -> impl Iterator<Item = u32> + 'a {
        self.readings.chunks_exact(4).map(|part| u32::from_le_bytes([part[0], part[1], part[2], part[3]]))
    }
}

/// 01 "Journal records", availability: HD, HMP, HIF and HED in minutes.
#[derive(Clone, Copy, Debug, Default, PartialEq, Eq)]
pub struct Minutes {
    pub hd: u32,
    pub hmp: u32,
    pub hif: u32,
    pub hed: u32,
}

/// 01 "Quantities": the minutes of 731 days.
pub const MOST_MINUTES: u32 = 1_052_640;

/// 02 "A6": the watts of a kilowatt.
pub const WATTS_OF_KILOWATT: u64 = 1_000;

impl Minutes {
    /// Annex 2.1: the numerator HD + HMP - HED of the coefficient.
    fn served(&self) -> u64 {
        u64::from(self.hd) + u64::from(self.hmp) - u64::from(self.hed)
    }

    /// Annex 2.1: the denominator HD + HIF + HMP of the coefficient.
    fn whole(&self) -> u64 {
        u64::from(self.hd) + u64::from(self.hif) + u64::from(self.hmp)
    }

    /// 01 "Availability" (annex 2.1): power times c, one product and one division.
    pub fn derate(&self, power: u64) -> u64 {
        power * self.served() / self.whole()
    }
}

/// 01 "Maximum power" (2.3.5): whether the count is 80 % of TC or more; exactly 80 % counts as reached.
pub fn reached(count: u64, tc: u64) -> bool {
    5 * count >= 4 * tc
}

/// 01 "The book": what is kept of one component.
#[derive(Clone, Copy, Debug, Default, PartialEq, Eq)]
pub struct Component {
    /// 2.3.5, 02 "A6": the last result in W.
    pub power: Option<u32>,
    /// 2.3.5 c: the last ending-2 test was void and no result came since.
    pub void_trip: bool,
    /// Annex 2.1: the last accepted minutes.
    pub availability: Option<Minutes>,
}

impl Component {
    /// 01 "Maximum power" (2.3.5), 02 "A6": one test whose fields are in range, its result rounded down to W; meets 8.
    pub fn test(&mut self, test: &PowerTest, injection: Option<u32>) -> Result<(), Number> {
        let (tc, count) = (u64::from(test.tc), u64::from(test.count));
        let fits = if test.ending == 0 { count == tc } else { count < tc };
        if !fits {
            return Err(Number::Count);
        }
        let energy: u64 = test.kwh().map(u64::from).sum();
        let reached = reached(count, tc);
        let divisor = match test.ending {
            0 => Some(tc),
            1 => reached.then_some(count),
            _ => (reached || self.void_trip).then_some(tc),
        };
        match divisor {
            Some(quarters) => {
                let power = 4 * WATTS_OF_KILOWATT * energy / quarters;
                let power = injection.map_or(power, |pic| power.min(WATTS_OF_KILOWATT * u64::from(pic)));
                self.power = Some(power as u32);
                self.void_trip = false;
            }
            None if test.ending == 2 => self.void_trip = true,
            None => {}
        }
        Ok(())
    }

    /// 01 "Availability" (annex 2.1): minutes that are each in range; meets 9.
    pub fn avail(&mut self, minutes: Minutes) -> Result<(), Number> {
        let whole = minutes.whole();
        let in_service = u64::from(minutes.hd) + u64::from(minutes.hmp);
        if whole == 0 || whole > u64::from(MOST_MINUTES) || u64::from(minutes.hed) > in_service {
            return Err(Number::Minutes);
        }
        self.availability = Some(minutes);
        Ok(())
    }
}

#[cfg(test)]
mod tests {
    use super::*;

    fn bytes(readings: &[u32]) -> Vec<u8> {
        readings.iter().flat_map(|reading| reading.to_le_bytes()).collect()
    }

    fn test(part: &mut Component, ending: u8, tc: u8, readings: &[u32], pic: Option<u32>) -> u8 {
        let lent = bytes(readings);
        let count = readings.len() as u8;
        crate::number::reply(part.test(&PowerTest { ending, tc, count, readings: &lent }, pic))
    }

    fn first(ending: u8, tc: u8, readings: &[u32]) -> Component {
        let mut part = Component::default();
        assert_eq!(test(&mut part, ending, tc, readings, None), 0);
        part
    }

    #[test]
    fn a_complete_test_is_divided_by_tc() {
        assert_eq!(first(0, 4, &[2500; 4]).power, Some(10_000_000));
        assert_eq!(first(0, 7, &[1, 1, 1, 1, 1, 1, 2]).power, Some(4_571));
        assert_eq!(first(0, 96, &[750_000; 96]).power, Some(3_000_000_000));
    }

    #[test]
    fn exactly_80_percent_counts_as_reached() {
        assert_eq!(first(1, 5, &[100; 4]).power, Some(1000 * 100 * 4 * 4 / 4));
        assert_eq!(first(2, 5, &[100; 4]).power, Some(1000 * 100 * 4 * 4 / 5));
        assert_eq!(first(1, 5, &[100; 3]), Component::default());
        assert_eq!(first(2, 5, &[100; 3]), Component { void_trip: true, ..Component::default() });
        assert_eq!(first(1, 95, &[8; 76]).power, Some(32_000));
        assert_eq!(first(1, 95, &[8; 75]).power, None);
        assert_eq!(first(1, 96, &[8; 77]).power, Some(32_000));
        assert_eq!(first(1, 96, &[8; 76]).power, None);
    }

    #[test]
    fn tc_4_never_reaches_80_percent_when_tripped() {
        for ending in [1, 2] {
            for count in 0..4 {
                assert_eq!(first(ending, 4, &vec![9; count]).power, None);
            }
        }
    }

    #[test]
    fn a_second_short_trip_has_a_result_over_its_own_tc() {
        let mut part = first(2, 10, &[50; 7]);
        assert_eq!(test(&mut part, 1, 10, &[60; 7], None), 0);
        assert_eq!((part.power, part.void_trip), (None, true));
        assert_eq!(test(&mut part, 0, 10, &[60; 7], None), 8);
        assert_eq!((part.power, part.void_trip), (None, true));
        assert_eq!(test(&mut part, 2, 20, &[60; 5], None), 0);
        assert_eq!((part.power, part.void_trip), (Some(4000 * 300 / 20), false));
        assert_eq!(test(&mut part, 2, 20, &[90; 5], None), 0);
        assert_eq!((part.power, part.void_trip), (Some(60_000), true));
    }

    #[test]
    fn any_result_clears_the_memory_of_a_void_trip() {
        for (ending, readings) in [(0, vec![7; 5]), (1, vec![7; 4]), (2, vec![7; 4])] {
            let mut part = first(2, 5, &[1; 3]);
            assert_eq!(test(&mut part, ending, 5, &readings, None), 0);
            assert!(part.power.is_some() && !part.void_trip);
            let earlier = part.power;
            assert_eq!(test(&mut part, 2, 5, &[1; 3], None), 0);
            assert_eq!((part.power, part.void_trip), (earlier, true));
        }
    }

    #[test]
    fn a_second_trip_without_readings_is_a_result_of_0() {
        let mut part = first(2, 5, &[]);
        assert_eq!(test(&mut part, 2, 5, &[], None), 0);
        assert_eq!((part.power, part.void_trip), (Some(0), false));
    }

    #[test]
    fn pic_caps_every_result_and_0_is_a_cap() {
        let mut part = Component::default();
        assert_eq!(test(&mut part, 0, 4, &[2500; 4], Some(9_999)), 0);
        assert_eq!(part.power, Some(9_999_000));
        assert_eq!(test(&mut part, 0, 4, &[2500; 4], Some(0)), 0);
        assert_eq!(part.power, Some(0));
        let mut trips = first(2, 5, &[2500; 3]);
        assert_eq!(test(&mut trips, 2, 5, &[2500; 3], Some(5_999)), 0);
        assert_eq!(trips.power, Some(5_999_000));
    }

    #[test]
    fn a_result_is_rounded_down_to_watts_by_each_ending() {
        // 44,000 over the count 8 and over TC 9, and 300,000 over TC 7.
        let readings = [2, 2, 2, 1, 1, 1, 1, 1];
        assert_eq!(first(1, 9, &readings).power, Some(5_500));
        assert_eq!(first(2, 9, &readings).power, Some(4_888));
        assert_eq!(first(0, 9, &[2, 2, 1, 1, 1, 1, 1, 1, 1]).power, Some(4_888));
        let mut trips = first(2, 7, &[5; 5]);
        assert_eq!(test(&mut trips, 2, 7, &[15; 5], None), 0);
        assert_eq!(trips.power, Some(42_857));
        assert_eq!(first(0, 96, &[&[0; 95][..], &[1]].concat()).power, Some(41));
        assert_eq!(first(0, 96, &[&[750_000; 95][..], &[749_999]].concat()).power, Some(2_999_999_958));
    }

    #[test]
    fn pic_is_scaled_and_takes_a_fraction_only_where_it_caps() {
        let capped = |pic: u32, ending: u8, tc: u8, readings: &[u32]| {
            let mut part = Component::default();
            assert_eq!(test(&mut part, ending, tc, readings, Some(pic)), 0);
            part.power
        };
        for (ending, watts) in [(1, 5_500), (2, 4_888)] {
            let readings = [2, 2, 2, 1, 1, 1, 1, 1];
            let kilowatts = watts / 1_000;
            assert_eq!(capped(kilowatts - 1, ending, 9, &readings), Some(1_000 * (kilowatts - 1)));
            assert_eq!(capped(kilowatts, ending, 9, &readings), Some(1_000 * kilowatts));
            for pic in [kilowatts + 1, watts - 1, watts, 3_000_000] {
                assert_eq!(capped(pic, ending, 9, &readings), Some(watts));
            }
        }
        let greatest = [&[750_000; 95][..], &[749_999]].concat();
        assert_eq!(capped(2_999_999, 0, 96, &greatest), Some(2_999_999_000));
        assert_eq!(capped(3_000_000, 0, 96, &greatest), Some(2_999_999_958));
        assert_eq!(capped(3_000_000, 0, 96, &[750_000; 96]), Some(3_000_000_000));
        assert_eq!(capped(5, 0, 4, &[5, 0, 0, 0]), Some(5_000));
    }

    #[test]
    fn number_8_compares_count_with_tc() {
        let mut part = Component::default();
        assert_eq!(test(&mut part, 0, 4, &[1; 3], None), 8);
        assert_eq!(test(&mut part, 0, 4, &[1; 5], None), 8);
        for ending in [1, 2] {
            assert_eq!(test(&mut part, ending, 4, &[1; 4], None), 8);
            assert_eq!(test(&mut part, ending, 4, &[1; 5], None), 8);
        }
        assert_eq!(part, Component::default());
    }

    #[test]
    fn number_9_and_the_coefficient() {
        let minutes = |hd, hmp, hif, hed| Minutes { hd, hmp, hif, hed };
        let mut part = Component::default();
        for bad in [
            minutes(0, 0, 0, 0),
            minutes(1_052_640, 0, 1, 0),
            minutes(1_000_000, 52_640, 1, 0),
            minutes(10, 5, 100, 16),
        ] {
            assert_eq!(part.avail(bad), Err(Number::Minutes));
            assert_eq!(part.availability, None);
        }
        for good in [minutes(1_000_000, 52_640, 0, 0), minutes(10, 5, 100, 15), minutes(0, 0, 1, 0)] {
            assert_eq!(part.avail(good), Ok(()));
            assert_eq!(part.availability, Some(good));
        }
        assert_eq!(minutes(900, 60, 40, 10).derate(10_000), 9_500);
        assert_eq!(minutes(900, 60, 40, 10).derate(10_000_501), 9_500_475);
        assert_eq!(minutes(2, 0, 1, 0).derate(100), 66);
        assert_eq!(minutes(0, 0, 1, 0).derate(3_000_000_000), 0);
        assert_eq!(minutes(1_052_640, 0, 0, 0).derate(3_000_000_000), 3_000_000_000);
        // One product and one division: 3,000,000,000 - 3,000,000,000 / 1,052,640, which is 2,849.9.
        assert_eq!(minutes(1_052_639, 0, 1, 0).derate(3_000_000_000), 2_999_997_150);
    }
}
