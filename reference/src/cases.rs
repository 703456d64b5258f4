//! The case language of lines in which one unit is asked on its own.

use std::fmt::Write;

use crate::call::{Unit, Year, PIC_GIVEN, SUPPLY_REPORT};
use crate::field::decimal;
use crate::number::{reply, Number};
use crate::offer;
use crate::plant::{Component, Minutes, PowerTest};
use crate::range::{self, UNITS};
use crate::whole_kilowatts;

/// 01 "The book": the one unit of the plant cases, its cap and its three components.
#[derive(Default)]
struct PlantCase {
    injection: Option<u32>,
    parts: [Component; 3],
}

/// 01 "Maximum power", "Availability", "Firm offer", "Efficient offer": runs lines of plant cases.
pub fn plant(input: &str) -> Result<String, String> {
    let mut answers = String::new();
    run_lines(input, |_, _, answer| {
        answers.push_str(answer);
        answers.push('\n');
    })?;
    Ok(answers)
}

/// 02 "A6": the kind, the offer and the offer without A6 of each firm offer that lines of plant cases ask for.
pub fn plant_offers(input: &str) -> Result<String, String> {
    let mut offers = String::new();
    run_lines(input, |case, numbers, answer| {
        if let Some((unit, hours)) = asked(numbers) {
            let without = whole_kilowatts::firm_offer(&unit, &case.parts, &hours);
            offers += &format!("{} {answer} {without}\n", unit.kind);
        }
    })?;
    Ok(offers)
}

/// Runs lines of plant cases, showing with each answer the unit as it stands behind the line and the line's numbers.
fn run_lines(input: &str, mut show: impl FnMut(&PlantCase, &[u64], &str)) -> Result<(), String> {
    let mut case = PlantCase::default();
    for (place, line) in input.lines().enumerate() {
        let numbers: Option<Vec<u64>> = line.split_whitespace().map(decimal).collect();
        let answer = numbers.and_then(|numbers| Some((case.answer(&numbers)?, numbers)));
        let (answer, numbers) = answer.ok_or_else(|| format!("line {}: no plant case", place + 1))?;
        if let Some(answer) = answer {
            show(&case, &numbers, &answer);
        }
    }
    Ok(())
}

impl PlantCase {
    /// One line of plant cases: none if it is no case, and a line of answer but for a new unit.
    fn answer(&mut self, numbers: &[u64]) -> Option<Option<String>> {
        match *numbers {
            [0, given, pic] => {
                let unit = Unit { flags: if given == 1 { PIC_GIVEN } else { 0 }, pic: four(pic)?, ..Unit::default() };
                *self = PlantCase { injection: unit.injection(), ..PlantCase::default() };
                Some(None)
            }
            [1, component, ending, tc, count, length, ref kwh @ ..] => {
                if length != 4 * kwh.len() as u64 {
                    return None;
                }
                let readings: Vec<u8> = kwh.iter().flat_map(|&reading| most_four(reading).to_le_bytes()).collect();
                let test = PowerTest {
                    ending: most_one(ending),
                    tc: most_one(tc),
                    count: most_one(count),
                    readings: &readings,
                };
                self.test(component, &test).map(Some)
            }
            [2, component, hd, hmp, hif, hed] => {
                let minutes =
                    Minutes { hd: most_four(hd), hmp: most_four(hmp), hif: most_four(hif), hed: most_four(hed) };
                self.avail(component, minutes).map(Some)
            }
            [3, ..] => {
                let (unit, hours) = asked(numbers)?;
                Some(Some(offer::firm_offer(&unit, &self.parts, &hours).to_string()))
            }
            [4, ref units @ ..] => efficient(units).map(Some),
            _ => None,
        }
    }

    /// 01 "Maximum power" (2.3.5), 02 "A6": 3, then 8; the number, the result in W and the memory of a void trip.
    fn test(&mut self, component: u64, test: &PowerTest) -> Option<String> {
        let part = self.parts.get_mut(component as usize)?;
        let number = match range::test_holds(test) {
            true => reply(part.test(test, self.injection)),
            false => Number::Range as u8,
        };
        let (has, power) = (u8::from(part.power.is_some()), part.power.unwrap_or(0));
        Some(format!("{number} {has} {power} {}", u8::from(part.void_trip)))
    }

    /// 01 "Availability" (annex 2.1): 3, then 9; the number.
    fn avail(&mut self, component: u64, minutes: Minutes) -> Option<String> {
        let part = self.parts.get_mut(component as usize)?;
        let number = match range::minutes_hold(&minutes) {
            true => reply(part.avail(minutes)),
            false => Number::Range as u8,
        };
        Some(number.to_string())
    }
}

/// 01 "Firm offer": the fields of the unit and the hours of the year that a line about a firm offer gives.
fn asked(numbers: &[u64]) -> Option<(Unit, Year)> {
    let &[3, kind, report, ppr, e1, e2, cap, nhrm, nhmd, ndhmd] = numbers else { return None };
    let hours = Year {
        nhrm: u16::try_from(nhrm).ok().filter(|&hours| hours > 0)?,
        nhmd: u16::try_from(nhmd).ok().filter(|&hours| hours > 0)?,
        ndhmd: u8::try_from(ndhmd).ok().filter(|&hours| hours > 0)?,
    };
    let unit = Unit {
        kind: u8::try_from(kind).ok().filter(|kind| (1..=8).contains(kind))?,
        flags: if report == 1 { SUPPLY_REPORT } else { 0 },
        ppr: four(ppr)?,
        e1: four(e1)?,
        e2: four(e2)?,
        cap: four(cap)?,
        ..Unit::default()
    };
    Some((unit, hours))
}

/// 01 "Efficient offer" (2.2.1 c, 2.2.2): the chosen year and each unit's efficient offer.
fn efficient(numbers: &[u64]) -> Option<String> {
    if numbers.len() % 2 != 0 || numbers.len() > 2 * UNITS {
        return None;
    }
    let pairs = numbers.chunks_exact(2);
    let units: Option<Vec<(u8, u64)>> = pairs.map(|pair| Some((u8::try_from(pair[0]).ok()?, pair[1]))).collect();
    let units = units?;
    let year = offer::chosen_year(&units);
    let mut answer = year.to_string();
    for &(flags, offer) in &units {
        write!(answer, " {}", offer::efficient_offer(flags, offer, year)).ok()?;
    }
    Some(answer)
}

/// A number of at most 4 bytes.
fn four(number: u64) -> Option<u32> {
    u32::try_from(number).ok()
}

/// A number that is above every range of 4 bytes stays above it.
fn most_four(number: u64) -> u32 {
    u32::try_from(number).unwrap_or(u32::MAX)
}

/// A number that is above every range of one byte stays above it.
fn most_one(number: u64) -> u8 {
    u8::try_from(number).unwrap_or(u8::MAX)
}

#[cfg(test)]
mod tests {
    use super::*;

    #[test]
    fn plant_cases_are_answered_line_by_line() {
        let input = "0 1 9000\n1 0 0 4 4 16 2500 2500 2500 2500\n2 0 900 60 40 10\n3 1 1 0 0 0 0 720 120 4\n\
                     3 1 0 0 0 0 0 720 120 4\n1 0 2 4 3 12 1 1 1\n1 0 0 4 3 12 1 1 1\n1 0 0 4 4 12 1 1 1\n\
                     2 0 0 0 0 0\n2 0 1052641 0 0 0\n1 0 300 4 4 16 1 1 1 1\n4 1 5 2 6 4 7\n4\n0 0 5\n\
                     1 2 2 5 0 0\n1 2 2 5 0 0\n";
        let answers = "0 1 9000000 0\n0\n8550\n0\n0 1 9000000 1\n8 1 9000000 1\n3 1 9000000 1\n9\n3\n\
                       3 1 9000000 1\n2 0 6 7\n1\n0 0 0 1\n0 1 0 0\n";
        assert_eq!(plant(input).unwrap(), answers);
    }

    #[test]
    fn lines_that_are_no_plant_case_are_named() {
        for line in ["", "5", "0 1", "1 3 0 4 0 0", "1 0 0 4 4 16 1", "2 0 1 1 1", "3 9 0 0 0 0 0 1 1 1", "4 1", "x"] {
            assert_eq!(plant(&format!("0 0 0\n{line}\n")), Err("line 2: no plant case".to_string()), "{line}");
        }
    }

    #[test]
    fn a_result_is_answered_in_watts() {
        let input = "0 0 0\n1 0 0 6 6 24 2 1 1 1 1 1\n2 0 9 0 1 0\n3 1 1 0 0 0 0 720 120 4\n";
        assert_eq!(plant(input).unwrap(), "0 1 4666 0\n0\n4\n");
        assert_eq!(plant(&input.replace("0 0 0\n", "0 1 4\n")).unwrap(), "0 1 4000 0\n0\n3\n");
    }

    #[test]
    fn offers_stand_beside_those_without_a6() {
        let input = "0 0 0\n1 0 0 6 6 24 2 1 1 1 1 1\n2 0 9 0 1 0\n3 1 1 0 0 0 0 720 120 4\n\
                     3 4 0 0 16 0 0 720 120 4\n4 1 5\n3 2 0 5 0 0 0 720 120 4\n3 6 0 0 15 0 0 720 120 4\n";
        assert_eq!(plant_offers(input).unwrap(), "1 4 3\n4 4 3\n2 0 0\n6 3 3\n");
        assert_eq!(plant_offers("").unwrap(), "");
        assert_eq!(plant_offers("0 0 0\n3 1 1\n"), Err("line 2: no plant case".to_string()));
    }
}
