//! The fields of the calls: names, widths and ranges.

use crate::plant::MOST_MINUTES;
use crate::range::{CONSUMERS, MOST_ENERGY, MOST_KW, MOST_READING, PRODUCERS, UNITS};

/// 01 "Journal records": a field's name, its width in bytes, what it is, and the least and the greatest that are in range.
#[derive(Debug)]
pub struct Field {
    pub name: &'static str,
    pub width: usize,
    pub what: &'static str,
    pub least: u32,
    pub greatest: u32,
}

/// 01 "Journal records": one field of a row.
const fn field(name: &'static str, width: usize, what: &'static str, least: u32, greatest: u32) -> Field {
    Field { name, width, what, least, greatest }
}

/// 01 "Quantities": a field of power.
const fn power(name: &'static str, least: u32) -> Field {
    field(name, 4, "a power in kW", least, MOST_KW)
}

/// 01 "Quantities": an energy that is no reading.
const fn energy(name: &'static str) -> Field {
    field(name, 4, "an energy in kWh", 0, MOST_ENERGY)
}

/// 01 "Quantities": a figure of availability.
const fn minutes(name: &'static str) -> Field {
    field(name, 4, "minutes", 0, MOST_MINUTES)
}

/// 01 "Journal records", year.
pub const NHRM: Field = field("NHRM", 2, "hours", 1, 744);
pub const NHMD: Field = field("NHMD", 2, "hours", 1, 744);
pub const NDHMD: Field = field("NDHMD", 1, "hours per day", 1, 24);

/// 01 "Quantities": the numbers of units and producers.
pub const UNIT: Field = field("unit", 1, "a unit", 1, UNITS as u32);
pub const PRODUCER: Field = field("producer", 1, "a producer", 1, PRODUCERS as u32);

/// 02 "A7": the number of a consumer, in one byte or in two; each of the two takes its part of 1 to 300.
pub const CONSUMER: Field = field("consumer", 1, "a consumer", 1, CONSUMERS as u32);
pub const CONSUMER_ABOVE_64: Field = field("consumer", 2, "a consumer", 1, CONSUMERS as u32);

/// 01 "Journal records", unit.
pub const KIND: Field = field("kind", 1, "a kind", 1, 8);
pub const FLAGS: Field = field("flags", 1, "a sum of flags", 0, 31);
pub const PIC: Field = power("PIC", 0);
pub const PPR: Field = power("PPR", 0);
pub const E1: Field = energy("E1");
pub const E2: Field = energy("E2");
pub const CAP: Field = energy("CAP");

/// 01 "Journal records", test, and the component of availability.
pub const COMPONENT: Field = field("component", 1, "a component", 0, 2);
pub const ENDING: Field = field("ending", 1, "an ending", 0, 2);
pub const TC: Field = field("TC", 1, "a full test time in quarters", 4, 96);
pub const COUNT: Field = field("count", 1, "a count of readings", 0, 96);
pub const READING: Field = field("reading", 4, "a reading in kWh", 0, MOST_READING);

/// 01 "Journal records", availability.
pub const HD: Field = minutes("HD");
pub const HMP: Field = minutes("HMP");
pub const HIF: Field = minutes("HIF");
pub const HED: Field = minutes("HED");

/// 01 "Journal records", declare, fix, commit, release, meter and close.
pub const D: Field = power("D", 0);
pub const A: Field = power("A", 0);
pub const DMP: Field = power("DMP", 1);
pub const Q: Field = power("q", 1);
pub const DREAL: Field = power("Dreal", 0);
pub const P: Field = field("P", 2, "cents per kW-month", 1, 2_500);

/// 02 "A4".
pub const MEAN: Field = power("mean", 0);

impl Field {
    /// 01 "Journal records": the bytes, low byte first, of a decimal number that the width holds, in range or not.
    pub fn bytes(&self, word: &str) -> Result<Vec<u8>, String> {
        let value = decimal(word).filter(|value| value >> (8 * self.width) == 0);
        value.map(|value| value.to_le_bytes()[..self.width].to_vec()).ok_or_else(|| self.message(word))
    }

    /// What is said of a word that this field cannot hold.
    fn message(&self, word: &str) -> String {
        let Field { name, what, least, greatest, .. } = self;
        format!("{name}: {word} is not {what}, {least} to {greatest}")
    }
}

/// A number written in decimal digits only.
pub fn decimal(word: &str) -> Option<u64> {
    word.bytes().all(|digit| digit.is_ascii_digit()).then(|| word.parse().ok()).flatten()
}

#[cfg(test)]
mod tests {
    use super::*;
    use crate::call::FORMS;
    use crate::{range, record, text};

    /// Calls in range, with the places of the fields that may be the least and the greatest of their ranges there.
    const IN_RANGE: [(&str, &[usize]); 20] = [
        ("year 1 1 1", &[0, 1, 2]),
        ("unit 1 1 1 8 0 0 0 0 0", &[0, 1, 3, 4]),
        ("unit 1 1 3 0 0 0 0 0 0", &[2]),
        ("unit 1 1 2 0 0 0 0 0 0", &[5]),
        ("unit 1 1 8 0 0 0 0 0 0", &[6, 7, 8]),
        ("test 1 0 0 4 0", &[0, 1, 2, 3, 4]),
        ("test 1 0 0 4 1 0", &[5]),
        ("availability 1 0 0 0 0 0", &[0, 1, 2, 3, 4, 5]),
        ("declare 1 0 0", &[0, 1, 2]),
        ("fix 1", &[0]),
        ("commit 1 1 1", &[0, 1, 2]),
        ("release 1 1 1", &[0, 1, 2]),
        ("meter 1 0", &[0, 1]),
        ("close 1", &[0]),
        ("mean 1 0", &[0, 1]),
        ("declare 65 0 0", &[0, 1, 2]),
        ("commit 1 65 1", &[0, 1, 2]),
        ("release 1 65 1", &[0, 1, 2]),
        ("meter 65 0", &[0, 1]),
        ("mean 65 0", &[0, 1]),
    ];

    /// 01 "Numbered replies", 3: whether a call is in range with one of its fields changed; a count has as many readings.
    fn holds(line: &str, place: usize, field: &Field, value: u32) -> bool {
        let value_in_words = value.to_string();
        let mut words: Vec<&str> = line.split(' ').collect();
        words[1 + place] = &value_in_words;
        let readings = if field.name == "count" { value as usize } else { 0 };
        let journal = text::records(words.join(" ") + &" 0".repeat(readings)).expect("the width holds the value");
        range::holds(&record::read(&journal, 0).expect("the record is whole").0)
    }

    #[test]
    fn the_ranges_are_those_of_number_3() {
        let mut tried = 0;
        for (line, places) in IN_RANGE {
            let form = record::read(&text::records(line).unwrap(), 0).unwrap().0.form();
            for &place in places {
                let field = form.fields.get(place).unwrap_or(&READING);
                let Field { least, greatest, .. } = *field;
                assert!(holds(line, place, field, least) && holds(line, place, field, greatest), "{field:?}");
                assert!(!holds(line, place, field, greatest + 1), "{field:?}");
                assert!(least == 0 || !holds(line, place, field, least - 1), "{field:?}");
                tried += 1;
            }
        }
        let all: usize = FORMS.iter().map(|form| form.fields.len()).sum();
        assert_eq!(tried, all + 1, "each field of each call, and a reading");
    }

    #[test]
    fn each_field_is_named_with_what_it_is_and_its_range() {
        let messages = [
            (NHRM, "NHRM: x is not hours, 1 to 744"),
            (NHMD, "NHMD: x is not hours, 1 to 744"),
            (NDHMD, "NDHMD: x is not hours per day, 1 to 24"),
            (UNIT, "unit: x is not a unit, 1 to 48"),
            (PRODUCER, "producer: x is not a producer, 1 to 16"),
            (CONSUMER, "consumer: x is not a consumer, 1 to 300"),
            (CONSUMER_ABOVE_64, "consumer: x is not a consumer, 1 to 300"),
            (KIND, "kind: x is not a kind, 1 to 8"),
            (FLAGS, "flags: x is not a sum of flags, 0 to 31"),
            (PIC, "PIC: x is not a power in kW, 0 to 3000000"),
            (PPR, "PPR: x is not a power in kW, 0 to 3000000"),
            (E1, "E1: x is not an energy in kWh, 0 to 4000000000"),
            (E2, "E2: x is not an energy in kWh, 0 to 4000000000"),
            (CAP, "CAP: x is not an energy in kWh, 0 to 4000000000"),
            (COMPONENT, "component: x is not a component, 0 to 2"),
            (ENDING, "ending: x is not an ending, 0 to 2"),
            (TC, "TC: x is not a full test time in quarters, 4 to 96"),
            (COUNT, "count: x is not a count of readings, 0 to 96"),
            (READING, "reading: x is not a reading in kWh, 0 to 750000"),
            (HD, "HD: x is not minutes, 0 to 1052640"),
            (HMP, "HMP: x is not minutes, 0 to 1052640"),
            (HIF, "HIF: x is not minutes, 0 to 1052640"),
            (HED, "HED: x is not minutes, 0 to 1052640"),
            (D, "D: x is not a power in kW, 0 to 3000000"),
            (A, "A: x is not a power in kW, 0 to 3000000"),
            (DMP, "DMP: x is not a power in kW, 1 to 3000000"),
            (Q, "q: x is not a power in kW, 1 to 3000000"),
            (DREAL, "Dreal: x is not a power in kW, 0 to 3000000"),
            (P, "P: x is not cents per kW-month, 1 to 2500"),
            (MEAN, "mean: x is not a power in kW, 0 to 3000000"),
        ];
        for (field, message) in messages {
            assert_eq!(field.bytes("x").unwrap_err(), message);
        }
    }
}
