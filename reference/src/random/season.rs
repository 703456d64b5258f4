//! The stages of a drafted journal, from the year to the contracts.

use super::calls;
use super::demand;
use super::draft::{shuffle, test_record, Draft, BOUNDARIES};
use super::faults::fault;
use crate::book::Stage;
use crate::call::{Availability, Call, Contract, Declare, FIRST_YEAR, SECOND_YEAR};
use crate::plant::Minutes;
use crate::range::{MOST_KW, PRODUCERS, UNITS};
use crate::record;

/// Adds faults at the style's rate.
pub fn perhaps_fault(draft: &mut Draft) {
    while draft.draw.chance(draft.style.errors) {
        fault(draft);
    }
}

/// 01 "The book": the year.
pub fn open(draft: &mut Draft) {
    perhaps_fault(draft);
    let year = calls::year(&mut draft.draw);
    draft.put(&Call::Year(year));
}

/// 01 "The book": units with tests and availabilities, and declarations, in a drawn order.
pub fn gather(draft: &mut Draft, most_bytes: usize) {
    let mut deeds: Vec<(bool, u16)> = Vec::new();
    let scattered = draft.draw.chance(40);
    let mut units: Vec<u16> = (1..=UNITS as u16).collect();
    if scattered {
        shuffle(&mut draft.draw, &mut units);
    }
    deeds.extend(units.into_iter().take(draft.style.units.into()).map(|unit| (true, unit)));
    deeds.extend(declaring(draft, scattered).into_iter().map(|consumer| (false, consumer)));
    shuffle(&mut draft.draw, &mut deeds);
    let mut at = 0;
    while at < deeds.len() && draft.journal.len() < most_bytes {
        perhaps_fault(draft);
        match deeds[at] {
            (true, unit) => plant(draft, unit as u8),
            (false, consumer) => declare(draft, consumer),
        }
        if draft.draw.chance(12) {
            replace(draft);
        }
        at += 1;
    }
}

/// 02 "A7": the consumers that declare, the first ones, or any of the style, often those at the ends of the forms' ranges before the others.
fn declaring(draft: &mut Draft, scattered: bool) -> Vec<u16> {
    let Draft { draw, style, .. } = draft;
    let mut numbers: Vec<u16> = (1..=style.greatest).collect();
    if scattered {
        shuffle(draw, &mut numbers);
        if draw.chance(50) {
            let (mut at_the_ends, others): (Vec<u16>, Vec<u16>) =
                numbers.iter().partition(|number| BOUNDARIES.contains(number));
            at_the_ends.extend(others);
            numbers = at_the_ends;
        }
    }
    numbers.truncate(style.consumers.into());
    numbers
}

/// 01 "The book": one unit with all that its offer needs, most of the time; a twin in the other year if years tie.
fn plant(draft: &mut Draft, number: u8) {
    if !draft.units(false).contains(&number) {
        return;
    }
    let start = draft.journal.len();
    let mut unit = calls::unit(&mut draft.draw, &draft.style, &draft.book.hours, number);
    if draft.style.tied {
        unit.flags = unit.flags & !(FIRST_YEAR | SECOND_YEAR) | FIRST_YEAR;
    }
    draft.put(&Call::Unit(unit));
    let components = if unit.kind == 8 { 0..=2 } else { 0..=0 };
    for component in components {
        test(draft, number, component);
        if unit.kind != 8 || component > 0 {
            availability(draft, number, component);
        }
    }
    let end = draft.journal.len();
    let free = draft.units(false);
    if draft.style.tied && !free.is_empty() {
        let twin = draft.draw.pick(&free);
        repeat(draft, start..end, number, twin);
    }
}

/// 01 "Efficient offer": enters the records of a unit again for its twin, used in the other year, at times of more W.
fn repeat(draft: &mut Draft, part: std::ops::Range<usize>, unit: u8, twin: u8) {
    let records = draft.journal[part].to_vec();
    let mut place = 0;
    while let Ok((call, next)) = record::read(&records[..], place) {
        let mut record = records[place..next].to_vec();
        let own = match call {
            Call::Unit(enrolled) => enrolled.unit == unit,
            Call::Test(test) => test.unit == unit,
            Call::Availability(availability) => availability.unit == unit,
            _ => false,
        };
        if own {
            record[2] = twin;
            match call {
                Call::Unit(_) => record[5] ^= FIRST_YEAR | SECOND_YEAR,
                Call::Availability(Availability { component, minutes, .. }) if draft.draw.chance(50) => {
                    let minutes = with_one_more(minutes);
                    record = record::bytes(&Call::Availability(Availability { unit: twin, component, minutes }));
                }
                _ => {}
            }
            draft.put_record(&record);
        }
        place = next;
    }
}

/// 02 "A6": minutes with one more in service, if there can be, so that offers of the same kW may differ by W.
fn with_one_more(minutes: Minutes) -> Minutes {
    let Minutes { hd, hif, hed, .. } = minutes;
    match hif {
        0 => Minutes { hed: hed.saturating_sub(1), ..minutes },
        _ => Minutes { hd: hd + 1, hif: hif - 1, ..minutes },
    }
}

/// 01 "Maximum power": tests of one component, seldom none, often until there is a result.
fn test(draft: &mut Draft, unit: u8, component: u8) {
    if draft.draw.chance(4) {
        return;
    }
    for _ in 0..4 {
        perhaps_fault(draft);
        let trial = calls::trial(&mut draft.draw, &draft.style);
        draft.put_record(&test_record(unit, component, &trial));
        let plant = draft.book.plants[usize::from(unit) - 1];
        let has_result = plant.is_some_and(|plant| plant.parts[usize::from(component)].power.is_some());
        if draft.draw.chance(if has_result { 75 } else { 8 }) {
            break;
        }
    }
}

/// 01 "Availability": of one component, seldom none.
fn availability(draft: &mut Draft, unit: u8, component: u8) {
    if draft.draw.chance(4) {
        return;
    }
    perhaps_fault(draft);
    let minutes = calls::minutes(&mut draft.draw);
    draft.put(&Call::Availability(Availability { unit, component, minutes }));
}

/// 01 "The book": a declaration of one consumer.
fn declare(draft: &mut Draft, consumer: u16) {
    let declare = calls::declare(&mut draft.draw, &draft.style, consumer);
    draft.put(&Call::Declare(declare));
}

/// 01 "The book": a later test, availability or declaration replaces the earlier.
fn replace(draft: &mut Draft) {
    let (units, consumers) = (draft.units(true), draft.consumers());
    if !units.is_empty() && draft.draw.chance(60) {
        let unit = draft.draw.pick(&units);
        let kind = draft.book.plants[usize::from(unit) - 1].map_or(1, |plant| plant.unit.kind);
        let component = if kind == 8 { draft.draw.byte(1, 2) } else { 0 };
        if draft.draw.chance(60) {
            test(draft, unit, component);
        } else {
            availability(draft, unit, component);
        }
    } else if !consumers.is_empty() {
        let consumer = draft.draw.pick(&consumers);
        declare(draft, consumer);
    }
}

/// 01 "The book": tests until the journal has `most_bytes`.
pub fn fill_with_tests(draft: &mut Draft, most_bytes: usize) {
    while draft.journal.len() < most_bytes && !draft.units(true).is_empty() {
        let units = draft.units(true);
        let unit = draft.draw.pick(&units);
        let trial = calls::trial(&mut draft.draw, &draft.style);
        draft.put_record(&test_record(unit, 0, &trial));
    }
}

/// 01 "Division by shares": the fix, sometimes met by 13 first.
pub fn fix(draft: &mut Draft) {
    let sum: u64 = draft.book.consumers.iter().flatten().map(|consumer| u64::from(consumer.d)).sum();
    if sum == 0 {
        draft.put(&Call::Fix(10_000));
        let consumer = draft.any_consumer();
        draft.put(&Call::Declare(Declare { consumer, d: draft.style.scale, a: draft.style.scale }));
    }
    perhaps_fault(draft);
    let sum = sum.clamp(1, MOST_KW.into()) as u32;
    let dmp = match draft.draw.between(0, 9) {
        0 => draft.draw.figure(MOST_KW),
        1 => MOST_KW,
        2 => sum,
        3 => 10_000,
        _ => draft.draw.near(sum, MOST_KW),
    };
    draft.put(&Call::Fix(dmp.max(1)));
}

/// 01 "The book": `steps` commitments and releases near their limits, and real demands.
pub fn contract(draft: &mut Draft, steps: u64, most_bytes: usize) {
    let consumers = draft.consumers();
    for _ in 0..steps {
        if consumers.is_empty() || draft.book.stage != Stage::Firm || draft.journal.len() >= most_bytes {
            return;
        }
        perhaps_fault(draft);
        let consumer = draft.draw.pick(&consumers);
        match draft.draw.between(0, 9) {
            0..=5 => commit(draft, consumer),
            6..=8 => release(draft),
            _ => demand::enter(draft, consumer, 100),
        }
    }
}

/// 01 "Numbered replies", 11: a commitment up to the limit, seldom just above.
fn commit(draft: &mut Draft, consumer: u16) {
    let able: Vec<u8> = (1..=PRODUCERS as u8).filter(|&producer| draft.room(producer) > 0).collect();
    let producer = if able.is_empty() || draft.draw.chance(10) {
        draft.draw.byte(1, draft.style.producers)
    } else {
        draft.draw.pick(&able)
    };
    let room = draft.room(producer);
    let q = match draft.draw.between(0, 19) {
        0 | 1 => room + 1,
        2 | 3 => room,
        4 => 1,
        5..=7 => room / 2,
        _ => draft.draw.between(0, room / 8 + 1),
    };
    let q = q.clamp(1, MOST_KW.into()) as u32;
    draft.put(&Call::Commit(Contract { producer, consumer, q }));
}

/// 01 "Numbered replies", 12: a release up to the pair's balance, seldom just above.
fn release(draft: &mut Draft) {
    let pairs = draft.pairs();
    if pairs.is_empty() {
        return;
    }
    let (producer, consumer) = draft.draw.pick(&pairs);
    let balance = draft.book.producers[usize::from(producer) - 1].balances[usize::from(consumer) - 1];
    let q = match draft.draw.between(0, 9) {
        0 => balance + 1,
        1 | 2 => balance,
        3 => 1,
        _ => draft.draw.between(1, balance),
    };
    let q = q.clamp(1, MOST_KW.into()) as u32;
    draft.put(&Call::Release(Contract { producer, consumer, q }));
}
