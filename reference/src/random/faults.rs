//! Calls that are drafted to be refused.

use super::calls::{self, Trial};
use super::draft::{any_producer, test_record, Draft};
use crate::book::{stage_of, Stage};
use crate::call::{row, Availability, Call, Contract, Declare, Mean, Meter};
use crate::plant::{Minutes, MOST_MINUTES};
use crate::range::{self, CONSUMERS_IN_A_BYTE, MOST_KW, MOST_READING};
use crate::record;

/// 01 "Numbered replies": adds a call that meets a number of the present stage, if there is one to meet.
pub fn fault(draft: &mut Draft) {
    let number = match draft.book.stage {
        Stage::Blank | Stage::Closed => draft.draw.between(3, 4),
        Stage::Gathering => draft.draw.between(3, 9),
        Stage::Firm => draft.draw.pick(&[3, 4, 10, 10, 11, 11, 12, 12]),
    };
    match number {
        3 => out_of_range(draft),
        4 => out_of_stage(draft),
        5 => enrolled_twice(draft),
        6 => not_enrolled(draft),
        7 => foreign_component(draft),
        8 => count_against_tc(draft),
        9 => sums_of_minutes(draft),
        10 => undeclared(draft),
        11 => above_the_offers(draft),
        _ => above_the_balance(draft),
    }
}

/// 01 "Numbered replies", 3: one field, or one reading, outside its range.
fn out_of_range(draft: &mut Draft) {
    match draft.draw.between(0, 99) {
        0..=14 => return out_of_range_test(draft),
        15..=39 => return foreign_consumer(draft),
        _ => {}
    }
    for _ in 0..40 {
        let mut bytes = draft.any_record();
        let (call, _) = record::read(&bytes, 0).expect("a drafted record is whole");
        let form = call.form();
        let fields = if form.name == "test" { 4 } else { form.fields.len() };
        let field = draft.draw.between(0, fields as u64 - 1) as usize;
        let at = 2 + form.fields[..field].iter().map(|field| field.width).sum::<usize>();
        let one = [0, 3, 9, 17, 25, 32, 49, 65, 97, 64, 128, 255, 16, 1, 8];
        let two = [0, 745, 2_501, 1, 64, 301, u16::MAX];
        let four = [0, 1, MOST_KW + 1, 4_000_000_001, MOST_MINUTES + 1, u32::MAX];
        match form.fields[field].width {
            1 => bytes[at] = draft.draw.pick(&one),
            2 => bytes[at..at + 2].copy_from_slice(&draft.draw.pick(&two).to_le_bytes()),
            _ => bytes[at..at + 4].copy_from_slice(&draft.draw.pick(&four).to_le_bytes()),
        }
        let (call, _) = record::read(&bytes, 0).expect("a drafted record is whole");
        if !range::holds(&call) {
            draft.put_record(&bytes);
            return;
        }
    }
}

/// 02 "A7": a record whose form does not take its consumer, often a declared one of the other form.
fn foreign_consumer(draft: &mut Draft) {
    let in_a_byte = draft.style.greatest == CONSUMERS_IN_A_BYTE || draft.draw.chance(50);
    let of_the_other =
        |consumer: &u16| (*consumer > CONSUMERS_IN_A_BYTE) == in_a_byte && (!in_a_byte || *consumer < 256);
    let declared: Vec<u16> = draft.consumers().into_iter().filter(of_the_other).collect();
    let consumer = if !declared.is_empty() && draft.draw.chance(60) {
        draft.draw.pick(&declared)
    } else if in_a_byte {
        draft.draw.pick(&[0, 65, 66, 128, 200, 254, 255])
    } else {
        draft.draw.pick(&[0, 1, 63, 64, 301, 302, 320, 321, 512, u16::MAX])
    };
    let call = call_of_consumer(draft, consumer);
    let form = row(call.form().name, if in_a_byte { 1 } else { 300 }).expect("the call has a form");
    draft.put_record(&record::bytes_in(form, &call));
}

/// 01 "Journal records", 02 "A4": any of the five calls of a consumer.
pub fn call_of_consumer(draft: &mut Draft, consumer: u16) -> Call<'static> {
    let producer = any_producer(&mut draft.draw);
    let q = draft.draw.near(draft.style.scale, MOST_KW).max(1);
    match draft.draw.between(0, 4) {
        0 => Call::Declare(Declare { consumer, d: q, a: q }),
        1 => Call::Commit(Contract { producer, consumer, q }),
        2 => Call::Release(Contract { producer, consumer, q }),
        3 => Call::Meter(Meter { consumer, dreal: q }),
        _ => Call::Mean(Mean { consumer, mean: q }),
    }
}

/// 01 "Numbered replies", 3: a test with a reading or a count outside its range.
fn out_of_range_test(draft: &mut Draft) {
    let units = draft.units(true);
    let unit = if units.is_empty() { 1 } else { draft.draw.pick(&units) };
    let mut trial = calls::trial(&mut draft.draw, &draft.style);
    if draft.draw.chance(30) {
        let count = draft.draw.pick(&[97, 98, 255]);
        trial.readings = vec![draft.style.scale / 4; count];
    } else if trial.readings.is_empty() {
        trial.tc = 3;
    } else {
        let place = draft.draw.between(0, trial.readings.len() as u64 - 1) as usize;
        trial.readings[place] = draft.draw.pick(&[MOST_READING + 1, u32::MAX]);
    }
    draft.put_record(&test_record(unit, 0, &trial));
}

/// 01 "Numbered replies", 4: a call in range that belongs to another stage.
fn out_of_stage(draft: &mut Draft) {
    for _ in 0..40 {
        let bytes = draft.any_record();
        let (call, _) = record::read(&bytes, 0).expect("a drafted record is whole");
        if stage_of(&call) != draft.book.stage {
            draft.put_record(&bytes);
            return;
        }
    }
}

/// 01 "Numbered replies", 5: a unit already enrolled.
fn enrolled_twice(draft: &mut Draft) {
    let units = draft.units(true);
    if units.is_empty() {
        return;
    }
    let number = draft.draw.pick(&units);
    let unit = calls::unit(&mut draft.draw, &draft.style, &draft.book.hours, number);
    draft.put(&Call::Unit(unit));
}

/// 01 "Numbered replies", 6: a unit not enrolled.
fn not_enrolled(draft: &mut Draft) {
    let units = draft.units(false);
    if units.is_empty() {
        return;
    }
    let unit = draft.draw.pick(&units);
    let component = draft.draw.byte(0, 2);
    test_or_availability(draft, unit, component);
}

/// 01 "Numbered replies", 7: a component foreign to the kind.
fn foreign_component(draft: &mut Draft) {
    let Some((unit, kind)) = some_plant(draft) else { return };
    if kind == 8 {
        let minutes = calls::minutes(&mut draft.draw);
        draft.put(&Call::Availability(Availability { unit, component: 0, minutes }));
    } else {
        let component = draft.draw.byte(1, 2);
        test_or_availability(draft, unit, component);
    }
}

/// An enrolled unit and its kind.
fn some_plant(draft: &mut Draft) -> Option<(u8, u8)> {
    let units = draft.units(true);
    if units.is_empty() {
        return None;
    }
    let unit = draft.draw.pick(&units);
    draft.book.plants[usize::from(unit) - 1].map(|plant| (unit, plant.unit.kind))
}

/// 01 "Journal records": a test or an availability whose own figures agree.
fn test_or_availability(draft: &mut Draft, unit: u8, component: u8) {
    if draft.draw.chance(50) {
        let trial = calls::trial(&mut draft.draw, &draft.style);
        draft.put_record(&test_record(unit, component, &trial));
    } else {
        let minutes = calls::minutes(&mut draft.draw);
        draft.put(&Call::Availability(Availability { unit, component, minutes }));
    }
}

/// 01 "Numbered replies", 8: a count that does not suit the ending and TC.
fn count_against_tc(draft: &mut Draft) {
    let Some((unit, _)) = some_plant(draft) else { return };
    let tc = draft.draw.pick(&[4, 5, 10]);
    let ending = draft.draw.byte(0, 2);
    let count = match ending {
        0 => draft.draw.pick(&[tc - 1, tc + 1, 0]),
        _ => draft.draw.pick(&[tc, tc, tc + 1]),
    };
    let readings = vec![draft.style.scale / 4; usize::from(count)];
    draft.put_record(&test_record(unit, 0, &Trial { ending, tc, readings }));
}

/// 01 "Numbered replies", 9: minutes that sum to 0 or to too much, or HED > HD + HMP.
fn sums_of_minutes(draft: &mut Draft) {
    let Some((unit, kind)) = some_plant(draft) else { return };
    let component = if kind == 8 { draft.draw.byte(1, 2) } else { 0 };
    let Minutes { hd, hmp, hif, .. } = calls::minutes(&mut draft.draw);
    let minutes = match draft.draw.between(0, 2) {
        0 => Minutes::default(),
        1 => Minutes { hd, hmp, hif: MOST_MINUTES + 1 - (hd + hmp).max(1), hed: 0 },
        _ => Minutes { hd, hmp, hif, hed: (hd + hmp + 1).min(MOST_MINUTES) },
    };
    draft.put(&Call::Availability(Availability { unit, component, minutes }));
}

/// 01 "Numbered replies", 10: a consumer not declared.
fn undeclared(draft: &mut Draft) {
    let consumers = draft.undeclared();
    if consumers.is_empty() {
        return;
    }
    let any = draft.any_consumer();
    let consumer = if consumers.contains(&any) { any } else { draft.draw.pick(&consumers) };
    let producer = any_producer(&mut draft.draw);
    let q = draft.draw.near(draft.style.scale, MOST_KW).max(1);
    let call = match draft.draw.between(0, 3) {
        0 => Call::Commit(Contract { producer, consumer, q }),
        1 => Call::Release(Contract { producer, consumer, q }),
        2 => Call::Meter(Meter { consumer, dreal: q }),
        _ => Call::Mean(Mean { consumer, mean: q }),
    };
    draft.put(&call);
}

/// 01 "Numbered replies", 11: a commitment of one kW more than is left, or of a producer without units.
fn above_the_offers(draft: &mut Draft) {
    let consumers = draft.consumers();
    let producer = any_producer(&mut draft.draw);
    let consumer = draft.draw.pick(&consumers);
    let q = (draft.room(producer) + 1).min(MOST_KW.into()) as u32;
    draft.put(&Call::Commit(Contract { producer, consumer, q }));
}

/// 01 "Numbered replies", 12: a release of one kW more than the pair's balance.
fn above_the_balance(draft: &mut Draft) {
    let pairs = draft.pairs();
    let (producer, consumer) = if pairs.is_empty() || draft.draw.chance(30) {
        (any_producer(&mut draft.draw), draft.any_consumer())
    } else {
        draft.draw.pick(&pairs)
    };
    let balance = draft.book.producers[usize::from(producer) - 1].balances[usize::from(consumer) - 1];
    let q = (balance + 1).min(MOST_KW.into()) as u32;
    draft.put(&Call::Release(Contract { producer, consumer, q }));
}
