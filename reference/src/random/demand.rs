//! Real demands, readings and means of a drafted journal, and the close.

use super::draft::{shuffle, Draft};
use super::draw::Draw;
use super::season::perhaps_fault;
use crate::call::{Call, Mean, Meter};
use crate::range::MOST_KW;

/// 02 "A4": the call that enters a consumer's real demand.
type Entry = fn(u16, u32) -> Call<'static>;

/// 01 "Journal records", meter.
fn reading(consumer: u16, dreal: u32) -> Call<'static> {
    Call::Meter(Meter { consumer, dreal })
}

/// 02 "A4": a mean.
fn mean(consumer: u16, mean: u32) -> Call<'static> {
    Call::Mean(Mean { consumer, mean })
}

/// 02 "A4": the entries of one consumer: mostly a reading, else a mean, one before or after a reading, and either replaced.
fn entries(draw: &mut Draw) -> &'static [Entry] {
    match draw.between(0, 19) {
        0 | 1 => &[mean],
        2 => &[mean, mean],
        3 => &[mean, reading],
        4 => &[reading, mean],
        5 => &[mean, reading, mean],
        6 => &[reading, reading],
        _ => &[reading],
    }
}

/// 02 "A4": the real demand of one consumer, about `percent` of what was declared.
pub fn enter(draft: &mut Draft, consumer: u16, percent: u64) {
    for entry in entries(&mut draft.draw) {
        let kw = real_demand(draft, consumer, percent);
        draft.put(&entry(consumer, kw));
    }
}

/// 01 "Close" (2.6.5.2): a figure about `percent` of what was declared, at times almost nothing, seldom one that meets 14.
fn real_demand(draft: &mut Draft, consumer: u16, percent: u64) -> u32 {
    let greatest = draft.greatest_dreal();
    let declared = draft.held(consumer).map_or(0, |held| held.d);
    let middle = (u64::from(declared) * percent / 100).min(MOST_KW.into()) as u32;
    match draft.draw.between(0, 49) {
        0 if greatest < MOST_KW => greatest + 1,
        1 => greatest,
        2 => draft.draw.figure(MOST_KW),
        3 | 4 => draft.draw.figure(greatest),
        5..=8 => 0,
        9 => draft.draw.between(0, greatest.min(3).into()) as u32,
        _ => draft.draw.near(middle, greatest),
    }
}

/// 02 "A4": enters a real demand that counts: a mean where one stands, since no reading replaces it.
pub fn count(draft: &mut Draft, consumer: u16, kw: u32) {
    let stands = draft.held(consumer).is_some_and(|held| held.mean.is_some());
    let entry: Entry = if stands || draft.draw.chance(30) { mean } else { reading };
    draft.put(&entry(consumer, kw));
}

/// 02 "A4": real demands and the close; mostly what it lacked and another one where it met 16 or 14.
pub fn close(draft: &mut Draft) {
    let percent = draft.draw.pick(&[50, 90, 98, 100, 100, 102, 110, 150, 300]);
    let silent = silent(draft);
    for consumer in draft.consumers() {
        perhaps_fault(draft);
        if !silent.contains(&consumer) {
            enter(draft, consumer, percent);
        }
    }
    if !silent.is_empty() && draft.draw.chance(50) {
        raise(draft);
    }
    let price = draft.draw.pick(&[1, 890, 890, 2_500, 7, 1_333]);
    loop {
        match draft.put(&Call::Close(price)) {
            14 if draft.draw.chance(85) => lower(draft),
            16 if draft.draw.chance(92) => speak(draft, percent),
            _ => return,
        }
    }
}

/// 02 "A4": in some journals the first, the last or any of the consumers that have neither a reading nor a mean; the close meets 16.
fn silent(draft: &mut Draft) -> Vec<u16> {
    if !draft.draw.chance(11) {
        return Vec::new();
    }
    let mut silent = draft.without_dreal();
    match draft.draw.between(0, 3) {
        0 => {}
        1 => silent.reverse(),
        _ => shuffle(&mut draft.draw, &mut silent),
    }
    silent.truncate(draft.draw.pick(&[1, 1, 1, 2, 3, 300]));
    silent
}

/// 02 "A4": a reading or a mean of the consumers that have neither, seldom not of all.
fn speak(draft: &mut Draft, percent: u64) {
    for consumer in draft.without_dreal() {
        if draft.draw.chance(95) {
            enter(draft, consumer, percent);
        }
    }
}

/// 01 "Numbered replies", 14: a DFA above 3,000,000 of one consumer that has a real demand, if there can be one.
fn raise(draft: &mut Draft) {
    let greatest = draft.greatest_dreal();
    let consumers = draft.with_dreal();
    if greatest < MOST_KW && !consumers.is_empty() {
        let consumer = draft.draw.pick(&consumers);
        count(draft, consumer, greatest + 1);
    }
}

/// 01 "Numbered replies", 14: lower real demands of the consumers above 3,000,000, seldom a reading that does not help behind a mean.
fn lower(draft: &mut Draft) {
    let greatest = draft.greatest_dreal();
    for consumer in draft.with_dreal() {
        let held = draft.held(consumer).and_then(|held| held.dreal());
        if held > Some(greatest) {
            let kw = if draft.draw.chance(50) { greatest } else { draft.draw.figure(greatest) };
            if draft.draw.chance(15) {
                draft.put(&reading(consumer, kw));
            } else {
                count(draft, consumer, kw);
            }
        }
    }
}

#[cfg(test)]
mod tests {
    use std::collections::BTreeMap;

    use crate::book::{Book, Consumer};
    use crate::call::{Call, Mean, Meter};
    use crate::number::Number;
    use crate::random::journal;
    use crate::range::MOST_KW;
    use crate::record;

    /// Runs a journal and shows what is seen of the book before each call, the call and the result.
    fn replay<S>(journal: &[u8], see: impl Fn(&Book, &Call) -> S, mut show: impl FnMut(S, &Call, Result<(), Number>)) {
        let mut book = Book::default();
        let mut place = 0;
        while let Ok((call, next)) = record::read(journal, place) {
            let seen = see(&book, &call);
            let result = book.apply(&call);
            show(seen, &call, result);
            place = next;
        }
    }

    /// The consumer of a reading or of a mean as the book has it, if it has.
    fn held(book: &Book, call: &Call) -> Option<Consumer> {
        let (Call::Meter(Meter { consumer, .. }) | Call::Mean(Mean { consumer, .. })) = *call else { return None };
        *book.consumers.get(usize::from(consumer).checked_sub(1)?)?
    }

    /// 01 "Close" (2.6.5.2): the places of the declared consumers of whose Dreal this holds.
    fn places(book: &Book, holds: impl Fn(Option<u32>) -> bool) -> Vec<usize> {
        let of_declared = |place: &usize| book.consumers[*place].is_some_and(|consumer| holds(consumer.dreal()));
        (0..book.consumers.len()).filter(of_declared).collect()
    }

    #[test]
    fn means_stand_alone_before_and_behind_readings_and_are_replaced() {
        let mut seen = BTreeMap::new();
        let mut see = |what: &'static str, holds: bool| *seen.entry(what).or_insert(0) += u32::from(holds);
        for number in 0..600 {
            let alone = |consumer: &Consumer| consumer.mean.is_some() && consumer.reading.is_none();
            let before = |book: &Book, call: &Call| {
                let close_with_one_alone = matches!(call, Call::Close(_)) && book.consumers.iter().flatten().any(alone);
                (held(book, call), close_with_one_alone)
            };
            replay(&journal(1, number), before, |(before, close_with_one_alone), call, result| {
                match (call, before, result) {
                    (Call::Mean(Mean { mean, .. }), Some(before), Ok(())) => {
                        see("a mean first", before.dreal().is_none());
                        see("a mean behind a reading", before.reading.is_some() && before.mean.is_none());
                        see("a mean replaced", before.mean.is_some());
                        see("a mean of 0", *mean == 0);
                        see("a mean of almost nothing", (1..=3).contains(mean));
                    }
                    (Call::Meter(_), Some(before), Ok(())) => see("a reading behind a mean", before.mean.is_some()),
                    (Call::Close(_), _, Ok(())) => see("a close with a mean alone", close_with_one_alone),
                    _ => {}
                }
            });
        }
        assert!(seen.len() == 7 && seen.values().all(|&times| times >= 50), "{seen:?}");
    }

    #[test]
    fn closes_meet_16_beside_a_dfa_above_3_000_000_in_a_lower_and_in_a_higher_place() {
        let (mut alone, mut above_behind, mut above_before) = (0, 0, 0);
        for number in 0..2_000 {
            let before = |book: &Book, call: &Call| {
                if !matches!(call, Call::Close(_)) || book.declared == 0 {
                    return (Vec::new(), Vec::new());
                }
                let (dmp, declared) = (u64::from(book.dmp), book.declared);
                let is_above = |dreal| u64::from(dreal) * dmp / declared > u64::from(MOST_KW);
                (places(book, |dreal| dreal.is_none()), places(book, |dreal| dreal.is_some_and(is_above)))
            };
            replay(&journal(1, number), before, |(silent, above), _, result| {
                if result != Err(Number::NoRealDemand) {
                    return;
                }
                alone += u32::from(above.is_empty());
                above_behind += u32::from(silent.first() < above.last());
                above_before += u32::from(above.first().is_some_and(|first| Some(first) < silent.last()));
            });
        }
        assert!(alone >= 100 && above_behind >= 5 && above_before >= 5, "{alone} {above_behind} {above_before}");
    }
}
