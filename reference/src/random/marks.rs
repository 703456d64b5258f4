//! Random journals about the marks for consumers above 64 of 02 "A7", in which a journal for 64 consumers has one, a stop, or both.

use super::draft::Draft;
use super::faults::call_of_consumer;
use crate::call::row;
use crate::range::CONSUMERS_IN_A_BYTE;
use crate::record;

/// 02 "A7": such a record put into the drafted journal, first, last or anywhere, and often an unknown mark or a cut record before it or behind.
pub fn put_in(draft: &mut Draft) {
    let mark = draft.draw.pick(&[&b"ZZ"[..], b"YG", b"un", b"\0\0", b"ZZ and so on", b"LV\x01\0"]).to_vec();
    let (one, other) = (above_64(draft), above_64(draft));
    let whole = draft.draw.chance(50);
    let of_a_cut = if whole { above_64(draft) } else { draft.any_record() };
    let cut = of_a_cut[..draft.draw.between(1, of_a_cut.len() as u64 - 1) as usize].to_vec();
    let places = places(&draft.journal);
    let (a, b) = (draft.draw.pick(&places), draft.draw.pick(&places));
    let (first, second, end) = (a.min(b), a.max(b), draft.journal.len());
    let parts = match draft.draw.between(0, 8) {
        0 => vec![(first, one)],
        1 => vec![(0, one)],
        2 => vec![(end, one)],
        3 => vec![(first, one), (second, other)],
        4 => vec![(first, one), (second, mark)],
        5 => vec![(first, mark), (second, one)],
        6 => vec![(first, one), (end, cut)],
        7 => vec![(first, mark)],
        _ => vec![(end, cut)],
    };
    for (place, part) in parts.into_iter().rev() {
        draft.journal.splice(place..place, part);
    }
}

/// 02 "A7": a record with a mark for consumers above 64, at times one that does not take its consumer.
fn above_64(draft: &mut Draft) -> Vec<u8> {
    let consumer = match draft.draw.between(0, 3) {
        0 => draft.draw.pick(&[65, 255, 256, 300]),
        1 => draft.draw.pick(&[0, 1, CONSUMERS_IN_A_BYTE, 301, 321, u16::MAX]),
        _ => draft.draw.number(65, 300),
    };
    let call = call_of_consumer(draft, consumer);
    let form = row(call.form().name, 300).expect("the call has a form");
    record::bytes_in(form, &call)
}

/// The places of the records of a drafted journal, and its end.
fn places(journal: &[u8]) -> Vec<usize> {
    let mut places = vec![0];
    while let Ok((_, next)) = record::read(journal, places[places.len() - 1]) {
        places.push(next);
    }
    places
}

#[cfg(test)]
mod tests {
    use std::collections::BTreeMap;

    use crate::journal::run;
    use crate::narrow::{check, Met};
    use crate::random::about_a_mark;
    use crate::random::draft::Draft;
    use crate::random::draw::Draw;

    #[test]
    fn marks_stand_alone_and_before_and_behind_each_stop() {
        let mut seen = BTreeMap::new();
        for number in 0..300 {
            let mut draft = Draft::new(Draw::new(12, number));
            about_a_mark(&mut draft);
            let (met, run) = (check(&draft.journal), run(&draft.journal));
            let Err(Met { place, number }) = met else { panic!("a mark or a stop is put in") };
            assert!(place <= run.place);
            let marks = [b"dm", b"cm", b"rl", b"mt", b"at"];
            let behind = draft.journal[place..].windows(2).any(|pair| marks.iter().any(|mark| pair == *mark));
            let stop = run.stop.map_or(0, |stop| stop as u8);
            *seen.entry((number as u8, stop, place == 0, number as u8 == 18 || behind)).or_insert(0) += 1;
        }
        let times = |kind| seen.get(&kind).copied().unwrap_or(0);
        for stop in 0..=2 {
            assert!(times((18, stop, false, true)) >= 10, "{seen:?}");
        }
        assert!(times((18, 0, true, true)) >= 10, "{seen:?}");
        assert!(times((1, 1, false, true)) >= 5 && times((1, 1, false, false)) >= 5, "{seen:?}");
        assert!(times((2, 2, false, true)) >= 5, "{seen:?}");
    }
}
