//! What occurs in random journals, and how often.

use std::collections::BTreeMap;

use super::journal;
use crate::book::{Book, Plant, Stage};
use crate::call::FORMS;
use crate::journal::{run, run_with};
use crate::listing::MOST_BYTES;
use crate::narrow::{self, Met};
use crate::number::Number;
use crate::offer;
use crate::range::CONSUMERS;

#[test]
fn every_number_of_a_journal_occurs_and_most_journals_close() {
    let mut met = [0; 20];
    let mut closed = 0;
    for number in 0..600 {
        let run = run_with(&journal(1, number), |_, _, reply| met[usize::from(reply)] += 1);
        if let Some(stop) = run.stop {
            met[stop as usize] += 1;
        }
        if let Err(Met { number: Number::Above64, .. }) = narrow::check(&journal(1, number)) {
            met[Number::Above64 as usize] += 1;
        }
        closed += u32::from(run.book.stage == Stage::Closed);
    }
    // 15 is of buffers and 17 of outage logs alone.
    assert!((0..20).all(|number| met[number] >= 5 || number == 15 || number == 17), "{met:?}");
    assert_eq!((met[15], met[17]), (0, 0));
    assert!(closed > 450);
}

#[test]
fn watts_would_at_times_choose_the_second_year_in_place_of_the_first() {
    let mut others = 0;
    for number in 0..2_000 {
        let Book { stage: Stage::Firm | Stage::Closed, plants, hours, .. } = run(&journal(1, number)).book else {
            continue;
        };
        let units = || plants.iter().flatten();
        let in_watts = |plant: &Plant| offer::offer_in_watts(&plant.unit, &plant.parts, &hours);
        let kilowatts: Vec<(u8, u64)> = units().map(|plant| (plant.unit.flags, plant.offer)).collect();
        let watts: Vec<(u8, u64)> = units().map(|plant| (plant.unit.flags, in_watts(plant))).collect();
        others += u32::from(offer::chosen_year(&kilowatts) == 1 && offer::chosen_year(&watts) == 2);
    }
    assert!(others >= 20, "{others}");
}

#[test]
fn closed_years_have_few_and_many_consumers_and_those_about_the_end_of_a_page() {
    let mut years = [0; CONSUMERS + 1];
    for number in 0..2_000 {
        let book = run_with(&journal(1, number), |_, _, _| {}).book;
        if book.stage == Stage::Closed {
            years[book.consumers.iter().flatten().count()] += 1;
        }
    }
    let often = [1, 3, 49, 50, 51, 52, 63, 64, 65, 100, 101, 150, 151, 200, 201, 250, 251, 255, 256, 299, 300];
    assert!(often.iter().all(|&consumers| years[consumers] >= 2), "{years:?}");
}

#[test]
fn journals_for_64_consumers_and_others_occur_and_few_are_longer_than_the_program_reads() {
    let (mut for_64, mut longer) = (0, 0);
    for number in 0..2_000 {
        let journal = journal(1, number);
        for_64 += u32::from(narrow::check(&journal).is_ok());
        longer += u32::from(journal.len() > MOST_BYTES);
    }
    assert!((600..1_400).contains(&for_64) && (1..20).contains(&longer), "{for_64} {longer}");
}

#[test]
fn each_form_takes_the_ends_of_its_range_in_each_call_and_refuses_what_lies_beyond() {
    let mut seen = BTreeMap::new();
    for number in 0..2_000 {
        let journal = journal(1, number);
        run_with(&journal, |place, call, reply| {
            let form = FORMS.iter().find(|form| journal[place..].starts_with(&form.mark)).expect("the mark is known");
            let Some(before) = form.fields.iter().position(|field| field.name == "consumer") else { return };
            let width = form.fields[before].width;
            let at = place + 2 + before;
            let number = (0..width).map(|byte| u16::from(journal[at + byte]) << (8 * byte)).sum::<u16>();
            *seen.entry((call.form().name, width, number, reply == 3)).or_insert(0) += 1;
        });
    }
    for name in ["declare", "commit", "release", "meter", "mean"] {
        for (width, taken, refused) in
            [(1, [1, 64].as_slice(), [0, 65, 255].as_slice()), (2, &[65, 255, 256, 300], &[0, 1, 64, 301, 65_535])]
        {
            assert!(taken.iter().all(|&number| seen[&(name, width, number, false)] >= 3), "{name} {width}");
            assert!(refused.iter().all(|&number| seen[&(name, width, number, true)] >= 1), "{name} {width}");
            assert!(refused.iter().all(|&number| !seen.contains_key(&(name, width, number, false))));
        }
    }
}
