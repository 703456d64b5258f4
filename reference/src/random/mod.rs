//! Seeded random journals, plants and outage logs.

mod calls;
mod charges;
mod demand;
mod draft;
mod draw;
mod faults;
pub mod logs;
mod marks;
#[cfg(test)]
mod occurrences;
pub mod plants;
mod season;

use std::fs;
use std::io;
use std::path::Path;

use crate::book::Stage;
use crate::call::{Call, Year, FORMS};
use crate::journal::run;
use crate::listing::MOST_BYTES;
use crate::range::{CONSUMERS, CONSUMERS_IN_A_BYTE};
use crate::record;
use draft::Draft;
use draw::Draw;

/// Writes `count` journals of a seed into a folder, numbered from 00000.
pub fn write_journals(seed: u64, count: u64, folder: &Path) -> io::Result<()> {
    fs::create_dir_all(folder)?;
    for number in 0..count {
        fs::write(folder.join(format!("{number:05}.journal")), journal(seed, number))?;
    }
    Ok(())
}

/// One journal of a seed: a whole season, one about its first refusal, about the end of a page, about the limit on charges or about a mark for
/// consumers above 64, cut or damaged, one about the program's limit, or calls in any order.
pub fn journal(seed: u64, number: u64) -> Vec<u8> {
    let mut draft = Draft::new(Draw::new(seed, number));
    match draft.draw.between(0, 999) {
        0..=689 => season(&mut draft),
        690..=739 => about_a_refusal(&mut draft),
        740..=789 => about_a_page(&mut draft),
        790..=819 => charges::about_the_limit(&mut draft),
        820..=849 => about_a_mark(&mut draft),
        850..=894 => {
            season(&mut draft);
            cut(&mut draft);
        }
        895..=949 => {
            season(&mut draft);
            damage(&mut draft);
        }
        950..=959 => at_the_limit(&mut draft),
        _ => any_order(&mut draft),
    }
    draft.journal
}

/// 01 "The book": the stages in their order, and some calls behind the close.
fn season(draft: &mut Draft) {
    season::open(draft);
    season::gather(draft, MOST_BYTES / 2);
    season::fix(draft);
    let steps = draft.draw.pick(&[0, 3, 8, 8, 20, 60]);
    season::contract(draft, steps, MOST_BYTES);
    demand::close(draft);
    if draft.draw.chance(20) {
        for _ in 0..draft.draw.between(1, 4) {
            let record = draft.any_record();
            draft.put_record(&record);
        }
    }
}

/// 02 "A3": a season whose first refusal is nowhere, at place 0, in the middle or last, and behind it the journal's end or a stop.
fn about_a_refusal(draft: &mut Draft) {
    if draft.draw.chance(25) {
        faults::fault(draft);
    }
    season(draft);
    let Draft { draw, journal, .. } = draft;
    if let Some((first, _)) = run(journal).first_refused {
        let (_, next) = record::read(&journal[..], first).expect("a drafted record is whole");
        let whole = journal.len();
        journal.truncate(draw.pick(&[first, next, whole]));
    }
    match draw.between(0, 2) {
        0 => {}
        1 => journal.extend_from_slice(&any_mark(draw)),
        _ => journal.extend_from_slice(b"RY and so on"),
    }
}

/// 01 "Journal records", 02 "A7": any mark that is known.
fn any_mark(draw: &mut Draw) -> [u8; 2] {
    FORMS[draw.between(0, FORMS.len() as u64 - 1) as usize].mark
}

/// 02 "A1", "A7": consumers alone, from 1 to 300 of them and often about the 50 of a page, up to the close.
fn about_a_page(draft: &mut Draft) {
    let any = draft.draw.number(1, CONSUMERS as u16);
    let about_the_end = [49, 50, 51, 52, 100, 101, 150, 151, 200, 201, 250, 251, 300];
    draft.style.consumers = if draft.draw.chance(70) { draft.draw.pick(&about_the_end) } else { any };
    draft.style.greatest =
        if draft.style.consumers > CONSUMERS_IN_A_BYTE { CONSUMERS as u16 } else { draft.style.greatest };
    draft.style.units = 0;
    season::open(draft);
    season::gather(draft, MOST_BYTES);
    season::fix(draft);
    demand::close(draft);
}

/// 02 "A7": a season of 64 consumers with a mark for others, a stop, or both.
fn about_a_mark(draft: &mut Draft) {
    draft.style.greatest = CONSUMERS_IN_A_BYTE;
    draft.style.consumers = draft.style.consumers.min(CONSUMERS_IN_A_BYTE);
    season(draft);
    marks::put_in(draft);
}

/// 01 "Numbered replies", 1: the journal up to any of its bytes.
fn cut(draft: &mut Draft) {
    let length = draft.draw.between(0, draft.journal.len() as u64) as usize;
    draft.journal.truncate(length);
}

/// 01 "Numbered replies", 2: some bytes changed, put in or put behind.
fn damage(draft: &mut Draft) {
    let Draft { draw, journal, .. } = draft;
    let place = draw.between(0, journal.len() as u64 - 1) as usize;
    let garbage: Vec<u8> = (0..draw.between(1, 40)).map(|_| draw.next() as u8).collect();
    match draw.between(0, 5) {
        0 => journal[place] = draw.next() as u8,
        1 => journal[place] ^= 1 << draw.between(0, 7),
        2 => journal.extend_from_slice(&garbage),
        3 => {
            journal.splice(place..place, garbage);
        }
        4 => {
            let foreign: [u8; 2] = draw.pick(&[*b"ta", *b"md", *b"YG", *b"LV", *b"TP", *b"yr", *b"RY", *b"\0\0"]);
            journal.extend_from_slice(&foreign);
            journal.extend_from_slice(&garbage);
        }
        _ => {
            let mark = any_mark(draw);
            *journal = [&mark[..], &garbage].concat();
        }
    }
}

/// 01 "Journal in, listing out": a journal of about 65,536 bytes, or of one byte more.
fn at_the_limit(draft: &mut Draft) {
    let length = draft.draw.pick(&[MOST_BYTES - 1, MOST_BYTES, MOST_BYTES, MOST_BYTES + 1, MOST_BYTES - 300]);
    draft.style.units = draft.style.units.max(3);
    season::open(draft);
    season::gather(draft, length / 2);
    if draft.draw.chance(60) {
        season::fill_with_tests(draft, length * 3 / 4);
    }
    season::fix(draft);
    season::contract(draft, u64::MAX, length - 8_000 - 16 * usize::from(draft.style.consumers));
    demand::close(draft);
    pad(draft, length);
}

/// 01 "Journal records": closes of 4 bytes and years of 7 bytes up to a length.
fn pad(draft: &mut Draft, length: usize) {
    while draft.journal.len() < length {
        let missing = length - draft.journal.len();
        if missing % 4 == 0 {
            draft.put(&Call::Close(890));
        } else {
            draft.put(&Call::Year(Year { nhrm: 720, nhmd: 120, ndhmd: 4 }));
        }
    }
}

/// 01 "The list of demand 3": calls in any order and number, and often real demands for a close behind them.
fn any_order(draft: &mut Draft) {
    for _ in 0..draft.draw.between(0, 120) {
        let record = draft.any_record();
        draft.put_record(&record);
        if draft.draw.chance(20) {
            faults::fault(draft);
        }
    }
    if draft.book.stage == Stage::Firm && draft.draw.chance(75) {
        demand::close(draft);
    }
}

#[cfg(test)]
mod tests {
    use super::journal;

    #[test]
    fn a_seed_and_a_number_give_one_journal() {
        assert_eq!(journal(7, 3), journal(7, 3));
        assert_ne!(journal(7, 3), journal(7, 4));
        assert_ne!(journal(7, 3), journal(8, 3));
    }
}
