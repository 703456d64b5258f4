//! What is asked of a journal: its replies, its offers, its printed close, the figures of its run, and the journal for 64 consumers.

use std::fmt::Write;

use crate::book::{Plant, Stage};
use crate::journal;
use crate::listing::{self, MOST_BYTES};
use crate::narrow;
use crate::page;
use crate::summary;
use crate::whole_kilowatts;

/// 01 "Journal records", "Numbered replies": each record's place and reply, the stop, then the listing.
pub fn replies(journal: &[u8]) -> Vec<u8> {
    let mut lines = String::new();
    let run = journal::run_with(journal, |place, _, number| {
        writeln!(lines, "{place} {number}").expect("lines are written to memory");
    });
    let stop = run.stop.map_or(0, |number| number as u8);
    writeln!(lines, "stop {stop} {}", run.place).expect("lines are written to memory");
    let mut answers = lines.into_bytes();
    answers.extend_from_slice(&listing::listing(&run));
    answers
}

/// 02 "A6": the kind, the offer and the offer without A6 of each unit that the program lists of a journal.
pub fn offers(journal: &[u8]) -> Vec<u8> {
    let book = journal::run(journal).book;
    let mut offers = String::new();
    if journal.len() <= MOST_BYTES && matches!(book.stage, Stage::Firm | Stage::Closed) {
        for Plant { unit, parts, offer, .. } in book.plants.iter().flatten() {
            let without = whole_kilowatts::firm_offer(unit, parts, &book.hours);
            offers += &format!("{} {offer} {without}\n", unit.kind);
        }
    }
    offers.into_bytes()
}

/// 02 "A1": the number and the length of a journal's printed close, 0 where it is refused, then its text.
pub fn page(journal: &[u8]) -> Vec<u8> {
    let answer = match page::page(&journal::run(journal).book) {
        Ok(text) => format!("0 {}\n{text}", text.len()),
        Err(number) => format!("{} 0\n", number as u8),
    };
    answer.into_bytes()
}

/// 02 "A3": the eight figures of a journal's run on a line.
pub fn figures(journal: &[u8]) -> Vec<u8> {
    let figures = summary::figures(&journal::run(journal)).map(|figure| figure.to_string());
    format!("{}\n", figures.join(" ")).into_bytes()
}

/// 02 "A7": the number and the length of the journal for 64 consumers, 0 where it is refused, then its bytes.
pub fn narrow(journal: &[u8]) -> Vec<u8> {
    let mut narrowed = vec![0; journal.len()];
    match narrow::narrow(journal, &mut narrowed) {
        Ok(()) => [format!("0 {}\n", journal.len()).into_bytes(), narrowed].concat(),
        Err(number) => format!("{} 0\n", number as u8).into_bytes(),
    }
}

#[cfg(test)]
mod tests {
    use super::*;

    #[test]
    fn offers_of_a_journal_are_those_of_its_listing() {
        let gathered =
            "year 720 120 4\nunit 9 1 1 17 0 0 0 0 0\ntest 9 0 0 6 6 2 1 1 1 1 1\navailability 9 0 9 0 1 0\n\
                        unit 2 1 3 1 0 0 720 0 0\ndeclare 1 1 1\n";
        let offers = |more: &str| offers(&crate::text::records(format!("{gathered}{more}")).unwrap());
        assert_eq!(offers(""), b"");
        assert_eq!(offers("fix 5\n"), b"3 0 0\n1 4 3\n");
        assert_eq!(offers("fix 5\nmeter 1 5\nclose 1\n"), b"3 0 0\n1 4 3\n");
        assert_eq!(offers(&format!("fix 5\n{}", "close 1\n".repeat(20_000))), b"");
    }

    #[test]
    fn replies_name_each_place_and_the_stop() {
        let journal = crate::text::records("fix 0\nyear 720 120 4\nfix 5\n").unwrap();
        assert_eq!(replies(&journal), b"0 3\n6 0\n13 13\nstop 0 19\nR 3 1 2\n");
        let cut = [&journal[..], b"Y"].concat();
        assert_eq!(replies(&cut), b"0 3\n6 0\n13 13\nstop 1 19\nR 3 1 2\n");
        assert_eq!(replies(b""), b"stop 0 0\nR 0 0 0\n");
    }

    #[test]
    fn a_page_stands_behind_its_number_and_length() {
        let journal = crate::text::records("year 720 120 4\ndeclare 64 7 7\nfix 10\nmeter 64 9\nclose 1\n").unwrap();
        let expected = format!("0 74\nPAGE    1{}\n 64      10       -2               0\n", " ".repeat(27));
        assert_eq!(page(&journal), expected.as_bytes());
        assert_eq!(page(&[&journal[..], b"Y"].concat()), expected.as_bytes());
        assert_eq!(page(&journal[..journal.len() - 1]), b"4 0\n");
        assert_eq!(page(b""), b"4 0\n");
    }

    #[test]
    fn figures_are_a_line() {
        let journal = crate::text::records("year 720 120 4\nfix 5\n").unwrap();
        assert_eq!(figures(&journal), b"2 1 1 0 13 1 7 13\n");
        assert_eq!(figures(&[&journal[..], b"ZZ"].concat()), b"2 1 1 2 13 1 7 13\n");
        assert_eq!(figures(b""), b"0 0 0 0 0 0 0 0\n");
    }

    #[test]
    fn a_journal_for_64_consumers_stands_behind_its_number_and_length() {
        let journal = crate::text::records("year 720 120 4\ndeclare 64 7 7\n").unwrap();
        assert_eq!(narrow(&journal), [b"0 18\n", &journal[..]].concat());
        assert_eq!(narrow(&[&journal[..], b"YR"].concat()), b"1 0\n");
        assert_eq!(narrow(&[&journal[..], b"ZZ"].concat()), b"2 0\n");
        assert_eq!(narrow(&[&journal[..], b"mt\x41\0\0\0\0\0"].concat()), b"18 0\n");
        assert_eq!(narrow(b""), b"0 0\n");
    }
}
