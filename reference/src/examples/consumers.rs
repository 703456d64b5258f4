//! The consumers above 64 of 02 "A7".

use super::{listed, replies, run};
use crate::book::{Book, Stage};
use crate::journal;
use crate::lines::lines;
use crate::number::Number;
use crate::page::page;
use crate::text::records;

/// The lines of the five calls of a consumer, and the bytes in front of and behind its field in the record.
const CALLS: [(&str, &[u8], &[u8]); 5] = [
    ("declare c 2 3", b"DM", &[2, 0, 0, 0, 3, 0, 0, 0]),
    ("commit 9 c 2", b"CM\x09", &[2, 0, 0, 0]),
    ("release 9 c 2", b"RL\x09", &[2, 0, 0, 0]),
    ("meter c 2", b"MT", &[2, 0, 0, 0]),
    ("mean c 2", b"AT", &[2, 0, 0, 0]),
];

/// The line of a call of this consumer.
fn of(line: &str, consumer: impl ToString) -> String {
    line.replace(" c ", &format!(" {} ", consumer.to_string()))
}

/// The record with these bytes in front of a field of one or two bytes and behind it; the mark for consumers above 64 is the other one in small letters.
fn record(front: &[u8], field: &[u8], behind: &[u8]) -> Vec<u8> {
    let front = if field.len() == 2 { front.to_ascii_lowercase() } else { front.to_vec() };
    [&front[..], field, behind].concat()
}

#[test]
fn the_consumer_picks_the_form() {
    for (line, front, behind) in CALLS {
        for consumer in [0, 1, 63, 64] {
            assert_eq!(records(of(line, consumer)).unwrap(), record(front, &[consumer], behind));
        }
        for (consumer, field) in
            [(65, [65, 0]), (255, [255, 0]), (256, [0, 1]), (300, [44, 1]), (301, [45, 1]), (65_535, [255, 255])]
        {
            assert_eq!(records(of(line, consumer)).unwrap(), record(front, &field, behind));
        }
        assert_eq!(records(of(line, "0064")).unwrap(), record(front, &[64], behind));
        assert_eq!(records(of(line, "0065")).unwrap(), record(front, &[65, 0], behind));
    }
}

#[test]
fn a_record_whose_form_does_not_take_its_consumer_is_shown_with_consumer_0() {
    for (line, front, behind) in CALLS {
        let shown = format!("{} # at byte 0: 3 field outside its range\n", of(line, 0));
        for field in [&[0][..], &[65], &[255], &[0, 0], &[1, 0], &[64, 0], &[45, 1], &[65, 1], &[255, 255]] {
            let journal = record(front, field, behind);
            assert_eq!(lines(&journal).text, shown);
            assert_eq!(records(&shown).unwrap(), record(front, &[0], behind));
        }
        let shown = format!("{} # at byte 0: 4 not in this stage\n", of(line, 300));
        assert_eq!(lines(&record(front, &[44, 1], behind)).text, shown);
    }
}

/// A year in which these consumers declared 1 kW, is firm.
fn firm(consumers: &[u16]) -> String {
    let declarations: String = consumers.iter().map(|consumer| format!("declare {consumer} 1 1\n")).collect();
    format!("year 720 120 4\n{declarations}fix {}\n", consumers.len())
}

#[test]
fn a_byte_of_65_to_255_meets_3_although_the_book_has_the_consumer() {
    let text = firm(&[1, 44, 64, 65, 255, 256, 300]);
    let mut journal = records(&text).unwrap();
    let (before, calls) = (run(&text).book, journal::run(&journal).read);
    journal.extend_from_slice(
        b"MT\x41\x01\0\0\0MT\xFF\x01\0\0\0AT\x41\x01\0\0\0mt\x01\0\x01\0\0\0mt\x40\0\x01\0\0\0at\x2C\0\x01\0\0\0",
    );
    let run = journal::run(&journal);
    assert_eq!((run.accepted, run.refused, run.first_refused), (calls, 6, Some((journal.len() - 45, Number::Range))));
    assert_eq!(run.book, before);
}

/// The book behind these calls on a firm year of four consumers, whose numbers differ by 256 or by their low byte alone.
fn behind(calls: &str) -> Book {
    run(&format!("{}{calls}", firm(&[1, 44, 257, 300]))).book
}

#[test]
fn a_call_concerns_the_consumer_of_its_whole_number() {
    let book = behind("meter 1 5\nmeter 257 6\nmean 300 7\n");
    let dreal = |consumer: usize| book.consumers[consumer - 1].unwrap().dreal();
    assert_eq!([1, 44, 257, 300].map(dreal), [Some(5), None, Some(6), Some(7)]);
    let unit = "unit 1 1 1 17 0 0 0 0 0\ntest 1 0 0 4 4 25 25 25 25\navailability 1 0 1 0 0 0\n";
    let text = firm(&[1, 44, 257, 300]).replace("declare 1 ", &format!("{unit}declare 1 "));
    let book = run(&format!("{text}commit 1 1 5\ncommit 1 257 60\ncommit 1 300 30\nrelease 1 257 9\n")).book;
    let balances = book.producers[0].balances;
    assert_eq!([1, 44, 257, 300].map(|consumer: usize| balances[consumer - 1]), [5, 0, 51, 30]);
    assert_eq!(book.producers[0].committed, 86);
    let numbers =
        replies(&format!("{text}commit 1 300 100\nrelease 1 44 1\nrelease 1 300 1\ncommit 1 65 1\nmeter 256 1\n"));
    assert_eq!(numbers[numbers.len() - 5..], [0, 12, 0, 10, 10]);
}

#[test]
fn a_year_of_300_consumers() {
    let all: Vec<u16> = (1..=300).collect();
    let readings: String = all.iter().map(|consumer| format!("meter {consumer} 1\n")).collect();
    let text = format!("{}{readings}close 890\n", firm(&all));
    let expected: String = all.iter().map(|consumer| format!("D {consumer} 1\n")).collect();
    let expected = expected.clone() + &all.iter().map(|consumer| format!("S {consumer} 0 0\n")).collect::<String>();
    assert_eq!(listed(&text), expected + "T 0 0 0\nR 603 603 0\n");
    assert_eq!(page(&run(&text).book).unwrap().lines().count(), 306);
}

#[test]
fn every_place_of_300_is_looked_at() {
    let all: Vec<u16> = (1..=300).collect();
    let firm = run(&firm(&all)).book;
    for silent in 1..=300 {
        let means = all.iter().filter(|&&consumer| consumer != silent).map(|consumer| format!("mean {consumer} 1\n"));
        let calls = format!("{}close 1\nmean {silent} 1\nclose 1\n", means.collect::<String>());
        let (mut book, mut numbers) = (firm.clone(), Vec::new());
        let journal = records(calls).unwrap();
        let mut place = 0;
        while let Ok((call, next)) = crate::record::read(&journal, place) {
            numbers.push(book.apply(&call).err());
            place = next;
        }
        assert_eq!(numbers[299..], [Some(Number::NoRealDemand), None, None], "{silent}");
        assert_eq!(book.stage, Stage::Closed);
    }
}

#[test]
fn firm_demands_of_300_consumers_add_up_to_dmp() {
    for dmp in [1, 299, 300, 301, 2_999_999, 3_000_000] {
        let declarations: String = (1..=300).rev().map(|c| format!("declare {c} {} 0\n", c * c % 1_009)).collect();
        let book = run(&format!("year 720 120 4\n{declarations}fix {dmp}\n")).book;
        assert_eq!(book.consumers.iter().flatten().map(|consumer| consumer.firm).sum::<u64>(), dmp);
        let declared: u64 = (1..=300).map(|c: u64| c * c % 1_009).sum();
        for (place, consumer) in book.consumers.iter().flatten().enumerate() {
            let whole = (dmp * u64::from(consumer.d)) / declared;
            assert!([whole, whole + 1].contains(&consumer.firm), "{place}");
        }
    }
}
