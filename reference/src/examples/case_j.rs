//! Case J of 01 "Journal in, listing out".

use super::{listed, reply_lines, run, CASE_J};
use crate::book::Stage;
use crate::listing;
use crate::number::Number;
use crate::record;
use crate::text;

/// 01 "Journal in, listing out": the listing of case J.
const LISTING: &str = "\
U 1 9500 9500
P 1 9500 9500
D 1 3334
D 2 3333
D 3 3333
S 1 334 7123560
S 2 -667 -7123560
S 3 0 0
T 7123560 7123560 0
R 16 15 1
";

#[test]
fn case_j_has_the_listing_of_the_paper() {
    let journal = text::records(CASE_J).unwrap();
    assert_eq!(listing::yearbook(&journal), LISTING.as_bytes());
}

#[test]
fn the_run_of_case_j_returns_its_counts_and_places() {
    let run = run(CASE_J);
    assert_eq!(run.book.stage, Stage::Closed);
    assert_eq!((run.read, run.accepted, run.refused), (16, 15, 1));
    assert_eq!((run.stop, run.place), (None, text::records(CASE_J).unwrap().len()));
    // The records before the refused commitment: 7 + 26 + 23 + 20 + 3 · 11 + 6 + 8 bytes.
    assert_eq!(run.first_refused, Some((123, Number::Offers)));
    assert_eq!(run.book.producers[0].balances[..3], [8000, 1500, 0]);
}

#[test]
fn case_j_is_refused_once_with_11() {
    let lines = reply_lines(&text::records(CASE_J).unwrap());
    let replies: Vec<&str> = lines.lines().take(17).collect();
    let expected = [
        "0 0",
        "7 0",
        "33 0",
        "56 0",
        "76 0",
        "87 0",
        "98 0",
        "109 0",
        "115 0",
        "123 11",
        "131 0",
        "139 0",
        "147 0",
        "154 0",
        "161 0",
        "168 0",
        "stop 0 172",
    ];
    assert_eq!(replies, expected);
    assert!(lines.ends_with(LISTING));
}

#[test]
fn letters_appear_by_stage() {
    assert_eq!(listed(""), "R 0 0 0\n");
    assert_eq!(listed(&super::after_j(7, "")), "R 7 7 0\n");
    assert_eq!(listed(&super::after_j(8, "")), "U 1 9500 9500\nP 1 9500 0\nD 1 3334\nD 2 3333\nD 3 3333\nR 8 8 0\n");
    assert!(listed(&super::after_j(15, "")).starts_with(&LISTING[..LISTING.find('S').unwrap()]));
}

#[test]
fn the_program_reads_65_536_bytes_and_no_more() {
    let close = record::bytes(&crate::call::Call::Close(1));
    let full = close.repeat(65_536 / 4);
    assert_eq!(listing::yearbook(&full), b"R 16384 0 16384\n");
    assert_eq!(listing::yearbook(&[&full[..], &[0]].concat()), b"X\n");
    assert_eq!(reply_lines(&[&full[..], &[0]].concat()).lines().last(), Some("R 16384 0 16384"));
}

#[test]
fn every_record_of_case_j_is_written_again_as_it_was_read() {
    let journal = text::records(CASE_J).unwrap();
    let mut place = 0;
    while place < journal.len() {
        let (call, next) = record::read(&journal, place).unwrap();
        let length = next - place;
        let mut buffer = vec![0xAA; length + 3];
        assert_eq!(record::write(&call, &mut buffer), Ok(length));
        assert_eq!(buffer[..length], journal[place..next]);
        assert_eq!(buffer[length..], [0xAA; 3]);
        place = next;
    }
}
