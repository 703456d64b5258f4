//! What the program says in words of an input that was read.

use super::CASE_J;
use crate::desk::{desk, parts};
use crate::journal;
use crate::listing;
use crate::page;
use crate::random;
use crate::summary;
use crate::text;

/// The replies of a journal in words, and what standard error gets.
fn said(journal: &[u8]) -> (String, String) {
    let said = desk(journal);
    (said.replies, said.findings)
}

/// The replies of case J in words.
const REPLIES: &str = "\
0 year 720 120 4: 0 accepted
7 unit 1 1 1 17 0 0 0 0 0: 0 accepted
33 test 1 0 0 4 4 2500 2500 2500 2500: 0 accepted
56 availability 1 0 900 60 40 10: 0 accepted
76 declare 1 1000 1000: 0 accepted
87 declare 2 1000 1100: 0 accepted
98 declare 3 1000 1000: 0 accepted
109 fix 10000: 0 accepted
115 commit 1 1 9000: 0 accepted
123 commit 1 2 501: 11 above the producer's efficient offers
131 release 1 1 1000: 0 accepted
139 commit 1 2 1500: 0 accepted
147 meter 1 900: 0 accepted
154 meter 2 1200: 0 accepted
161 meter 3 1000: 0 accepted
168 close 890: 0 accepted
172 end of journal
";

/// What standard error gets of case J.
const FINDINGS: &str =
    "yearbook: 1 of 16 records refused, the first at byte 123: 11 above the producer's efficient offers\n";

#[test]
fn case_j_in_words() {
    let journal = text::records(CASE_J).unwrap();
    assert_eq!(said(&journal), (REPLIES.to_string(), FINDINGS.to_string()));
}

#[test]
fn a_stop_is_said_behind_the_refusals() {
    let journal = text::records(CASE_J).unwrap();
    let whole = REPLIES.strip_suffix("172 end of journal\n").unwrap();
    for (more, number) in
        [(&b"Y"[..], "1 record cut short"), (b"\0\0", "2 unknown mark"), (b"CLx", "1 record cut short")]
    {
        let replies = format!("{whole}172 stop: {number}\n");
        let findings = format!("{FINDINGS}yearbook: reading stopped at byte 172: {number}\n");
        assert_eq!(said(&[&journal[..], more].concat()), (replies, findings));
    }
}

#[test]
fn nothing_is_found_where_all_went_well() {
    assert_eq!(said(b""), ("0 end of journal\n".to_string(), String::new()));
    let journal = text::records("year 720 120 4\n").unwrap();
    assert_eq!(said(&journal), ("0 year 720 120 4: 0 accepted\n7 end of journal\n".to_string(), String::new()));
}

#[test]
fn a_stop_without_a_refusal_is_said_alone() {
    let stop = "yearbook: reading stopped at byte 0: 2 unknown mark\n";
    assert_eq!(said(b"year 720 120 4\n"), ("0 stop: 2 unknown mark\n".to_string(), stop.to_string()));
}

#[test]
fn each_number_of_a_call_has_its_meaning() {
    let text = "commit 1 1 1\nyear 720 120 4\nunit 1 1 9 0 0 0 0 0 0\nunit 1 1 1 17 0 0 0 0 0\n\
                unit 1 1 1 17 0 0 0 0 0\ntest 2 0 0 4 0\ntest 1 1 0 4 0\ntest 1 0 0 4 0\n\
                availability 1 0 0 0 0 0\nfix 1\ndeclare 1 1 1\nfix 3000000\nmeter 9 1\ncommit 1 1 1\n\
                release 1 1 1\nclose 890\nmeter 1 2\nclose 890\nmean 9 300\nmean 1 0\n";
    let expected = "\
0 commit 1 1 1: 4 not in this stage
8 year 720 120 4: 0 accepted
15 unit 1 1 9 0 0 0 0 0 0: 3 field outside its range
41 unit 1 1 1 17 0 0 0 0 0: 0 accepted
67 unit 1 1 1 17 0 0 0 0 0: 5 unit already enrolled
93 test 2 0 0 4 0: 6 unit not enrolled
100 test 1 1 0 4 0: 7 component foreign to kind
107 test 1 0 0 4 0: 8 count of readings against the full time
114 availability 1 0 0 0 0 0: 9 minutes that cannot be
134 fix 1: 13 weights sum to 0
140 declare 1 1 1: 0 accepted
151 fix 3000000: 0 accepted
157 meter 9 1: 10 consumer not declared
164 commit 1 1 1: 11 above the producer's efficient offers
172 release 1 1 1: 12 above the pair's balance
180 close 890: 16 consumer without a reading or a mean
184 meter 1 2: 0 accepted
191 close 890: 14 adjusted demand above 3,000,000 kW
195 mean 9 300: 10 consumer not declared
202 mean 1 0: 0 accepted
209 end of journal
";
    let findings = "yearbook: 14 of 20 records refused, the first at byte 0: 4 not in this stage\n";
    let journal = text::records(text).unwrap();
    assert_eq!(said(&journal), (expected.to_string(), findings.to_string()));
}

#[test]
fn a_test_shows_at_most_96_readings() {
    for (count, shown) in [(95, 95), (96, 96), (97, 96), (255, 96)] {
        let call = |most: usize| format!("test 1 0 0 96 {count}{}", " 7".repeat(most));
        let journal = text::records(call(count)).unwrap();
        assert!(said(&journal).0.starts_with(&format!("0 {}: ", call(shown))));
    }
}

/// What standard error gets behind the findings where there is no page.
const NO_PAGE: &str = "yearbook: no page, the year is not closed: 4 not in this stage\n";

#[test]
fn a_page_has_the_findings_beside_it() {
    let journal = text::records(CASE_J).unwrap();
    for more in ["", "close 890\n"] {
        let said = desk(&[&journal[..], &text::records(more).unwrap()].concat());
        assert_eq!(Ok(said.page), page::page(&journal::run(&journal).book));
        assert_eq!(said.page_findings, said.findings);
    }
}

#[test]
fn no_page_is_said_behind_the_findings() {
    let journal = text::records(CASE_J).unwrap();
    for length in [0, 7, 122, 168, 171] {
        let said = desk(&journal[..length]);
        assert_eq!((said.page, said.page_findings), (String::new(), format!("{}{NO_PAGE}", said.findings)));
    }
    assert_eq!(desk(b"").page_findings, NO_PAGE);
}

#[test]
fn an_input_of_more_than_65_536_bytes_is_not_read() {
    let full = text::records("close 1\n").unwrap().repeat(65_536 / 4);
    let (replies, findings) = said(&full);
    assert!(replies.ends_with("\n65532 close 1: 4 not in this stage\n65536 end of journal\n"));
    assert_eq!(findings, "yearbook: 16384 of 16384 records refused, the first at byte 0: 4 not in this stage\n");
    let expected = ("X\n".to_string(), "yearbook: input longer than 65536 bytes, nothing read\n".to_string());
    let longer = [&full[..], b"C"].concat();
    assert_eq!(said(&longer), expected);
    assert_eq!((desk(&longer).page, desk(&longer).page_findings), expected);
    assert_eq!((desk(&longer).run.as_bytes(), desk(&longer).narrow), (b"X\n".as_slice(), b"X\n".to_vec()));
    assert_eq!(desk(&longer).narrow_findings, expected.1);
    assert_eq!((desk(&full).narrow, desk(&full).narrow_findings), (full, String::new()));
}

#[test]
fn the_parts_follow_each_other_behind_their_lengths() {
    let stopped = "yearbook: reading stopped at byte 0: 1 record cut short\n";
    let expected = "8\nR 0 0 0\n27\n0 stop: 1 record cut short\n".to_string();
    let [cut, none] = [&b"Y"[..], b""].map(|journal| summary::lines(&journal::run(journal)));
    let expected = format!("{expected}56\n{stopped}0\n119\n{stopped}{NO_PAGE}103\n{cut}0\n");
    let narrowed = "yearbook: no journal for 64 consumers, at byte 0: 1 record cut short\n";
    assert_eq!(parts(b"Y"), format!("{expected}{}\n{narrowed}", narrowed.len()).as_bytes());
    let expected = format!("8\nR 0 0 0\n17\n0 end of journal\n0\n0\n63\n{NO_PAGE}99\n{none}0\n0\n");
    assert_eq!(parts(b""), expected.as_bytes());
}

#[test]
fn the_listing_is_that_of_the_program_and_the_run_is_beside_it() {
    for number in 0..200 {
        let journal = random::journal(6, number);
        let said = desk(&journal);
        assert_eq!(said.listing, listing::yearbook(&journal));
        let is_read = journal.len() <= listing::MOST_BYTES;
        let lines = if is_read { summary::lines(&journal::run(&journal)) } else { "X\n".to_string() };
        assert_eq!(said.run, lines);
    }
}
