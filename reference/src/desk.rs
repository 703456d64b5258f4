//! What the program `yearbook` prints of an input that was read: listing, replies in words, printed close, the run, the journal for 64 consumers,
//! and standard error.

use std::fmt::Write;

use crate::journal::{self, Run};
use crate::lines::write_call;
use crate::listing::{self, MOST_BYTES};
use crate::narrow::{self, Met};
use crate::number::in_words;
use crate::page;
use crate::summary;

/// 01 "Journal records", count: a line of the replies shows no more readings of a test.
const MOST_READINGS: usize = 96;

/// What the program prints without a word, with `replies`, with `page`, with `run` and with `narrow`, and what standard error gets.
#[derive(Debug, PartialEq, Eq)]
pub struct Desk {
    pub listing: Vec<u8>,
    pub replies: String,
    /// Standard error without a word, with `replies` and with `run`.
    pub findings: String,
    pub page: String,
    /// Standard error with `page`.
    pub page_findings: String,
    pub run: String,
    pub narrow: Vec<u8>,
    /// Standard error with `narrow`.
    pub narrow_findings: String,
}

/// 01 "Journal in, listing out": all that is printed of an input, of which one byte above the limit is enough.
pub fn desk(input: &[u8]) -> Desk {
    if input.len() > MOST_BYTES {
        let findings = format!("yearbook: input longer than {MOST_BYTES} bytes, nothing read\n");
        let [page_findings, narrow_findings] = [&findings; 2].map(String::clone);
        let [listing, narrow] = [b"X\n"; 2].map(|line| line.to_vec());
        let [replies, page, run] = ["X\n"; 3].map(str::to_string);
        return Desk { listing, replies, findings, page, page_findings, run, narrow, narrow_findings };
    }
    let mut replies = String::new();
    let run = journal::run_with(input, |place, call, number| {
        write!(replies, "{place} ").expect("replies are written to memory");
        write_call(call, MOST_READINGS, &mut replies);
        writeln!(replies, ": {}", in_words(number)).expect("replies are written to memory");
    });
    replies.push_str(&end(&run));
    let findings = findings(&run);
    let (page, page_findings) = printed(&run, &findings);
    let (narrow, narrow_findings) = narrowed(input);
    let (listing, run) = (listing::listing(&run), summary::lines(&run));
    Desk { listing, replies, findings, page, page_findings, run, narrow, narrow_findings }
}

/// 01 "Journal records": the last line of the replies, the journal's end or the stop.
fn end(run: &Run) -> String {
    let place = run.place;
    match run.stop {
        None => format!("{place} end of journal\n"),
        Some(stop) => format!("{place} stop: {}\n", in_words(stop as u8)),
    }
}

/// 01 "Journal records": how many records were refused and the first of them, and where the reading stopped.
fn findings(run: &Run) -> String {
    let mut lines = String::new();
    if let Some((place, number)) = run.first_refused {
        let Run { refused, read, .. } = run;
        let first = in_words(number as u8);
        lines += &format!("yearbook: {refused} of {read} records refused, the first at byte {place}: {first}\n");
    }
    if let Some(stopped) = run.stopped() {
        lines += &format!("yearbook: {stopped}\n");
    }
    lines
}

/// 02 "A1": the page, or why there is none, said behind the other findings.
fn printed(run: &Run, findings: &str) -> (String, String) {
    match page::page(&run.book) {
        Ok(page) => (page, findings.to_string()),
        Err(number) => {
            let refused = format!("yearbook: no page, the year is not closed: {}\n", in_words(number as u8));
            (String::new(), format!("{findings}{refused}"))
        }
    }
}

/// 02 "A7": the journal for 64 consumers, its own bytes, or the record that decided that there is none.
fn narrowed(journal: &[u8]) -> (Vec<u8>, String) {
    match narrow::check(journal) {
        Ok(()) => (journal.to_vec(), String::new()),
        Err(Met { place, number }) => {
            let met = in_words(number as u8);
            (Vec::new(), format!("yearbook: no journal for 64 consumers, at byte {place}: {met}\n"))
        }
    }
}

/// The eight parts, listing, replies, findings, page and findings with it, the run, the journal for 64 consumers and findings with it, each behind a
/// line with its length in bytes.
pub fn parts(input: &[u8]) -> Vec<u8> {
    let Desk { listing, replies, findings, page, page_findings, run, narrow, narrow_findings } = desk(input);
    let [replies, findings, page, page_findings, run, narrow_findings] =
        [replies, findings, page, page_findings, run, narrow_findings].map(String::into_bytes);
    let mut parts = Vec::new();
    for part in [listing, replies, findings, page, page_findings, run, narrow, narrow_findings] {
        parts.extend_from_slice(format!("{}\n", part.len()).as_bytes());
        parts.extend_from_slice(&part);
    }
    parts
}
