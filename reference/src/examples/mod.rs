//! The examples of the papers, run through the whole book.

mod case_j;
mod charges;
mod consumers;
mod desk;
mod means;
mod page;
mod replies;
mod stages;
mod summary;
mod thirteen;
mod watts;
mod years;

use crate::answers;
use crate::journal::{self, Run};
use crate::listing;
use crate::text;

/// 01 "Journal in, listing out": case J as text.
const CASE_J: &str = include_str!("../../cases/j.txt");

/// The run of a journal written as text.
fn run(text: &str) -> Run {
    journal::run(&text::records(text).expect("an example is readable"))
}

/// The listing of a journal written as text.
fn listed(text: &str) -> String {
    String::from_utf8(listing::listing(&run(text))).expect("a listing is text")
}

/// The replies to the calls of a journal written as text.
fn replies(text: &str) -> Vec<u8> {
    let journal = text::records(text).expect("an example is readable");
    let mut numbers = Vec::new();
    journal::run_with(&journal, |_, _, number| numbers.push(number));
    numbers
}

/// The reply to the last call of a journal written as text.
fn last(text: &str) -> u8 {
    *replies(text).last().expect("an example has a call")
}

/// Case J's first `count` calls, and some more.
fn after_j(count: usize, more: &str) -> String {
    let calls: Vec<&str> = CASE_J.lines().filter(|line| !line.starts_with('#')).take(count).collect();
    format!("{}\n{more}\n", calls.join("\n"))
}

/// The lines of the subcommand `replies` for a journal.
fn reply_lines(journal: &[u8]) -> String {
    String::from_utf8(answers::replies(journal)).expect("replies are text")
}
