//! Ranges and stages as the papers read them.

use super::{after_j, replies, run};
use crate::book::Stage;
use crate::number::Number;

/// The replies to calls each made alone in a blank book: 3 out of range, 0 or 4 in range.
fn refused_by_range(calls: &[&str]) -> Vec<bool> {
    calls.iter().map(|call| replies(call)[0] == 3).collect()
}

/// Every call is out of range.
fn all_out(calls: &[&str]) {
    assert_eq!(refused_by_range(calls), vec![true; calls.len()], "{calls:?}");
}

/// Every call is in range.
fn all_in(calls: &[&str]) {
    assert_eq!(refused_by_range(calls), vec![false; calls.len()], "{calls:?}");
}

#[test]
fn ranges_of_year_fix_and_close() {
    all_in(&["year 1 744 24", "year 744 1 1", "fix 1", "fix 3000000", "close 1", "close 2500"]);
    all_out(&["year 0 1 1", "year 745 1 1", "year 1 0 1", "year 1 745 1", "year 1 1 0", "year 1 1 25"]);
    all_out(&["fix 0", "fix 3000001", "close 0", "close 2501"]);
}

#[test]
fn ranges_of_unit() {
    all_in(&["unit 48 16 1 31 3000000 0 0 0 0", "unit 1 1 1 8 0 0 0 0 0", "unit 1 1 2 0 0 3000000 0 0 0"]);
    all_in(&["unit 1 1 3 15 0 0 4000000000 0 0", "unit 1 1 7 0 0 0 0 0 0"]);
    all_in(&["unit 1 1 8 0 0 0 4000000000 4000000000 4000000000"]);
    all_out(&["unit 0 1 1 0 0 0 0 0 0", "unit 49 1 1 0 0 0 0 0 0", "unit 1 0 1 0 0 0 0 0 0"]);
    all_out(&["unit 1 17 1 0 0 0 0 0 0", "unit 1 1 0 0 0 0 0 0 0", "unit 1 1 9 0 0 0 0 0 0"]);
    all_out(&["unit 1 1 1 0 1 0 0 0 0", "unit 1 1 1 8 3000001 0 0 0 0", "unit 1 1 1 32 0 0 0 0 0"]);
    all_out(&["unit 1 1 1 64 0 0 0 0 0", "unit 1 1 1 128 0 0 0 0 0", "unit 1 1 2 0 0 3000001 0 0 0"]);
    all_out(&["unit 1 1 1 0 0 1 0 0 0", "unit 1 1 1 0 0 0 1 0 0", "unit 1 1 1 0 0 0 0 1 0", "unit 1 1 1 0 0 0 0 0 1"]);
    for kind in 3..=8 {
        all_in(&[&format!("unit 1 1 {kind} 15 7 0 4000000000 0 0")]);
        all_out(&[&format!("unit 1 1 {kind} 16 0 0 0 0 0"), &format!("unit 1 1 {kind} 0 0 1 0 0 0")]);
        all_out(&[&format!("unit 1 1 {kind} 0 0 0 4000000001 0 0")]);
        let storage = [&*format!("unit 1 1 {kind} 0 0 0 0 1 0"), &*format!("unit 1 1 {kind} 0 0 0 0 0 1")];
        if kind == 8 {
            all_in(&storage);
        } else {
            all_out(&storage);
        }
    }
    all_out(&["unit 1 1 8 0 0 0 0 4000000001 0", "unit 1 1 8 0 0 0 0 0 4000000001", "unit 1 1 2 0 0 0 1 0 0"]);
}

#[test]
fn ranges_of_test_and_availability() {
    let many = |count: usize| format!("test 1 0 0 96 {count}{}", " 750000".repeat(count));
    all_in(&["test 48 2 2 4 0", "test 1 0 0 4 1 750000", &many(96), "availability 48 2 1052640 0 0 0"]);
    all_out(&["test 0 0 0 4 0", "test 49 0 0 4 0", "test 1 3 0 4 0", "test 1 0 3 4 0", "test 1 0 0 3 0"]);
    all_out(&["test 1 0 0 97 0", "test 1 0 1 4 1 750001", &many(97), &many(255)]);
    all_out(&["availability 0 0 1 0 0 0", "availability 49 0 1 0 0 0", "availability 1 3 1 0 0 0"]);
    all_out(&["availability 1 0 1052641 0 0 0", "availability 1 0 0 1052641 0 0"]);
    all_out(&["availability 1 0 0 0 1052641 0", "availability 1 0 0 0 0 1052641"]);
}

#[test]
fn ranges_of_declare_commit_release_meter_and_mean() {
    for consumer in [1, 64, 65, 255, 256, 300] {
        all_in(&[&format!("declare {consumer} 3000000 3000000"), &format!("declare {consumer} 0 0")]);
        all_out(&[&format!("declare {consumer} 3000001 1"), &format!("declare {consumer} 1 3000001")]);
        all_in(&[&format!("meter {consumer} 3000000"), &format!("meter {consumer} 0")]);
        all_in(&[&format!("mean {consumer} 3000000"), &format!("mean {consumer} 0")]);
        all_out(&[&format!("meter {consumer} 3000001"), &format!("mean {consumer} 3000001")]);
        for name in ["commit", "release"] {
            all_in(&[&format!("{name} 16 {consumer} 3000000"), &format!("{name} 1 {consumer} 1")]);
            all_out(&[&format!("{name} 0 {consumer} 1"), &format!("{name} 17 {consumer} 1")]);
            all_out(&[&format!("{name} 1 {consumer} 0"), &format!("{name} 1 {consumer} 3000001")]);
        }
    }
    for consumer in [0, 301, 512, 65_535] {
        all_out(&[&format!("declare {consumer} 1 1"), &format!("meter {consumer} 1"), &format!("mean {consumer} 1")]);
        all_out(&[&format!("commit 1 {consumer} 1"), &format!("release 1 {consumer} 1")]);
    }
}

/// One call of each name, in range.
const ALL: &str = "unit 2 1 1 0 0 0 0 0 0\ntest 1 0 2 4 0\navailability 1 0 1 0 0 0\ndeclare 1 1 1\n\
                   commit 1 1 1\nrelease 1 1 1\nmeter 1 1\nmean 1 1\n";

#[test]
fn each_call_belongs_to_its_stage() {
    assert_eq!(replies(&format!("{ALL}fix 1\nclose 1\n")), [4; 10]);
    assert_eq!(replies(&after_j(4, &format!("{ALL}close 1\nyear 720 120 4")))[4..], [0, 0, 0, 0, 4, 4, 4, 4, 4, 4]);
    let firm = replies(&after_j(8, &format!("{ALL}meter 2 1\nmean 3 1\nfix 1\nyear 720 120 4\nclose 1")));
    assert_eq!(firm[8..], [4, 4, 4, 4, 0, 0, 0, 0, 0, 0, 4, 4, 0]);
    let closed = replies(&after_j(16, &format!("{ALL}fix 1\nclose 1\nyear 720 120 4")));
    assert_eq!(closed[16..], [4; 11]);
}

#[test]
fn a_fix_that_met_13_leaves_the_book_gathering() {
    let run = run("year 720 120 4\nfix 1\n");
    assert_eq!(run.book.stage, Stage::Gathering);
    assert_eq!((run.read, run.accepted, run.refused, run.first_refused), (2, 1, 1, Some((7, Number::NoWeight))));
}

#[test]
fn a_run_without_a_refusal_names_no_place() {
    assert_eq!(run("").first_refused, None);
    assert_eq!(run("year 720 120 4\n").first_refused, None);
    assert_eq!(run("fix 1\n").first_refused, Some((0, Number::Stage)));
}

#[test]
fn refused_calls_leave_the_book_as_it_was() {
    for refused in [
        "unit 1 1 1 0 0 0 0 0 0",
        "test 1 0 0 4 3 9 9 9",
        "availability 1 0 0 0 0 0",
        "close 0",
        "meter 1 1",
        "mean 1 1",
    ] {
        assert_eq!(run(&after_j(4, refused)).book, run(&after_j(4, "")).book);
    }
    for refused in
        ["commit 1 1 9501", "release 1 1 1", "meter 9 1", "declare 1 1 1", "mean 9 1", "mean 1 3000001", "close 1"]
    {
        assert_eq!(run(&after_j(8, refused)).book, run(&after_j(8, "")).book);
    }
}
