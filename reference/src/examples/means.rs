//! The means of 02 "A4", in case J of 01 "Journal in, listing out": DMP 10,000 and ΣD 3,000, so that DFA = Dreal·10 / 3.

use super::{after_j, last, listed, replies, reply_lines, run, CASE_J};
use crate::text;

/// The lines S and T of case J with these calls in place of the reading of consumer 2.
fn settled(calls: &str) -> String {
    let listing = listed(&CASE_J.replace("meter 2 1200\n", calls));
    listing.lines().filter(|line| line.starts_with(['S', 'T'])).map(|line| format!("{line}\n")).collect()
}

/// Consumer 2 with a Dreal of 1,300: DFA 4,333, ADF 3,333 - 4,333 = -1,000, charge 1,000·890·12; all of it to consumer 1.
const AT_1300: &str = "S 1 334 10680000\nS 2 -1000 -10680000\nS 3 0 0\nT 10680000 10680000 0\n";

/// Consumer 2 with a Dreal of 12: DFA 40, ADF 3,333 - 40 = 3,293, no charge.
const AT_12: &str = "S 1 334 0\nS 2 3293 0\nS 3 0 0\nT 0 0 0\n";

/// Consumer 2 with a Dreal of 0: DFA 0, ADF 3,333, no charge.
const AT_0: &str = "S 1 334 0\nS 2 3333 0\nS 3 0 0\nT 0 0 0\n";

#[test]
fn a_mean_without_a_reading_is_the_real_demand() {
    assert_eq!(settled("mean 2 1300\n"), AT_1300);
    assert_eq!(settled("meter 2 1300\n"), AT_1300);
}

#[test]
fn case_j_with_means_for_readings_has_its_listing() {
    assert_eq!(listed(&CASE_J.replace("meter ", "mean ")), listed(CASE_J));
    for consumer in 1..=3 {
        let meter = format!("meter {consumer} ");
        assert_eq!(listed(&CASE_J.replace(&meter, &format!("mean {consumer} "))), listed(CASE_J));
    }
}

#[test]
fn a_mean_is_used_behind_a_reading_and_before_one() {
    assert_eq!(settled("meter 2 12\nmean 2 1300\n"), AT_1300);
    assert_eq!(settled("mean 2 1300\nmeter 2 12\n"), AT_1300);
    assert_eq!(settled("mean 2 12\nmeter 2 1300\n"), AT_12);
    assert_eq!(settled("meter 2 1\nmean 2 1300\nmeter 2 12\nmeter 2 3000000\n"), AT_1300);
}

#[test]
fn a_later_mean_replaces_the_earlier() {
    assert_eq!(settled("mean 2 12\nmean 2 1300\n"), AT_1300);
    assert_eq!(settled("mean 2 1300\nmean 2 12\n"), AT_12);
    assert_eq!(settled("mean 2 1300\nmeter 2 1300\nmean 2 12\n"), AT_12);
    assert_eq!(settled("mean 2 1300\nmean 2 3000001\nmean 9 12\n"), AT_1300);
}

#[test]
fn a_mean_of_0_is_a_mean() {
    assert_eq!(settled("mean 2 0\n"), AT_0);
    assert_eq!(settled("mean 2 0\nmeter 2 1300\n"), AT_0);
    assert_eq!(settled("meter 2 1300\nmean 2 0\n"), AT_0);
    assert_eq!(settled("meter 2 0\n"), AT_0);
}

#[test]
fn a_mean_meets_14_until_another_replaces_it() {
    // 900,001·10 / 3 is 3,000,003, above 3,000,000, and no reading lowers it; 900,000·10 / 3 is exactly 3,000,000.
    let text = after_j(12, "mean 2 900001\nmeter 1 900\nmeter 3 1000\nclose 890\nmeter 2 12\nclose 890\n");
    let text = format!("{text}mean 2 900000\nclose 890\n");
    assert_eq!(replies(&text)[12..], [0, 0, 0, 14, 0, 14, 0, 0]);
    // ADF 3,333 - 3,000,000 = -2,996,667, charge 2,996,667·890·12.
    assert!(listed(&text).contains("S 1 334 32004403560\nS 2 -2996667 -32004403560\nS 3 0 0\n"));
}

#[test]
fn a_mean_for_the_undeclared_meets_10() {
    assert_eq!(replies(&after_j(8, "mean 4 1\nmean 64 0\nmean 9 300"))[8..], [10, 10, 10]);
    assert_eq!(run(&after_j(8, "mean 9 300")).book, run(&after_j(8, "")).book);
}

#[test]
fn a_mean_belongs_to_stage_firm() {
    for count in [0, 1, 4, 7, 16] {
        let (before, after) = (after_j(count, ""), after_j(count, "mean 1 300"));
        assert_eq!(replies(&after)[count], 4, "{count}");
        assert_eq!(run(&after).book, run(&before).book);
    }
}

#[test]
fn one_silent_consumer_stops_the_close_and_changes_nothing() {
    for silent in ["meter 1 900\n", "meter 2 1200\n", "meter 3 1000\n"] {
        let text = CASE_J.replace(silent, "");
        assert_eq!(last(&text), 16);
        assert_eq!(run(&text).book, run(&text.replace("close 890\n", "")).book);
        // Its mean, or its reading, lets the close pass.
        for call in [&silent.replace("meter", "mean"), silent] {
            assert!(listed(&format!("{text}{call}close 890\n")).ends_with("\nT 7123560 7123560 0\nR 17 15 2\n"));
        }
    }
}

#[test]
fn number_16_is_tested_over_every_consumer_before_14_over_any() {
    // 3,000,000·10 / 3 is 10,000,000; the silent consumer stands behind the one above 3,000,000, then before it.
    for (above, silent) in [(1, 3), (3, 1)] {
        let calls = format!("meter 2 1200\nmeter {above} 3000000\nclose 890\nmean {silent} 0\nclose 890\n");
        let text = after_j(12, &format!("{calls}mean {above} 900\nclose 890"));
        assert_eq!(replies(&text)[12..], [0, 0, 16, 0, 14, 0, 0]);
    }
    let text = after_j(12, "close 890\nmean 1 3000000\nclose 890\nmean 2 3000000\nclose 890\nmean 3 0\nclose 890");
    assert_eq!(replies(&text)[12..], [16, 0, 16, 0, 16, 0, 14]);
}

#[test]
fn only_declared_consumers_need_a_reading_or_a_mean() {
    let text = "year 720 120 4\ndeclare 33 5 5\nfix 8\nmean 33 5\nclose 1\n";
    assert_eq!(listed(text), "D 33 8\nS 33 0 0\nT 0 0 0\nR 5 5 0\n");
    // One that declared 0 kW is declared.
    let text = "year 720 120 4\ndeclare 33 5 5\ndeclare 64 0 0\nfix 8\nmean 33 5\nclose 1\nmean 64 0\nclose 1\n";
    assert_eq!(replies(text), [0, 0, 0, 0, 0, 16, 0, 0]);
}

#[test]
fn every_place_of_a_byte_is_looked_at() {
    let mut text = "year 720 120 4\n".to_string();
    (1..=64).for_each(|consumer| text += &format!("declare {consumer} 1 1\n"));
    text += "fix 64\n";
    for silent in 1..=64 {
        let mut calls = text.clone();
        (1..=64).filter(|&consumer| consumer != silent).for_each(|consumer| calls += &format!("mean {consumer} 1\n"));
        assert_eq!(replies(&format!("{calls}close 1\nmean {silent} 1\nclose 1\n"))[129..], [16, 0, 0], "{silent}");
    }
}

#[test]
fn readings_and_means_before_the_fix_are_refused_and_do_not_count() {
    let text = "year 720 120 4\ndeclare 1 5 5\nmeter 1 5\nmean 1 5\nfix 8\nclose 1\n";
    assert_eq!(replies(text), [0, 0, 4, 4, 0, 16]);
}

#[test]
fn a_mean_has_seven_bytes() {
    let journal = text::records("mean 6 300\n").unwrap();
    assert_eq!(journal, [0x41, 0x54, 6, 0x2C, 1, 0, 0]);
    assert_eq!(reply_lines(&journal), "0 4\nstop 0 7\nR 1 0 1\n");
    for length in 1..7 {
        assert_eq!(reply_lines(&journal[..length]), "stop 1 0\nR 0 0 0\n");
    }
}
