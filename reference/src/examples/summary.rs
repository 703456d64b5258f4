//! The run in five lines and in eight figures, and the first refused record of 02 "A3".

use super::{after_j, run, CASE_J};
use crate::journal;
use crate::random;
use crate::summary::{figures, lines};
use crate::text;

/// The five lines of case J.
const J_LINES: &str = "\
records read: 16
accepted: 15
refused: 1
reading stopped at byte 172: end of journal
first refused record at byte 123: 11 producer's balances + q exceed its units' efficient offers
";

/// The last line of the run of a journal written as text.
fn first_refused(text: &str) -> String {
    lines(&run(text)).lines().last().expect("a run has lines").to_string()
}

#[test]
fn case_j() {
    assert_eq!(lines(&run(CASE_J)), J_LINES);
    assert_eq!(figures(&run(CASE_J)), [16, 15, 1, 0, 172, 1, 123, 11]);
}

#[test]
fn no_bytes() {
    let expected = "records read: 0\naccepted: 0\nrefused: 0\nreading stopped at byte 0: end of journal\n\
                    no record refused\n";
    assert_eq!(lines(&journal::run(b"")), expected);
    assert_eq!(figures(&journal::run(b"")), [0; 8]);
}

#[test]
fn nothing_refused() {
    let expected = "records read: 9\naccepted: 9\nrefused: 0\nreading stopped at byte 123: end of journal\n\
                    no record refused\n";
    assert_eq!(lines(&run(&after_j(9, ""))), expected);
    assert_eq!(figures(&run(&after_j(9, ""))), [9, 9, 0, 0, 123, 0, 0, 0]);
}

#[test]
fn a_stop_behind_a_refusal() {
    let journal = text::records(CASE_J).unwrap();
    for (more, number, condition) in
        [(&b"Y"[..], 1, "1 record cut short"), (b"\0\0", 2, "2 unknown mark"), (b"CLx", 1, "1 record cut short")]
    {
        let run = journal::run(&[&journal[..], more].concat());
        assert_eq!(lines(&run), J_LINES.replace("end of journal", condition));
        assert_eq!(figures(&run), [16, 15, 1, number, 172, 1, 123, 11]);
    }
    let cut = journal::run(&journal[..171]);
    assert!(lines(&cut).contains("\nreading stopped at byte 168: 1 record cut short\nfirst refused record at byte 123"));
    assert_eq!(figures(&cut), [15, 14, 1, 1, 168, 1, 123, 11]);
}

#[test]
fn a_stop_without_a_refusal() {
    let journal = text::records(CASE_J).unwrap();
    assert_eq!(figures(&journal::run(&journal[..124])), [9, 9, 0, 1, 123, 0, 0, 0]);
    let foreign = journal::run(b"year 720 120 4\n");
    assert_eq!(figures(&foreign), [0, 0, 0, 2, 0, 0, 0, 0]);
    assert!(lines(&foreign).ends_with("\nreading stopped at byte 0: 2 unknown mark\nno record refused\n"));
}

#[test]
fn the_first_refusal_at_place_0() {
    let text = format!("fix 5\n{CASE_J}");
    assert_eq!(figures(&run(&text)), [17, 15, 2, 0, 178, 1, 0, 4]);
    assert_eq!(first_refused(&text), "first refused record at byte 0: 4 stage");
    assert_eq!(figures(&run("fix 0\n")), [1, 0, 1, 0, 6, 1, 0, 3]);
}

#[test]
fn the_earliest_of_several_is_named() {
    assert_eq!(figures(&run(&after_j(10, "commit 1 2 3000000\nmeter 9 1"))), [12, 9, 3, 0, 146, 1, 123, 11]);
    assert_eq!(figures(&run("year 720 120 4\nfix 1\nfix 0\nyear 1 1 1\n")), [4, 1, 3, 0, 26, 1, 7, 13]);
    assert_eq!(figures(&run("year 720 120 4\nfix 0\nfix 1\nyear 1 1 1\n")), [4, 1, 3, 0, 26, 1, 7, 3]);
}

#[test]
fn the_last_record_may_be_the_first_refused() {
    assert_eq!(figures(&run(&after_j(10, ""))), [10, 9, 1, 0, 131, 1, 123, 11]);
}

/// A year whose close at 2,500 meets 19: 67 consumers are charged for 3,000,000 kW each.
fn charged() -> String {
    let declarations: String = (2..=68).map(|consumer| format!("declare {consumer} 0 1\n")).collect();
    let readings: String = (1..=68).map(|consumer| format!("meter {consumer} 3000000\n")).collect();
    format!("year 720 120 4\ndeclare 1 1 1\n{declarations}fix 1\n{readings}")
}

#[test]
fn each_number_has_the_words_of_its_row() {
    let unit = "year 720 120 4\nunit 1 1 1 17 0 0 0 0 0\n";
    let firm = "year 720 120 4\ndeclare 1 1 1\nfix 3000000\n";
    let metered = "year 720 120 4\ndeclare 1 1 1\nfix 3000000\nmeter 1 2\n";
    for (before, call, row) in [
        ("", "close 0", "3 field outside its range; a division's T, weights or their number"),
        ("", "close 1", "4 stage"),
        (unit, "unit 1 1 1 17 0 0 0 0 0", "5 unit already enrolled"),
        (unit, "test 2 0 0 4 0", "6 unit not enrolled"),
        (unit, "test 1 1 0 4 0", "7 component foreign to kind"),
        (unit, "test 1 0 0 4 0", "8 ending 0 with count not TC; ending 1 or 2 with count TC or more"),
        (unit, "availability 1 0 0 0 0 0", "9 HD + HIF + HMP is 0 or above 1,052,640, or HED > HD + HMP"),
        (firm, "meter 9 1", "10 consumer not declared (commit, release, meter, mean)"),
        (firm, "mean 9 1", "10 consumer not declared (commit, release, meter, mean)"),
        (firm, "commit 1 1 1", "11 producer's balances + q exceed its units' efficient offers"),
        (firm, "release 1 1 1", "12 q above the pair's balance"),
        (unit, "fix 1", "13 weights sum to 0"),
        (metered, "close 1", "14 a DFA above 3,000,000"),
        (&charged(), "close 2500", "19 charges above 6,000,000,000,000 cents"),
        (firm, "close 1", "16 close while a declared consumer has neither a reading nor a mean"),
    ] {
        let place = text::records(before).unwrap().len();
        assert_eq!(first_refused(&format!("{before}{call}\n")), format!("first refused record at byte {place}: {row}"));
    }
}

#[test]
fn the_first_refused_is_the_first_reply_above_0() {
    for number in 0..400 {
        let mut first = None;
        let run = journal::run_with(&random::journal(10, number), |place, _, reply| {
            if reply > 0 {
                first.get_or_insert((place as u64, u64::from(reply)));
            }
        });
        let [read, accepted, refused, .., named, place, met] = figures(&run);
        assert_eq!((named, place, met), first.map_or((0, 0, 0), |(place, met)| (1, place, met)));
        assert_eq!((read, named), (accepted + refused, u64::from(refused > 0)));
    }
}
