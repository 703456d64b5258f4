//! Whole years whose figures are worked out by hand.

use super::{after_j, listed, replies, run};

#[test]
fn the_memory_of_a_void_trip_is_kept_by_unit_and_component() {
    let text = "year 720 120 4\nunit 1 1 8 0 0 0 0 0 0\nunit 2 1 8 0 0 0 0 0 0\n\
                test 1 1 2 5 1 100\ntest 1 2 2 5 1 100\ntest 2 1 2 5 1 100\ntest 1 1 2 5 1 100\n";
    let plants = run(text).book.plants;
    let (one, two) = (plants[0].unwrap(), plants[1].unwrap());
    assert_eq!((one.parts[1].power, one.parts[1].void_trip), (Some(80_000), false));
    assert_eq!((one.parts[2].power, one.parts[2].void_trip), (None, true));
    assert_eq!((two.parts[1].power, two.parts[1].void_trip), (None, true));
}

#[test]
fn later_results_availabilities_declarations_and_readings_replace_the_earlier() {
    let text = "year 720 120 4\nunit 7 3 1 17 0 0 0 0 0\ntest 7 0 0 4 4 9 9 9 9\ntest 7 0 0 4 4 25 25 25 25\n\
                test 7 0 1 4 3 99 99 99\navailability 7 0 1 0 0 0\navailability 7 0 1 0 1 0\n\
                declare 5 1 1\ndeclare 5 0 0\ndeclare 6 10 10\nfix 100\n\
                meter 5 0\nmeter 6 30\nmeter 6 10\nclose 1\n";
    assert_eq!(listed(text), "U 7 50 50\nP 3 50 0\nD 5 0\nD 6 100\nS 5 0 0\nS 6 0 0\nT 0 0 0\nR 15 15 0\n");
}

#[test]
fn pic_0_is_a_cap_of_0() {
    let text = "year 720 120 4\nunit 1 1 1 25 0 0 0 0 0\ntest 1 0 0 4 4 25 25 25 25\n\
                availability 1 0 1 0 0 0\ndeclare 1 1 1\nfix 1\ncommit 1 1 1\n";
    assert_eq!(replies(text)[6], 11);
    assert!(listed(text).starts_with("U 1 0 0\nP 1 0 0\n"));
}

#[test]
fn a_unit_without_a_supply_report_keeps_its_lines() {
    let text = "year 720 120 4\nunit 1 1 1 1 0 0 0 0 0\ntest 1 0 0 4 4 25 25 25 25\n\
                availability 1 0 1 0 0 0\ndeclare 1 1 1\nfix 1\n";
    assert_eq!(listed(text), "U 1 0 0\nP 1 0 0\nD 1 1\nR 6 6 0\n");
}

#[test]
fn storage_in_the_book() {
    let text = "year 720 120 4\nunit 1 2 8 1 0 0 2000 1200 800\ntest 1 0 0 4 4 250 250 250 250\n\
                test 1 1 0 4 4 150 150 150 150\ntest 1 2 0 4 4 100 100 100 100\n\
                availability 1 1 9 0 1 0\navailability 1 2 9 0 1 0\ndeclare 1 1 1\nfix 1\n";
    assert!(listed(text).starts_with("U 1 700 700\nP 2 700 0\n"));
    for missing in
        ["test 1 0 0 4 4 250 250 250 250\n", "availability 1 1 9 0 1 0\n", "test 1 1 0 4 4 150 150 150 150\n"]
    {
        assert!(listed(&text.replace(missing, "")).starts_with("U 1 0 0\nP 2 0 0\n"));
    }
}

/// The lines S and T of a year with these declarations, DMP 10,000, readings and price 1.
fn settled(declarations: &[(u32, u32)], readings: &[u32]) -> String {
    let mut text = "year 720 120 4\n".to_string();
    for (number, (d, a)) in (1..).zip(declarations) {
        text += &format!("declare {number} {d} {a}\n");
    }
    text += "fix 10000\n";
    for (number, reading) in (1..).zip(readings) {
        text += &format!("meter {number} {reading}\n");
    }
    text += "close 1\n";
    let listing = listed(&text);
    let start = listing.find('S').unwrap();
    listing[start..listing.find('R').unwrap()].to_string()
}

#[test]
fn a_charge_needs_100_d_below_98_a_strictly() {
    assert_eq!(settled(&[(9800, 10000), (200, 200)], &[9900, 100]), "S 1 -100 0\nS 2 100 0\nT 0 0 0\n");
    assert_eq!(settled(&[(9800, 10001), (200, 200)], &[9900, 100]), "S 1 -100 -1200\nS 2 100 1200\nT 1200 1200 0\n");
    assert_eq!(settled(&[(9800, 10001), (200, 200)], &[9800, 100]), "S 1 0 0\nS 2 100 0\nT 0 0 0\n");
    assert_eq!(settled(&[(9800, 3_000_000), (200, 200)], &[9799, 201]), "S 1 1 0\nS 2 -1 0\nT 0 0 0\n");
}

#[test]
fn credits_go_to_all_positive_adjustments() {
    // Consumer 1 declared below its projection too, and has a credit.
    let lines = settled(&[(2500, 3_000_000), (2500, 2500), (5000, 6000)], &[0, 0, 5001]);
    assert_eq!(lines, "S 1 2500 6\nS 2 2500 6\nS 3 -1 -12\nT 12 12 0\n");
    let lines = settled(&[(2500, 3_000_000), (2500, 2500), (5000, 6000)], &[0, 0, 0]);
    assert_eq!(lines, "S 1 2500 0\nS 2 2500 0\nS 3 5000 0\nT 0 0 0\n");
}

#[test]
fn ties_of_credits_go_to_the_lower_number() {
    let declarations = [(1000, 1000), (1000, 1000), (1000, 1000), (1000, 1000), (1000, 1000), (5000, 6000)];
    let lines = settled(&declarations, &[999, 999, 999, 999, 999, 5001]);
    assert_eq!(lines, "S 1 1 3\nS 2 1 3\nS 3 1 2\nS 4 1 2\nS 5 1 2\nS 6 -1 -12\nT 12 12 0\n");
}

#[test]
fn without_charges_and_positive_adjustments_all_is_0() {
    assert_eq!(settled(&[(10000, 10000)], &[10001]), "S 1 -1 0\nT 0 0 0\n");
    assert_eq!(settled(&[(10000, 11000)], &[10001]), "S 1 -1 -12\nT 12 0 12\n");
}

#[test]
fn the_close_tests_every_consumer_before_it_enters_a_figure() {
    let text = "year 720 120 4\ndeclare 1 1 2\ndeclare 64 1 2\nfix 3000000\nmeter 1 2\nmeter 64 3\nclose 2500\n";
    let before = run(&text.replace("close 2500\n", "")).book;
    assert_eq!(*replies(text).last().unwrap(), 14);
    assert_eq!(run(text).book, before);
}

#[test]
fn the_greatest_charges_fit() {
    // DMP 1 and ΣD 1: every DFA is 3,000,000, and one firm demand is 1.
    let mut text = "year 720 120 4\ndeclare 1 1 3000000\n".to_string();
    (2..=64).for_each(|consumer| text += &format!("declare {consumer} 0 3000000\n"));
    text += "fix 1\n";
    (1..=64).for_each(|consumer| text += &format!("meter {consumer} 3000000\n"));
    let listing = listed(&format!("{text}close 2500\n"));
    assert!(listing.contains("\nS 1 -2999999 -89999970000\nS 2 -3000000 -90000000000\n"));
    assert!(listing.contains("\nT 5759999970000 0 5759999970000\n"));
    let listing = listed(&format!("{text}meter 1 0\nclose 2500\n"));
    assert!(listing.contains("\nS 1 1 5670000000000\n"));
    assert!(listing.contains("\nT 5670000000000 5670000000000 0\n"));
}

#[test]
fn balances_follow_commitments_and_releases() {
    let book = run(&after_j(8, "commit 1 1 5\ncommit 1 1 6\ncommit 1 3 9489\nrelease 1 1 4\ncommit 1 2 4")).book;
    assert_eq!(book.producers[0].balances[..3], [7, 4, 9489]);
    assert_eq!((book.producers[0].efficient, book.producers[0].committed), (9500, 9500));
}

#[test]
fn declared_0_kw_is_declared() {
    let text = "declare 4 0 1\nfix 10000\ncommit 1 4 7\nmeter 1 0\nmeter 2 0\nmeter 3 0\nclose 1\nmeter 4 1\nclose 1";
    let text = after_j(7, text);
    assert_eq!(replies(&text)[7..], [0, 0, 0, 0, 0, 0, 16, 0, 0]);
    assert!(listed(&text).contains("\nD 4 0\n") && listed(&text).contains("\nS 4 -3 -36\n"));
}
