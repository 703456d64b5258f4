//! The thirteen cases of 01 "Before a delivery is taken".

use super::{listed, run, CASE_J};
use crate::share;

/// The lines of one letter in case J's listing.
fn letter(letter: char) -> Vec<String> {
    listed(CASE_J).lines().filter(|line| line.starts_with(letter)).map(str::to_string).collect()
}

#[test]
fn the_six_letters_of_j() {
    assert_eq!(letter('U'), ["U 1 9500 9500"]);
    assert_eq!(letter('P'), ["P 1 9500 9500"]);
    assert_eq!(letter('D'), ["D 1 3334", "D 2 3333", "D 3 3333"]);
    assert_eq!(letter('S'), ["S 1 334 7123560", "S 2 -667 -7123560", "S 3 0 0"]);
    assert_eq!(letter('T'), ["T 7123560 7123560 0"]);
    assert_eq!(letter('R'), ["R 16 15 1"]);
}

/// The result in W, and the memory of a void trip, of a first test of TC 5 with readings of 1,000.
fn first_test(ending: u8, count: usize) -> (Option<u32>, bool) {
    let readings = " 1000".repeat(count);
    let run = run(&format!("year 720 120 4\nunit 1 1 1 17 0 0 0 0 0\ntest 1 0 {ending} 5 {count}{readings}\n"));
    assert_eq!(run.refused, 0);
    let part = run.book.plants[0].unwrap().parts[0];
    (part.power, part.void_trip)
}

#[test]
fn counts_3_and_4_of_tc_5_under_endings_1_and_2() {
    assert_eq!(first_test(1, 3), (None, false));
    assert_eq!(first_test(1, 4), (Some(4_000_000), false));
    assert_eq!(first_test(2, 3), (None, true));
    assert_eq!(first_test(2, 4), (Some(3_200_000), false));
}

#[test]
fn a_tie_of_years() {
    let mut text = "year 720 120 4\n".to_string();
    for (unit, flags) in [(1, 18), (2, 17), (3, 16)] {
        text += &format!("unit {unit} {unit} 1 {flags} 0 0 0 0 0\ntest {unit} 0 0 4 4 25 25 25 25\n");
        text += &format!("availability {unit} 0 1 0 0 0\n");
    }
    text += "declare 1 1 1\nfix 1\n";
    assert_eq!(listed(&text), "U 1 100 0\nU 2 100 100\nU 3 100 0\nP 1 0 0\nP 2 100 0\nP 3 0 0\nD 1 1\nR 12 12 0\n");
}

#[test]
fn three_equal_weights_with_t_10_000() {
    let mut amounts = [0; 3];
    assert_eq!(share::divide(10_000, &[1, 1, 1], &mut amounts), Ok(()));
    assert_eq!(amounts, [3334, 3333, 3333]);
}

#[test]
fn no_positive_adf_leaves_all_undistributed() {
    let text = CASE_J.replace("meter 1 900", "meter 1 4000").replace("meter 2 1200", "meter 2 4000");
    let text = text.replace("meter 3 1000", "meter 3 4000");
    let listing = listed(&text);
    assert!(listing.ends_with("S 1 -9999 0\nS 2 -10000 -106800000\nS 3 -10000 0\nT 106800000 0 106800000\nR 16 15 1\n"));
}
