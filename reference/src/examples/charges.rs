//! The limit on the charges of a close, 02 "A7".

use super::{last, listed, replies, run};

/// A year in which consumer 1 declared 1 kW and so many others 0 kW of 1 projected, DMP being `dmp`, so that their DFA is `dmp` times their Dreal.
fn firm(charged: usize, dmp: u32) -> String {
    let declarations: String = (2..=charged + 1).map(|consumer| format!("declare {consumer} 0 1\n")).collect();
    format!("year 720 120 4\ndeclare 1 1 1\n{declarations}fix {dmp}\n")
}

/// Real demands: `one` of consumer 1, `last` of the last of the others, 3,000,000 of the rest.
fn readings(charged: usize, one: u32, last: u32) -> String {
    let rest: String = (2..=charged).map(|consumer| format!("meter {consumer} 3000000\n")).collect();
    format!("meter 1 {one}\n{rest}mean {} {last}\n", charged + 1)
}

#[test]
fn charges_of_exactly_6_000_000_000_000_cents_are_accepted() {
    // 66 · 90,000,000,000 and 2,000,000 · 2,500 · 12 cents.
    let text = format!("{}{}close 2500\n", firm(67, 1), readings(67, 0, 2_000_000));
    assert_eq!(last(&text), 0);
    assert!(listed(&text).contains("\nS 1 1 6000000000000\n"));
    assert!(listed(&text).contains("\nS 68 -2000000 -60000000000\nT 6000000000000 6000000000000 0\n"));
    let text = format!("{}{}close 2500\n", firm(67, 1), readings(67, 1, 2_000_000));
    assert!(listed(&text).contains("\nS 68 -2000000 -60000000000\nT 6000000000000 0 6000000000000\n"));
}

#[test]
fn one_kw_more_meets_19_and_changes_nothing() {
    for one in [0, 1] {
        let open = format!("{}{}", firm(67, 1), readings(67, one, 2_000_001));
        let text = format!("{open}close 2500\n");
        assert_eq!(last(&text), 19);
        assert_eq!(run(&text).book, run(&open).book);
        assert_eq!(last(&format!("{text}close 2499\n")), 0);
        assert_eq!(last(&format!("{text}meter 68 5\nclose 2500\n")), 19);
        assert_eq!(last(&format!("{text}mean 68 2000000\nclose 2500\n")), 0);
    }
}

#[test]
fn one_consumer_more_than_66_can_meet_19() {
    for (charged, number) in [(64, 0), (65, 0), (66, 0), (67, 19), (299, 19)] {
        let text = format!("{}{}close 2500\n", firm(charged, 1), readings(charged, 0, 3_000_000));
        assert_eq!(last(&text), number, "{charged}");
    }
}

#[test]
fn charges_of_36_cents_more_meet_19() {
    // 823,723,229 · 607 · 12 is 6,000,000,000,036: 274 · 3,000,000 kW and 1,723,229.
    let text = format!("{}{}close 607\n", firm(275, 1), readings(275, 0, 1_723_229));
    assert_eq!(last(&text), 19);
    let text = format!("{text}mean 276 1723228\nclose 607\n");
    assert!(listed(&text).contains("\nT 5999999992752 5999999992752 0\n"));
}

#[test]
fn every_charged_consumer_counts_wherever_it_stands() {
    // All but one of 68 charged: 67 · 90,000,000,000 cents.
    for left_out in (2..=69).chain([1]) {
        let mut text = firm(68, 1) + &readings(68, 0, 3_000_000);
        text += &format!("mean {left_out} 0\nclose 2500\nmean 69 0\nmean 68 0\nmean 67 0\nclose 2500\n");
        let numbers = replies(&text);
        assert_eq!((numbers[numbers.len() - 5], numbers[numbers.len() - 1]), (19, 0), "{left_out}");
    }
}

#[test]
fn number_19_comes_behind_16_and_14_of_any_consumer() {
    // DMP 2 and ΣD 1: a DFA is twice Dreal, and 67 · 1,500,000 kW are charged with 67 · 90,000,000,000 cents.
    let open = firm(69, 2) + &(2..=68).map(|consumer| format!("meter {consumer} 1500000\n")).collect::<String>();
    for [silent, above, other] in [[1, 69, 70], [1, 70, 69], [69, 1, 70], [69, 70, 1], [70, 1, 69], [70, 69, 1]] {
        let text = format!("{open}mean {other} 0\nmean {above} 1500001\nclose 2500\nmean {silent} 0\nclose 2500\n");
        let numbers = replies(&format!("{text}mean {above} 1500000\nclose 2500\nclose 0\n"));
        assert_eq!(numbers[numbers.len() - 8..], [0, 0, 16, 0, 14, 0, 19, 3], "{silent} {above}");
    }
    // The silent consumer alone, with the others charged above the limit.
    for silent in [1, 69, 70] {
        let others: String = [1, 69, 70].iter().filter(|&&c| c != silent).map(|c| format!("mean {c} 0\n")).collect();
        let numbers = replies(&format!("{open}{others}close 2500\nmean {silent} 0\nclose 2500\n"));
        assert_eq!(numbers[numbers.len() - 3..], [16, 0, 19], "{silent}");
    }
}
