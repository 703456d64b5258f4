//! The watts of 02 "A6" in whole years: 7 kWh in six quarters give 28,000 / 6 = 4,666 W, and c = 9/10 leaves 4,199 W.

use super::{listed, replies};
use crate::book::Stage;
use crate::call::Unit;
use crate::journal;
use crate::random;
use crate::whole_kilowatts;

/// A test of one component with a result of 4,666 W.
fn tested(unit: u8, component: u8) -> String {
    format!("test {unit} {component} 0 6 6 2 1 1 1 1 1\n")
}

/// The tests and the availability, c = 9/10, of a unit with one component.
fn in_service(unit: u8) -> String {
    format!("{}availability {unit} 0 9 0 1 0\n", tested(unit, 0))
}

/// The lines U of a year with these calls, one consumer and the fix behind them.
fn units(calls: &str) -> String {
    let listing = listed(&format!("year 720 120 4\n{calls}declare 1 1 1\nfix 1\n"));
    listing.lines().filter(|line| line.starts_with('U')).map(|line| format!("{line}\n")).collect()
}

#[test]
fn each_kind_keeps_its_fraction_up_to_the_finished_offer() {
    // In kW at each step PP would be 4, PP·c 3, and 5/4 and 7/4 kW 1 each.
    for (kind, fields, offer) in [
        (1, "17 0 0 0 0 0", 4),
        (2, "17 0 5 0 0 0", 4),
        (2, "17 0 4 0 0 0", 3),
        (3, "1 0 0 2880 0 0", 4),
        (3, "1 0 0 2879 0 0", 3),
        (4, "1 0 0 16 0 0", 4),
        (4, "1 0 0 15 0 0", 3),
        (5, "1 0 0 480 0 0", 4),
        (5, "1 0 0 479 0 0", 3),
        (6, "1 0 0 17 0 0", 4),
        (7, "1 0 0 4000000000 0 0", 4),
    ] {
        let calls = format!("unit 7 1 {kind} {fields}\n{}", in_service(7));
        assert_eq!(units(&calls), format!("U 7 {offer} {offer}\n"), "{calls}");
    }
}

#[test]
fn storage_adds_two_fractions() {
    let parts = format!("{}{}{}", tested(7, 0), tested(7, 1), tested(7, 2));
    let storage = |e1: u32, e2: u32, cap: u32| {
        let unit = format!("unit 7 1 8 1 0 0 {e1} {e2} {cap}\n");
        units(&format!("{unit}{parts}availability 7 1 9 0 1 0\navailability 7 2 9 0 1 0\n"))
    };
    // 1,250 and 1,750 W; 1,000 and 1,750 W; 1,250 and 1,500 W.
    assert_eq!([storage(5, 7, 8), storage(5, 8, 7)], ["U 7 3 3\n", "U 7 3 3\n"]);
    assert_eq!([storage(4, 7, 8), storage(5, 7, 6)], ["U 7 2 2\n", "U 7 2 2\n"]);
    // Twice 4,199 W, above the 4,666 W of the set; 4,000 and 250 W.
    assert_eq!([storage(400, 400, 400), storage(16, 1, 1)], ["U 7 4 4\n", "U 7 4 4\n"]);
}

#[test]
fn pic_caps_in_watts() {
    for (pic, offer) in [(0, 0), (1, 0), (2, 1), (4, 3), (5, 4), (4_666, 4), (3_000_000, 4)] {
        let calls = format!("unit 7 1 1 25 {pic} 0 0 0 0\n{}", in_service(7));
        assert_eq!(units(&calls), format!("U 7 {offer} {offer}\n"), "{pic}");
    }
}

#[test]
fn commitments_go_up_to_the_finished_offer() {
    let text = format!("year 720 120 4\nunit 1 1 1 17 0 0 0 0 0\n{}declare 1 1 1\nfix 1\n", in_service(1));
    let text = format!("{text}commit 1 1 5\ncommit 1 1 4\ncommit 1 1 1\n");
    assert_eq!(replies(&text)[6..], [11, 0, 11]);
    assert!(listed(&text).starts_with("U 1 4 4\nP 1 4 4\n"));
}

/// A unit of kind 1, used as the flags tell, whose test of five quarters gives 800 W times the kWh, and c = 1.
fn of_five_quarters(unit: u8, flags: u8, kwh: u32) -> String {
    format!(
        "unit {unit} 1 1 {} 0 0 0 0 0\ntest {unit} 0 0 5 5 {kwh} 0 0 0 0\navailability {unit} 0 1 0 0 0\n",
        16 + flags
    )
}

#[test]
fn finished_offers_tie_though_their_watts_differ() {
    // 4,000 W in the first year and 4,800 W in the second are 4 kW each.
    let calls = of_five_quarters(1, 1, 5) + &of_five_quarters(2, 2, 6);
    assert_eq!(units(&calls), "U 1 4 4\nU 2 4 0\n");
    let calls = of_five_quarters(1, 1, 6) + &of_five_quarters(2, 2, 5);
    assert_eq!(units(&calls), "U 1 4 4\nU 2 4 0\n");
}

#[test]
fn the_year_of_the_greater_sum_of_finished_offers_is_chosen() {
    let first = of_five_quarters(1, 1, 6) + &of_five_quarters(2, 1, 6);
    // 4,800 W twice are 8 kW, as many as 8,800 W and fewer than 9,600 W.
    assert_eq!(units(&(first.clone() + &of_five_quarters(3, 2, 11))), "U 1 4 4\nU 2 4 4\nU 3 8 0\n");
    assert_eq!(units(&(first.clone() + &of_five_quarters(3, 2, 12))), "U 1 4 0\nU 2 4 0\nU 3 9 9\n");
    // They are more W than 9,000 W, and fewer kW.
    let second = "unit 3 1 1 18 0 0 0 0 0\ntest 3 0 0 4 4 9 0 0 0\navailability 3 0 1 0 0 0\n";
    assert_eq!(units(&(first + second)), "U 1 4 0\nU 2 4 0\nU 3 9 9\n");
}

#[test]
fn an_efficient_offer_in_watts_is_within_maximum_power_and_injection() {
    let mut changed = 0;
    for number in 0..600 {
        let book = journal::run(&random::journal(11, number)).book;
        if !matches!(book.stage, Stage::Firm | Stage::Closed) {
            continue;
        }
        for plant in book.plants.iter().flatten() {
            let Unit { unit, .. } = plant.unit;
            let maximum = u64::from(plant.parts[0].power.unwrap_or(0));
            assert!(1_000 * plant.efficient <= maximum, "{number}: {unit}");
            assert!(plant.unit.injection().is_none_or(|pic| plant.efficient <= pic.into()), "{number}: {unit}");
            let without = whole_kilowatts::firm_offer(&plant.unit, &plant.parts, &book.hours);
            assert!(without <= plant.offer, "{number}: {unit}");
            changed += u32::from(without < plant.offer);
        }
    }
    assert!(changed > 0);
}
