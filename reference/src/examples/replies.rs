//! The example of each row of 01 "Numbered replies", and the order of the numbers.

use super::{after_j, last, replies, reply_lines, run};
use crate::call::{Call, Test, Year};
use crate::narrow::{self, Met};
use crate::number::Number;
use crate::plant::PowerTest;
use crate::record;
use crate::text;

#[test]
fn number_1_record_cut_short() {
    assert_eq!(reply_lines(&[0x59]), "stop 1 0\nR 0 0 0\n");
    assert_eq!(reply_lines(&[0x00]), "stop 1 0\nR 0 0 0\n");
    let journal = text::records("year 720 120 4\ntest 1 0 0 4 4 1 1 1 1\n").unwrap();
    for length in 8..journal.len() {
        assert_eq!(reply_lines(&journal[..length]), "0 0\nstop 1 7\nR 1 1 0\n");
    }
    assert_eq!(reply_lines(&journal), "0 0\n7 6\nstop 0 30\nR 2 1 1\n");
}

#[test]
fn number_2_unknown_mark() {
    assert_eq!(reply_lines(&[0, 0]), "stop 2 0\nR 0 0 0\n");
    let journal = [&text::records("year 720 120 4\n").unwrap()[..], &[0x52, 0x59, 1, 2, 3]].concat();
    assert_eq!(reply_lines(&journal), "0 0\nstop 2 7\nR 1 1 0\n");
    for later in [[0x59, 0x47], [0x4C, 0x56], [0x54, 0x50]] {
        assert_eq!(record::read(&later, 0), Err(Number::UnknownMark));
    }
}

#[test]
fn number_3_field_outside_its_range() {
    assert_eq!(last(&after_j(1, "unit 1 1 9 0 0 0 0 0 0")), 3);
}

#[test]
fn number_4_stage() {
    assert_eq!(last(&after_j(7, "commit 1 1 1")), 4);
}

#[test]
fn number_5_unit_already_enrolled() {
    assert_eq!(last(&after_j(1, "unit 1 1 1 0 0 0 0 0 0\nunit 1 2 3 0 0 0 0 0 0")), 5);
}

#[test]
fn number_6_unit_not_enrolled() {
    assert_eq!(last(&after_j(2, "test 2 0 0 4 4 1 1 1 1")), 6);
    assert_eq!(last(&after_j(2, "availability 2 0 1 0 0 0")), 6);
}

#[test]
fn number_7_component_foreign_to_kind() {
    assert_eq!(last(&after_j(2, "test 1 1 0 4 4 1 1 1 1")), 7);
    assert_eq!(last(&after_j(2, "availability 1 1 1 0 0 0")), 7);
    let storage = "year 720 120 4\nunit 1 1 8 0 0 0 0 0 0\n";
    let parts = "test 1 0 2 4 0\ntest 1 1 2 4 0\ntest 1 2 2 4 0\navailability 1 0 1 0 0 0\n";
    let more = "availability 1 1 1 0 0 0\navailability 1 2 1 0 0 0\n";
    assert_eq!(replies(&format!("{storage}{parts}{more}")), [0, 0, 0, 0, 0, 7, 0, 0]);
}

#[test]
fn number_8_count_against_tc() {
    assert_eq!(last(&after_j(2, "test 1 0 0 4 3 1 1 1")), 8);
}

#[test]
fn number_9_sums_of_minutes() {
    assert_eq!(last(&after_j(2, "availability 1 0 0 0 0 0")), 9);
}

#[test]
fn number_10_consumer_not_declared() {
    assert_eq!(replies(&after_j(8, "meter 9 1\ncommit 1 9 1\nrelease 1 9 1\nmean 9 1"))[8..], [10, 10, 10, 10]);
}

#[test]
fn number_11_above_the_efficient_offers() {
    assert_eq!(
        replies(&after_j(8, "commit 1 1 9000\ncommit 1 2 501\ncommit 1 2 500\ncommit 1 3 1"))[8..],
        [0, 11, 0, 11]
    );
}

#[test]
fn number_12_above_the_balance() {
    assert_eq!(last(&after_j(8, "release 1 1 1")), 12);
    assert_eq!(replies(&after_j(8, "commit 1 1 5\nrelease 1 2 1\nrelease 1 1 6\nrelease 1 1 5"))[8..], [0, 12, 12, 0]);
}

#[test]
fn number_13_weights_sum_to_0() {
    assert_eq!(last(&after_j(1, "fix 1")), 13);
    let numbers = replies(&after_j(1, "declare 1 0 5\nfix 1\ndeclare 1 1 5\nfix 1\nfix 1"));
    assert_eq!(numbers, [0, 0, 13, 0, 0, 4]);
}

#[test]
fn number_14_a_dfa_above_3_000_000() {
    let text = "year 720 120 4\ndeclare 1 1 1\nfix 3000000\nmeter 1 2\nclose 890\n";
    let refused = run(text);
    assert_eq!(last(text), 14);
    assert_eq!(refused.book, run(&text.replace("close 890\n", "")).book);
    assert_eq!(replies(&format!("{text}meter 1 1\nclose 890\n"))[4..], [14, 0, 0]);
}

#[test]
fn number_14_compares_the_rounded_dfa() {
    // 1,615,385 · 13 / 7 is 3,000,000 and five sevenths, 1,615,386 · 13 / 7 is above 3,000,002.
    let text = "year 720 120 4\ndeclare 1 7 1\nfix 13\nmeter 1 1615386\nclose 1\nmeter 1 1615385\nclose 1\n";
    assert_eq!(replies(text)[3..], [0, 14, 0, 0]);
    // 1,000,000 · 3 / 1 is exactly 3,000,000.
    let text = "year 720 120 4\ndeclare 1 1 1\nfix 3\nmeter 1 1000001\nclose 1\nmeter 1 1000000\nclose 1\n";
    assert_eq!(replies(text)[3..], [0, 14, 0, 0]);
    // 2,000,001 · 3 / 2 is 3,000,001 and a half.
    let text = "year 720 120 4\ndeclare 1 2 1\nfix 3\nmeter 1 2000001\nclose 1\n";
    assert_eq!(last(text), 14);
}

#[test]
fn number_15_buffer_shorter_than_the_record() {
    let year = Call::Year(Year { nhrm: 720, nhmd: 120, ndhmd: 4 });
    let mut buffer = [7; 6];
    assert_eq!(record::write(&year, &mut buffer), Err(Number::Buffer));
    assert_eq!(buffer, [7; 6]);
    let mut buffer = [7; 8];
    assert_eq!(record::write(&year, &mut buffer), Ok(7));
    assert_eq!(buffer, [0x59, 0x52, 0xD0, 2, 120, 0, 4, 7]);
}

#[test]
fn number_16_a_declared_consumer_without_a_reading_or_a_mean() {
    for (more, number) in [("", 16), ("meter 3 1000\n", 0), ("mean 3 1000\n", 0), ("meter 2 1200\n", 16)] {
        assert_eq!(last(&after_j(14, &format!("{more}close 890"))), number, "{more}");
    }
}

#[test]
fn number_18_a_mark_for_consumers_above_64() {
    let journal = text::records("year 720 120 4\ndeclare 65 1 1\n").unwrap();
    assert_eq!(narrow::check(&journal), Err(Met { place: 7, number: Number::Above64 }));
    assert_eq!(narrow::check(&journal[..7]), Ok(()));
}

#[test]
fn the_writer_tests_3_before_15() {
    assert_eq!(record::write(&Call::Close(0), &mut []), Err(Number::Range));
    assert_eq!(record::write(&Call::Close(1), &mut []), Err(Number::Buffer));
    for (count, length) in [(4, 12), (4, 17), (0, 1), (97, 388)] {
        let readings = vec![0; length];
        let test = Test { unit: 1, component: 0, run: PowerTest { ending: 0, tc: 4, count, readings: &readings } };
        assert_eq!(record::write(&Call::Test(test), &mut [0; 500]), Err(Number::Range));
    }
}

#[test]
fn numbers_are_checked_in_their_order() {
    // 3 before 4, 4 before 5 and 6, 6 before 7, 7 before 8 and 9.
    assert_eq!(replies("fix 0\nfix 1\ntest 9 1 0 4 3 1 1 1\n"), [3, 4, 4]);
    assert_eq!(replies(&after_j(2, "test 2 1 0 4 3 1 1 1\navailability 2 1 0 0 0 0"))[2..], [6, 6]);
    assert_eq!(replies(&after_j(2, "test 1 1 0 4 3 1 1 1\navailability 1 1 0 0 0 0"))[2..], [7, 7]);
    assert_eq!(replies(&after_j(2, "test 1 1 0 4 3 1 1 750001\navailability 1 1 0 0 0 1052641"))[2..], [3, 3]);
    assert_eq!(replies(&after_j(8, "unit 1 1 1 0 0 0 0 0 0\nfix 1\nyear 720 120 4"))[8..], [4, 4, 4]);
    // 10 before 11 and 12, also for a producer without a unit.
    assert_eq!(replies(&after_j(8, "commit 2 9 1\nrelease 2 9 1\ncommit 2 1 1\nrelease 2 1 1"))[8..], [10, 10, 11, 12]);
    // 3 before 10, 3 and 4 before 16, 16 before 14.
    assert_eq!(replies(&after_j(8, "mean 9 3000001\nmean 9 3000000"))[8..], [3, 10]);
    assert_eq!(replies(&after_j(7, "close 0\nclose 1\nfix 10000\nclose 0\nclose 1"))[7..], [3, 4, 0, 3, 16]);
    assert_eq!(replies(&after_j(8, "meter 1 3000000\nclose 1\nmean 2 0\nmean 3 0\nclose 1"))[8..], [0, 16, 0, 0, 14]);
}
