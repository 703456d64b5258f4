//! The card of the test engineers: for each full time the least count that reaches 80 %.

use std::fmt::Write;

/// 02 "A2": the smallest count that reaches 80 % of TC, 4·TC / 5 rounded up; 0 for a TC that the card does not have.
pub fn least_count(tc: u32) -> u32 {
    match tc {
        4..=96 => (4 * tc).div_ceil(5),
        _ => 0,
    }
}

/// 02 "A2": a line for each TC that a byte holds, TC and its count.
pub fn counts() -> String {
    let mut lines = String::new();
    for tc in 0..=u32::from(u8::MAX) {
        writeln!(lines, "{tc} {}", least_count(tc)).expect("lines are written to memory");
    }
    lines
}

#[cfg(test)]
mod tests {
    use super::*;
    use crate::plant::{reached, Component, PowerTest};

    #[test]
    fn the_count_reaches_80_percent_and_no_lesser_one_does() {
        for tc in 4..=96 {
            let least = least_count(tc);
            assert!(reached(least.into(), tc.into()), "{tc}");
            assert!((0..least).all(|count| !reached(count.into(), tc.into())), "{tc}");
        }
    }

    #[test]
    fn a_tripped_test_has_a_result_from_the_count_on() {
        for tc in 4..=96 {
            for count in 0..tc {
                let mut part = Component::default();
                let readings = vec![0; 4 * usize::from(count)];
                assert_eq!(part.test(&PowerTest { ending: 1, tc, count, readings: &readings }, None), Ok(()));
                assert_eq!(part.power.is_some(), u32::from(count) >= least_count(tc.into()), "{tc} {count}");
            }
        }
    }

    #[test]
    fn counts_of_some_full_times() {
        for (tc, count) in [(4, 4), (5, 4), (6, 5), (10, 8), (95, 76), (96, 77)] {
            assert_eq!(least_count(tc), count, "{tc}");
        }
    }

    #[test]
    fn other_times_are_not_on_the_card() {
        for tc in [0, 3, 97, 255, 256 + 4, u32::MAX] {
            assert_eq!(least_count(tc), 0, "{tc}");
        }
    }

    #[test]
    fn the_counts_are_a_line_for_each_byte() {
        let lines = counts();
        assert_eq!(lines.lines().count(), 256);
        assert!(lines.starts_with("0 0\n1 0\n2 0\n3 0\n4 4\n5 4\n6 5\n"));
        assert!(lines.contains("\n95 76\n96 77\n97 0\n"));
        assert!(lines.ends_with("\n254 0\n255 0\n"));
    }
}
