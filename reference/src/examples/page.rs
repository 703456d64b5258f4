//! The printed close of 02 "A1".

use super::{after_j, run, CASE_J};
use crate::journal;
use crate::listing;
use crate::number::Number;
use crate::page::page;
use crate::random;

/// The lines of the printed close of a journal written as text, each of which has 36 columns and a line feed.
fn lines(text: &str) -> Vec<String> {
    let printed = page(&run(text).book).expect("the year is closed");
    let lines: Vec<String> = printed.split('\n').map(str::to_string).collect();
    let (last, lines) = lines.split_last().expect("a text has a line");
    assert_eq!(last, "");
    assert!(lines.iter().all(|line| line.len() == 36), "{printed}");
    lines.to_vec()
}

/// The heading of a page.
fn heading(number: u32) -> String {
    format!("PAGE    {number}{}", " ".repeat(27))
}

/// A year with these declarations, D and A, of the consumers from 1 on, DMP, readings and P.
fn year(declarations: &[(u32, u32)], dmp: u32, readings: &[u32], p: u32) -> String {
    let mut text = "year 720 120 4\n".to_string();
    for (number, (d, a)) in (1..).zip(declarations) {
        text += &format!("declare {number} {d} {a}\n");
    }
    text += &format!("fix {dmp}\n");
    for (number, reading) in (1..).zip(readings) {
        text += &format!("meter {number} {reading}\n");
    }
    text + &format!("close {p}\n")
}

#[test]
fn case_j_on_paper() {
    let expected = [
        &heading(1)[..],
        "  1    3334      334         7123560",
        "  2    3333     -667        -7123560",
        "  3    3333        0               0",
    ];
    assert_eq!(lines(CASE_J), expected);
    assert_eq!(lines(&after_j(16, "meter 1 5\nclose 1")), expected);
}

#[test]
fn a_book_not_closed_meets_4() {
    for count in 0..16 {
        assert_eq!(page(&run(&after_j(count, "")).book), Err(Number::Stage));
    }
    for reading in ["", "meter 1 2\n"] {
        let refused = format!("year 720 120 4\ndeclare 1 1 1\nfix 3000000\n{reading}close 890\n");
        assert_eq!(page(&run(&refused).book), Err(Number::Stage));
    }
}

/// The lines of a year in which the last so many of the consumers 1 to 300 declare, the highest number first.
fn lines_of(consumers: usize) -> Vec<String> {
    let mut text = "year 720 120 4\n".to_string();
    (301 - consumers..=300).rev().for_each(|consumer| text += &format!("declare {consumer} 5 5\n"));
    text += &format!("fix {}\n", 7 * consumers);
    (301 - consumers..=300).for_each(|consumer| text += &format!("meter {consumer} 0\n"));
    lines(&format!("{text}close 1\n"))
}

#[test]
fn a_page_carries_50_consumers_and_the_last_1_to_50() {
    for (consumers, on_the_pages) in [
        (1, &[1][..]),
        (49, &[49]),
        (50, &[50]),
        (51, &[50, 1]),
        (64, &[50, 14]),
        (100, &[50, 50]),
        (101, &[50, 50, 1]),
        (150, &[50, 50, 50]),
        (200, &[50, 50, 50, 50]),
        (201, &[50, 50, 50, 50, 1]),
        (250, &[50, 50, 50, 50, 50]),
        (251, &[50, 50, 50, 50, 50, 1]),
        (300, &[50, 50, 50, 50, 50, 50]),
    ] {
        let mut expected = Vec::new();
        let mut consumer = 301 - consumers;
        for (number, &carried) in (1..).zip(on_the_pages) {
            expected.push(heading(number));
            for _ in 0..carried {
                expected.push(format!("{consumer:3}       7        7               0"));
                consumer += 1;
            }
        }
        assert_eq!(lines_of(consumers), expected);
    }
}

#[test]
fn every_number_of_consumers_has_its_headings_in_place() {
    for consumers in 1..=300 {
        let lines = lines_of(consumers);
        let headings: Vec<usize> = (0..lines.len()).filter(|&at| lines[at].starts_with("PAGE")).collect();
        assert_eq!(headings, (0..consumers.div_ceil(50)).map(|page| 51 * page).collect::<Vec<usize>>());
        assert_eq!(lines.len(), consumers + headings.len());
    }
}

#[test]
fn undeclared_consumers_have_no_line_and_declared_0_has_one() {
    let text = "year 720 120 4\ndeclare 64 0 0\ndeclare 10 3 3\ndeclare 9 0 5\nfix 8\nmeter 9 3\nmeter 10 0\n\
                meter 64 0\nclose 1\n";
    let expected = [
        &heading(1)[..],
        "  9       0       -8             -96",
        " 10       8        8              96",
        " 64       0        0               0",
    ];
    assert_eq!(lines(text), expected);
}

#[test]
fn the_widest_figures_fit_their_columns() {
    let text = year(&[(3_000_000, 3_000_000), (0, 1)], 3_000_000, &[0, 3_000_000], 2_500);
    assert_eq!(lines(&text)[1], "  1 3000000  3000000     90000000000");
    assert_eq!(lines(&text)[2], "  2       0 -3000000    -90000000000");

    // 63 charges to one credit: 63 · 3,000,000 · 2,500 · 12 cents.
    let mut declarations = [(0, 1); 64];
    let mut readings = [3_000_000; 64];
    (declarations[63], readings[63]) = ((3_000_000, 1), 0);
    let largest_credit = lines(&year(&declarations, 3_000_000, &readings, 2_500));
    assert_eq!(largest_credit.len(), 66);
    assert_eq!(largest_credit[50], " 50       0 -3000000    -90000000000");
    assert_eq!(largest_credit[65], " 64 3000000  3000000   5670000000000");

    // The greatest sum of charges, all to one credit: 200 · 2,000,000 · 1,250 · 12 cents.
    let mut declarations = [(0, 1); 300];
    let mut readings = [2_000_000; 300];
    (declarations[299], readings[299]) = ((3_000_000, 1), 0);
    readings[..99].fill(0);
    let largest_credit = lines(&year(&declarations, 3_000_000, &readings, 1_250));
    assert_eq!(largest_credit.len(), 306);
    assert_eq!(largest_credit[304], "299       0 -2000000    -30000000000");
    assert_eq!(largest_credit[305], "300 3000000  3000000   6000000000000");

    // every consumer is charged, and nobody has a credit
    let mut declarations = [(0, 1); 64];
    let mut readings = [3_000_000; 64];
    (declarations[63], readings[63]) = ((1, 2), 3_000_000);
    let all_charged = lines(&year(&declarations, 1, &readings, 2_500));
    assert_eq!(all_charged[1], "  1       0 -3000000    -90000000000");
    assert_eq!(all_charged[65], " 64       1 -2999999    -89999970000");
}

#[test]
fn a_page_has_the_figures_of_lines_d_and_s() {
    for number in 0..400 {
        let run = journal::run(&random::journal(9, number));
        let Ok(printed) = page(&run.book) else { continue };
        let listing = String::from_utf8(listing::listing(&run)).unwrap();
        let of = |letter: &str| -> Vec<String> {
            listing.lines().filter_map(|line| line.strip_prefix(letter)).map(str::to_string).collect()
        };
        let listed = of("D ").into_iter().zip(of("S ")).map(|(demand, settled)| {
            let (_, rest) = settled.split_once(' ').unwrap();
            format!("{demand} {rest}")
        });
        let on_paper = printed.lines().filter(|line| !line.starts_with("PAGE"));
        let on_paper = on_paper.map(|line| line.split_whitespace().collect::<Vec<&str>>().join(" "));
        assert_eq!(on_paper.collect::<Vec<String>>(), listed.collect::<Vec<String>>());
    }
}
