//! inside TURNS JOURNAL..: times `yearbook_list` of include/yearbook.h and the reference's run and listing on each journal, in turn and in
//! one process, each into a lent buffer of the same size; prints both medians in microseconds and their ratio.

use std::hint::black_box;
use std::path::Path;
use std::time::Instant;

use reference::{journal, listing};

/// include/yearbook.h: no listing is longer.
const LISTING_MAX: usize = 45_288;

/// Turns before the first one that is timed.
const WARMING: usize = 20;

extern "C" {
    fn yearbook_list(
        journal: *const u8,
        journal_len: usize,
        listing: *mut u8,
        listing_len: usize,
        written: *mut u64,
    ) -> u32;
}

/// Puts the listing of a journal over the front of a buffer and tells its length.
type List = fn(&[u8], &mut [u8]) -> usize;

/// The listing by the library.
fn by_library(journal: &[u8], buffer: &mut [u8]) -> usize {
    let mut length = 0;
    // SAFETY: each pointer is valid for the length beside it, and the two do not overlap.
    let number = unsafe {
        yearbook_list(
            journal.as_ptr(),
            journal.len(),
            buffer.as_mut_ptr(),
            buffer.len(),
            &mut length,
        )
    };
    assert_eq!(number, 0, "the library refused the buffer");
    length as usize
}

/// The listing by the reference.
fn by_reference(journal: &[u8], buffer: &mut [u8]) -> usize {
    let room = buffer.len();
    let mut rest = buffer;
    listing::write_lines(&journal::run(journal), &mut rest)
        .expect("the reference takes the buffer");
    room - rest.len()
}

/// Microseconds of one listing.
fn time(list: List, journal: &[u8], buffer: &mut [u8]) -> f64 {
    let start = Instant::now();
    black_box(list(black_box(journal), black_box(buffer)));
    start.elapsed().as_nanos() as f64 / 1000.0
}

/// The median of some times.
fn median(times: &mut [f64]) -> f64 {
    times.sort_by(f64::total_cmp);
    times[times.len() / 2]
}

/// The medians of both on one journal, each first in every other turn.
fn medians(turns: usize, journal: &[u8]) -> [f64; 2] {
    let lists: [List; 2] = [by_library, by_reference];
    let mut buffers = [[0; LISTING_MAX]; 2];
    let mut times = [Vec::new(), Vec::new()];
    for turn in 0..WARMING + turns {
        for place in [turn % 2, 1 - turn % 2] {
            let took = time(lists[place], journal, &mut buffers[place]);
            if turn >= WARMING {
                times[place].push(took);
            }
        }
    }
    times.map(|mut times| median(&mut times))
}

/// Stops unless both give the same bytes.
fn check_equal(name: &str, journal: &[u8]) {
    let (mut ours, mut theirs) = ([0; LISTING_MAX], [0; LISTING_MAX]);
    let (our_length, their_length) = (
        by_library(journal, &mut ours),
        by_reference(journal, &mut theirs),
    );
    assert!(
        ours[..our_length] == theirs[..their_length],
        "{name}: the two listings differ"
    );
}

fn main() {
    let words: Vec<String> = std::env::args().skip(1).collect();
    let (turns, paths) = words.split_first().expect("usage: inside TURNS JOURNAL..");
    let turns = turns.parse().expect("TURNS is a number");
    for path in paths.iter().map(Path::new) {
        let name = path.file_stem().unwrap_or_default().to_string_lossy();
        let journal = std::fs::read(path).expect("the journal is read");
        check_equal(&name, &journal);
        let [ours, theirs] = medians(turns, &journal);
        println!(
            "{name}, inside one process: yearbook_list {ours:.1} us, reference {theirs:.1} us, ratio {:.2}",
            ours / theirs
        );
    }
}
