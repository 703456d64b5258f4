//! The listing and the program `yearbook`.

use std::io::{self, Write};

use crate::book::{Book, Stage};
use crate::journal::{self, Run};
use crate::range::PRODUCERS;

/// 01 "Journal in, listing out": the most bytes that the program reads.
pub const MOST_BYTES: usize = 65_536;

/// 01 "Journal in, listing out": the program's output for its input, of which one byte above the limit is enough.
pub fn yearbook(input: &[u8]) -> Vec<u8> {
    if input.len() > MOST_BYTES {
        return b"X\n".to_vec();
    }
    listing(&journal::run(input))
}

/// 01 "Journal in, listing out": the letters U, P, D, S, T, R.
pub fn listing(run: &Run) -> Vec<u8> {
    let mut lines = Vec::with_capacity(4096);
    write_lines(run, &mut lines).expect("a listing is written to memory");
    lines
}

/// 01 "Journal in, listing out": U, P, D in stages firm and closed, S and T in closed, R always.
pub fn write_lines(run: &Run, lines: &mut impl Write) -> io::Result<()> {
    let stage = run.book.stage;
    if matches!(stage, Stage::Firm | Stage::Closed) {
        write_offers(&run.book, lines)?;
        write_demands(&run.book, lines)?;
    }
    if stage == Stage::Closed {
        write_settlement(&run.book, lines)?;
    }
    writeln!(lines, "R {} {} {}", run.read, run.accepted, run.refused)
}

/// 01 "Journal in, listing out", U and P: enrolled units, and producers with a unit.
fn write_offers(book: &Book, lines: &mut impl Write) -> io::Result<()> {
    let mut with_unit = [false; PRODUCERS];
    for plant in book.plants.iter().flatten() {
        writeln!(lines, "U {} {} {}", plant.unit.unit, plant.offer, plant.efficient)?;
        with_unit[usize::from(plant.unit.producer) - 1] = true;
    }
    for (place, producer) in book.producers.iter().enumerate() {
        if with_unit[place] {
            writeln!(lines, "P {} {} {}", place + 1, producer.efficient, producer.committed)?;
        }
    }
    Ok(())
}

/// 01 "Journal in, listing out", D: declared consumers and firm demands.
fn write_demands(book: &Book, lines: &mut impl Write) -> io::Result<()> {
    for (place, consumer) in book.consumers.iter().enumerate() {
        if let Some(consumer) = consumer {
            writeln!(lines, "D {} {}", place + 1, consumer.firm)?;
        }
    }
    Ok(())
}

/// 01 "Journal in, listing out", S and T: ADF and cents of declared consumers, and the sums.
fn write_settlement(book: &Book, lines: &mut impl Write) -> io::Result<()> {
    let settlement = &book.settlement;
    for (place, consumer) in book.consumers.iter().enumerate() {
        if consumer.is_some() {
            let (adjustment, cents) = (settlement.adjustments[place], settlement.cents[place]);
            writeln!(lines, "S {} {} {}", place + 1, adjustment, cents)?;
        }
    }
    let (charges, credits, undistributed) = (settlement.charges, settlement.credits, settlement.undistributed);
    writeln!(lines, "T {charges} {credits} {undistributed}")
}
