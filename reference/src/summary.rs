//! The run over a journal in five lines, and in eight figures.

use crate::journal::Run;
use crate::number::with_condition;

/// 02 "A3": the counts, where and why the reading stopped, and the first refused record with its number, a line each.
pub fn lines(run: &Run) -> String {
    let Run { read, accepted, refused, place, .. } = run;
    let end = run.stop.map_or("end of journal".to_string(), with_condition);
    let first = match run.first_refused {
        Some((place, number)) => format!("first refused record at byte {place}: {}", with_condition(number)),
        None => "no record refused".to_string(),
    };
    format!(
        "records read: {read}\naccepted: {accepted}\nrefused: {refused}\n\
         reading stopped at byte {place}: {end}\n{first}\n"
    )
}

/// 01 "Journal records", 02 "A3": the records read, accepted and refused, the stop's number and place, and whether a refused record is named, its
/// place and its number.
pub fn figures(run: &Run) -> [u64; 8] {
    let stop = run.stop.map_or(0, |number| number as u64);
    let (named, place, number) = match run.first_refused {
        Some((place, number)) => (1, place as u64, number as u64),
        None => (0, 0, 0),
    };
    [run.read, run.accepted, run.refused, stop, run.place as u64, named, place, number]
}
