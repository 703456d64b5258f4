//! The run over a journal.

use crate::book::Book;
use crate::call::Call;
use crate::number::{in_words, reply, Number};
use crate::record;

/// 01 "Journal records": what the run returns.
#[derive(Clone, Debug, PartialEq, Eq)]
pub struct Run {
    pub book: Book,
    pub read: u64,
    pub accepted: u64,
    pub refused: u64,
    /// The number of the stop, none without a stop.
    pub stop: Option<Number>,
    /// The place of the stop, the journal's length without one.
    pub place: usize,
    /// 02 "A3": the place and the number of the first refused record, none if no record read was refused.
    pub first_refused: Option<(usize, Number)>,
}

impl Run {
    /// 01 "Journal records": where and why the reading stopped, if it did, in words.
    pub fn stopped(&self) -> Option<String> {
        self.stop.map(|stop| format!("reading stopped at byte {}: {}", self.place, in_words(stop as u8)))
    }
}

/// 01 "Journal records": the run from a fresh book.
pub fn run(journal: &[u8]) -> Run {
    run_with(journal, |_, _, _| {})
}

/// 01 "Journal records": the run from a fresh book, showing each record's place, its call and the reply.
pub fn run_with(journal: &[u8], mut show: impl FnMut(usize, &Call, u8)) -> Run {
    let mut run =
        Run { book: Book::default(), read: 0, accepted: 0, refused: 0, stop: None, place: 0, first_refused: None };
    while run.place < journal.len() {
        let (call, next) = match record::read(journal, run.place) {
            Ok(record) => record,
            Err(number) => {
                run.stop = Some(number);
                break;
            }
        };
        let result = run.book.apply(&call);
        run.read += 1;
        match result {
            Ok(()) => run.accepted += 1,
            Err(number) => {
                run.refused += 1;
                run.first_refused.get_or_insert((run.place, number));
            }
        }
        show(run.place, &call, reply(result));
        run.place = next;
    }
    run
}
