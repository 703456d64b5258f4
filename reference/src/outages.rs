//! Outage logs: the minutes of a plant's availability.

use crate::number::Number;
use crate::plant::{Minutes, MOST_MINUTES};

/// 02 "A5": the most entries of one log.
pub const MOST_ENTRIES: usize = 1_000;
/// 02 "A5": the greatest minute.
pub const LAST_MINUTE: u32 = 4_000_000_000;
/// 02 "A5": the kind of a planned outage.
pub const PLANNED: u8 = 1;
/// 02 "A5": the kind of a forced outage.
pub const FORCED: u8 = 2;

/// 02 "A5": the bytes of window start, window end and HED.
pub const HEAD: usize = 12;
/// 02 "A5": the bytes of one entry, which are start, end and kind.
const ENTRY: usize = 9;

/// 02 "A5": a log, the window's end not included.
#[derive(Clone, Debug, Default, PartialEq, Eq)]
pub struct Log {
    pub start: u32,
    pub end: u32,
    pub hed: u32,
    pub entries: Vec<Entry>,
}

/// 02 "A5": an entry of a log, its end not included.
#[derive(Clone, Copy, Debug, PartialEq, Eq)]
pub struct Entry {
    pub start: u32,
    pub end: u32,
    pub kind: u8,
}

/// 02 "A5": what a plant is in one minute.
#[derive(Clone, Copy, PartialEq, Eq)]
enum Mark {
    Available,
    Planned,
    Forced,
}

/// 02 "A5": the four figures of a log that is lent as bytes; meets 3, 17.
pub fn figures(lent: &[u8]) -> Result<Minutes, Number> {
    let log = Log::read(lent).filter(Log::in_range).ok_or(Number::Range)?;
    if !log.in_order() {
        return Err(Number::OutOfOrder);
    }
    let marks = log.marks();
    let marked = |mark| marks.iter().filter(|&&held| held == mark).count() as u32;
    Ok(Minutes { hd: marked(Mark::Available), hmp: marked(Mark::Planned), hif: marked(Mark::Forced), hed: log.hed })
}

impl Log {
    /// 02 "A5": the log whose bytes these are, low byte first; none if their number is not 12 + 9·n.
    fn read(lent: &[u8]) -> Option<Log> {
        let (head, entries) = lent.split_at_checked(HEAD)?;
        if entries.len() % ENTRY != 0 {
            return None;
        }
        let entries = entries.chunks_exact(ENTRY);
        let entries = entries.map(|part| Entry { start: four(part), end: four(&part[4..]), kind: part[8] }).collect();
        Some(Log { start: four(head), end: four(&head[4..]), hed: four(&head[8..]), entries })
    }

    /// 02 "A5": the bytes of the log, low byte first.
    pub fn bytes(&self) -> Vec<u8> {
        let mut bytes: Vec<u8> = [self.start, self.end, self.hed].map(u32::to_le_bytes).concat();
        for entry in &self.entries {
            bytes.extend_from_slice(&entry.start.to_le_bytes());
            bytes.extend_from_slice(&entry.end.to_le_bytes());
            bytes.push(entry.kind);
        }
        bytes
    }

    /// 02 "A5", 3: whether minutes, HED, kinds and the number of entries are in range.
    fn in_range(&self) -> bool {
        let entry_holds = |entry: &Entry| {
            entry.start <= LAST_MINUTE && entry.end <= LAST_MINUTE && matches!(entry.kind, PLANNED | FORCED)
        };
        self.start <= LAST_MINUTE
            && self.end <= LAST_MINUTE
            && self.hed <= MOST_MINUTES
            && self.entries.len() <= MOST_ENTRIES
            && self.entries.iter().all(entry_holds)
    }

    /// 02 "A5", 17: whether each end is after its start, the window not too long, and no entry begins before the one before it has ended.
    fn in_order(&self) -> bool {
        self.end > self.start
            && self.end - self.start <= MOST_MINUTES
            && self.entries.iter().all(|entry| entry.end > entry.start)
            && self.entries.windows(2).all(|pair| pair[1].start >= pair[0].end)
    }

    /// 02 "A5": what the plant is in each minute of the window, by the entry that holds the minute.
    fn marks(&self) -> Vec<Mark> {
        let mut entries = self.entries.iter().peekable();
        let mut marks = Vec::new();
        for minute in self.start..self.end {
            while entries.next_if(|entry| entry.end <= minute).is_some() {}
            marks.push(match entries.peek() {
                Some(entry) if entry.start <= minute => entry.mark(),
                _ => Mark::Available,
            });
        }
        marks
    }
}

impl Entry {
    /// 02 "A5": what the plant is in each minute of an entry of kind 1 or 2.
    fn mark(&self) -> Mark {
        match self.kind {
            PLANNED => Mark::Planned,
            _ => Mark::Forced,
        }
    }
}

/// A number of 4 bytes, low byte first, of which `bytes` has the first.
fn four(bytes: &[u8]) -> u32 {
    u32::from_le_bytes([bytes[0], bytes[1], bytes[2], bytes[3]])
}

#[cfg(test)]
mod tests {
    use super::*;
    use crate::plant::Component;

    type Raw = (u32, u32, u8);

    fn log(start: u32, end: u32, hed: u32, entries: &[Raw]) -> Vec<u8> {
        let entries = entries.iter().map(|&(start, end, kind)| Entry { start, end, kind }).collect();
        Log { start, end, hed, entries }.bytes()
    }

    /// HD, HMP and HIF of a window with entries.
    fn minutes(start: u32, end: u32, entries: &[Raw]) -> Result<[u32; 3], Number> {
        figures(&log(start, end, 7, entries)).map(|Minutes { hd, hmp, hif, hed }| {
            assert_eq!((hed, hd + hmp + hif), (7, end - start));
            [hd, hmp, hif]
        })
    }

    /// The window of minutes 100 to 199 with entries is refused with a number.
    fn refused(number: Number, entries: &[Raw]) {
        assert_eq!(minutes(100, 200, entries), Err(number), "{entries:?}");
    }

    #[test]
    fn a_log_without_entries_is_available_throughout() {
        assert_eq!(minutes(100, 200, &[]), Ok([100, 0, 0]));
        assert_eq!(minutes(0, 1, &[]), Ok([1, 0, 0]));
    }

    #[test]
    fn bytes_are_low_byte_first() {
        let bytes = [1, 1, 0, 0, 2, 2, 0, 0, 3, 4, 0, 0, 4, 1, 0, 0, 6, 1, 0, 0, 1, 7, 1, 0, 0, 255, 1, 0, 0, 2];
        assert_eq!(figures(&bytes), Ok(Minutes { hd: 7, hmp: 2, hif: 248, hed: 1_027 }));
        assert_eq!(log(257, 514, 1_027, &[(260, 262, 1), (263, 511, 2)]), bytes);
    }

    #[test]
    fn entries_count_by_kind_and_may_touch() {
        assert_eq!(minutes(100, 200, &[(110, 120, 1), (130, 131, 2), (150, 190, 1)]), Ok([49, 50, 1]));
        assert_eq!(minutes(100, 200, &[(110, 120, 1), (120, 150, 2), (150, 151, 2), (151, 160, 1)]), Ok([50, 19, 31]));
        assert_eq!(minutes(100, 200, &[(100, 150, 1), (150, 200, 2)]), Ok([0, 50, 50]));
    }

    #[test]
    fn an_entry_counts_only_within_the_window() {
        assert_eq!(minutes(100, 200, &[(90, 110, 1)]), Ok([90, 10, 0]));
        assert_eq!(minutes(100, 200, &[(190, 210, 2)]), Ok([90, 0, 10]));
        assert_eq!(minutes(100, 200, &[(99, 101, 1), (199, 201, 2)]), Ok([98, 1, 1]));
        assert_eq!(minutes(100, 200, &[(99, 201, 2)]), Ok([0, 0, 100]));
        assert_eq!(minutes(100, 200, &[(0, LAST_MINUTE, 1)]), Ok([0, 100, 0]));
        assert_eq!(minutes(100, 200, &[(100, 200, 1)]), Ok([0, 100, 0]));
    }

    #[test]
    fn an_entry_outside_the_window_counts_nothing() {
        assert_eq!(minutes(100, 200, &[(0, 99, 1), (99, 100, 2), (200, 201, 1), (300, 400, 2)]), Ok([100, 0, 0]));
        assert_eq!(minutes(100, 200, &[(50, 60, 1), (150, 160, 2), (250, 260, 1)]), Ok([90, 0, 10]));
    }

    #[test]
    fn windows_have_up_to_1052640_minutes() {
        assert_eq!(minutes(5, 5 + MOST_MINUTES, &[(4, 6, 1), (9, 1_000_009, 2)]), Ok([52_639, 1, 1_000_000]));
        assert_eq!(minutes(5, 6 + MOST_MINUTES, &[]), Err(Number::OutOfOrder));
        assert_eq!(minutes(0, LAST_MINUTE, &[]), Err(Number::OutOfOrder));
        assert_eq!(minutes(5, 6, &[(5, 6, 2)]), Ok([0, 0, 1]));
        assert_eq!(minutes(5, 5, &[]), Err(Number::OutOfOrder));
        assert_eq!(minutes(6, 5, &[]), Err(Number::OutOfOrder));
    }

    #[test]
    fn minutes_run_to_4000000000() {
        let last = LAST_MINUTE;
        assert_eq!(minutes(last - 10, last, &[(last - 9, last - 6, 1), (last - 2, last, 2)]), Ok([5, 3, 2]));
        assert_eq!(minutes(last, last, &[]), Err(Number::OutOfOrder));
        for beyond in [last + 1, u32::MAX] {
            assert_eq!(minutes(last - 10, beyond, &[]), Err(Number::Range));
            assert_eq!(minutes(beyond, last, &[]), Err(Number::Range));
            refused(Number::Range, &[(last, beyond, 1)]);
            refused(Number::Range, &[(beyond, last, 1)]);
        }
    }

    #[test]
    fn kinds_are_1_and_2() {
        for kind in [0, 3, 4, 128, 255] {
            refused(Number::Range, &[(110, 120, kind)]);
            refused(Number::Range, &[(110, 120, 1), (210, 220, kind)]);
        }
    }

    #[test]
    fn hed_is_given_and_not_compared_with_the_window() {
        for hed in [0, 1, MOST_MINUTES] {
            let answer = figures(&log(3, 5, hed, &[(4, 9, 2)])).unwrap();
            assert_eq!(answer, Minutes { hd: 1, hmp: 0, hif: 1, hed });
            // 01 "Numbered replies", 9: HED > HD + HMP, which the availability call may still meet.
            let expected = if hed <= 1 { Ok(()) } else { Err(Number::Minutes) };
            assert_eq!(Component::default().avail(answer), expected);
        }
        assert_eq!(figures(&log(3, 5, MOST_MINUTES + 1, &[])), Err(Number::Range));
        assert_eq!(figures(&log(3, 5, u32::MAX, &[])), Err(Number::Range));
    }

    #[test]
    fn there_are_up_to_1000_entries() {
        let entries: Vec<Raw> = (0..1_001).map(|n| (90 + n, 91 + n, if n % 4 == 0 { 1 } else { 2 })).collect();
        assert_eq!(minutes(100, 1_200, &entries[..1_000]), Ok([110, 247, 743]));
        assert_eq!(minutes(100, 1_200, &entries), Err(Number::Range));
        let apart: Vec<Raw> = (0..1_000).map(|n| (3 * n, 3 * n + 2, 2)).collect();
        assert_eq!(minutes(0, 3_000, &apart), Ok([1_000, 0, 2_000]));
    }

    #[test]
    fn a_log_has_12_bytes_and_9_for_each_entry() {
        let whole = log(100, 200, 0, &[(110, 120, 1), (130, 140, 2), (150, 160, 1)]);
        for length in 0..=whole.len() {
            let expected = match length {
                12 => Ok(100),
                21 => Ok(90),
                30 => Ok(80),
                39 => Ok(70),
                _ => Err(Number::Range),
            };
            assert_eq!(figures(&whole[..length]).map(|figures| figures.hd), expected, "{length}");
        }
        assert_eq!(figures(&[&whole[..], &[0]].concat()), Err(Number::Range));
    }

    #[test]
    fn entries_are_in_order_outside_the_window_too() {
        for at in [10, 110, 210] {
            refused(Number::OutOfOrder, &[(at, at, 1)]);
            refused(Number::OutOfOrder, &[(at + 1, at, 1)]);
            refused(Number::OutOfOrder, &[(at, at + 5, 1), (at + 4, at + 9, 2)]);
            refused(Number::OutOfOrder, &[(at, at + 5, 1), (at, at + 5, 1)]);
            refused(Number::OutOfOrder, &[(at + 5, at + 9, 1), (at, at + 5, 2)]);
            refused(Number::OutOfOrder, &[(at, at + 2, 1), (at + 2, at + 5, 1), (at + 1, at + 6, 2)]);
        }
        refused(Number::OutOfOrder, &[(90, 150, 1), (149, 160, 1)]);
        refused(Number::OutOfOrder, &[(90, 210, 1), (209, 220, 2)]);
    }

    #[test]
    fn number_3_comes_before_17_wherever_each_stands() {
        for at in [10, 110, 210] {
            let late = (at, at, 1);
            for beyond in [(at + 9, at + 10, 3), (at + 9, LAST_MINUTE + 1, 1), (u32::MAX, at + 9, 2)] {
                refused(Number::Range, &[late, beyond]);
                refused(Number::Range, &[beyond, late]);
                refused(Number::Range, &[late, (220, 230, 1), (230, 240, 2), beyond]);
            }
        }
        for (start, end) in [(7, 7), (8, 7), (7, 8 + MOST_MINUTES)] {
            assert_eq!(figures(&log(start, end, MOST_MINUTES, &[])), Err(Number::OutOfOrder));
            assert_eq!(figures(&log(start, end, MOST_MINUTES + 1, &[])), Err(Number::Range));
            assert_eq!(figures(&log(start, end, 0, &[(1, 2, 1), (3, 4, 0)])), Err(Number::Range));
            assert_eq!(figures(&log(start, end, 0, &[(1, 2, 1); 1_001])), Err(Number::Range));
            assert_eq!(figures(&log(start, end, 0, &[(1, 2, 1)])[..20]), Err(Number::Range));
        }
        assert_eq!(figures(&log(100, 200, 0, &[(1, 1, 1); 1_000])), Err(Number::OutOfOrder));
        assert_eq!(figures(&log(100, 200, 0, &[(1, 1, 1); 1_001])), Err(Number::Range));
    }
}
