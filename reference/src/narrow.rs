//! The converter of a journal for 300 consumers into one for 64.

use crate::call::above_64;
use crate::number::Number;
use crate::record;

/// 02 "A7": where a journal meets a number, and which.
#[derive(Clone, Copy, Debug, PartialEq, Eq)]
pub struct Met {
    pub place: usize,
    pub number: Number,
}

/// 02 "A7": whether a journal is one for 64 consumers; the first record to meet a number decides, 1 or 2 at a stop, 18 at a mark for consumers above 64.
pub fn check(journal: &[u8]) -> Result<(), Met> {
    let mut place = 0;
    while place < journal.len() {
        let (_, next) = record::read(journal, place).map_err(|number| Met { place, number })?;
        if above_64().iter().any(|form| journal[place..].starts_with(&form.mark)) {
            return Err(Met { place, number: Number::Above64 });
        }
        place = next;
    }
    Ok(())
}

/// 02 "A7": puts an accepted journal's own bytes at the front of a buffer; a short buffer meets 15 last.
pub fn narrow(journal: &[u8], buffer: &mut [u8]) -> Result<(), Number> {
    check(journal).map_err(|met| met.number)?;
    let front = buffer.get_mut(..journal.len()).ok_or(Number::Buffer)?;
    front.copy_from_slice(journal);
    Ok(())
}

#[cfg(test)]
mod tests {
    use super::*;
    use crate::text;

    /// Where a journal made of these parts, lines of text or bytes as they are, meets a number, and which.
    fn met(parts: &[&[u8]]) -> Option<(usize, Number)> {
        let records = |part: &&[u8]| text::records(part).unwrap_or_else(|_| part.to_vec());
        let journal = parts.iter().flat_map(records).collect::<Vec<u8>>();
        check(&journal).err().map(|met| (met.place, met.number))
    }

    /// Each call of a consumer, behind a mark for consumers above 64.
    const WIDE: [&str; 5] = ["declare 65 1 1", "commit 1 300 1", "release 1 256 1", "meter 255 1", "mean 66 1"];

    #[test]
    fn a_journal_without_such_a_mark_is_accepted() {
        assert_eq!(met(&[]), None);
        assert_eq!(
            met(&[b"year 720 120 4\ndeclare 64 1 1\nfix 1\ncommit 1 64 1\nmeter 1 1\nmean 2 2\nclose 0\n"]),
            None
        );
        // a record that the book refuses, whatever it holds
        assert_eq!(
            met(&[b"DM\x41\0\0\0\0\0\0\0\0", b"MT\xFF\xFF\xFF\xFF\xFF", b"close 0\nyear 0 0 0\ntest 0 9 9 9 1 7\n"]),
            None
        );
    }

    #[test]
    fn each_such_mark_meets_18() {
        for line in WIDE {
            assert_eq!(met(&[line.as_bytes()]), Some((0, Number::Above64)));
            assert_eq!(met(&[b"year 720 120 4\n", line.as_bytes(), b"close 1\n"]), Some((7, Number::Above64)));
        }
    }

    #[test]
    fn ranges_are_not_tested() {
        for record in [&b"mt\x01\0\0\0\0\0"[..], b"mt\x2D\x01\0\0\0\0", b"at\0\0\xFF\xFF\xFF\xFF", b"cm\0\0\0\0\0\0\0"]
        {
            assert_eq!(met(&[b"fix 0", record]), Some((6, Number::Above64)));
        }
    }

    #[test]
    fn the_first_record_to_meet_a_number_decides() {
        for line in WIDE {
            let wide = text::records(line).unwrap();
            let wide = &wide[..];
            for length in 1..wide.len() {
                assert_eq!(met(&[b"fix 1", &wide[..length]]), Some((6, Number::CutShort)));
                assert_eq!(met(&[wide, &wide[..length]]), Some((0, Number::Above64)));
            }
            assert_eq!(met(&[b"fix 1", b"ZZ", wide]), Some((6, Number::UnknownMark)));
            assert_eq!(met(&[b"fix 1", wide, b"ZZ"]), Some((6, Number::Above64)));
            assert_eq!(met(&[b"fix 1", wide, b"Z"]), Some((6, Number::Above64)));
        }
        assert_eq!(met(&[b"fix 1", b"Y"]), Some((6, Number::CutShort)));
        assert_eq!(met(&[b"fix 1", b"ZZ"]), Some((6, Number::UnknownMark)));
    }

    #[test]
    fn a_short_buffer_meets_15_last() {
        let journal = text::records("year 720 120 4\ndeclare 64 1 1\n").unwrap();
        let wide = [&journal[..], &text::records("declare 65 1 1\n").unwrap()].concat();
        for room in 0..journal.len() + 5 {
            let mut buffer = vec![0xAA; room];
            assert_eq!(narrow(&journal[..journal.len() - 1], &mut []), Err(Number::CutShort));
            assert_eq!(narrow(&wide, &mut buffer), Err(Number::Above64));
            assert_eq!(buffer, vec![0xAA; room]);
            if room < journal.len() {
                assert_eq!(narrow(&journal, &mut buffer), Err(Number::Buffer));
                assert_eq!(buffer, vec![0xAA; room]);
            } else {
                assert_eq!(narrow(&journal, &mut buffer), Ok(()));
                assert_eq!(buffer, [&journal[..], &vec![0xAA; room - journal.len()]].concat());
            }
        }
        assert_eq!(narrow(&[], &mut []), Ok(()));
    }
}
