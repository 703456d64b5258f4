//! Journals written as text, one call on each line, into records.

use crate::call::{row, Form, CALLS, FORMS};
use crate::field::{decimal, CONSUMER, READING};

/// What some editors put before the first line of a text.
const BYTE_ORDER_MARK: &[u8] = &[0xEF, 0xBB, 0xBF];

/// The two bytes of which a line's end has either, or both in this order.
const CARRIAGE_RETURN: u8 = b'\r';
const LINE_FEED: u8 = b'\n';

/// 01 "Journal records": turns lines of names and decimal fields into records; the first line that is none is named.
pub fn records(text: impl AsRef<[u8]>) -> Result<Vec<u8>, String> {
    let text = text.as_ref();
    let text = text.strip_prefix(BYTE_ORDER_MARK).unwrap_or(text);
    let mut journal = Vec::new();
    for (place, line) in (1..).zip(lines_of(text)) {
        let record = record_of_line(line).map_err(|reason| format!("line {place}: {reason}"))?;
        journal.extend_from_slice(&record);
    }
    Ok(journal)
}

/// The lines of a text without their ends, of which a carriage return with a line feed behind it is one.
fn lines_of(text: &[u8]) -> impl Iterator<Item = &[u8]> {
    let before_line_feeds = text.split(|&byte| byte == LINE_FEED);
    let before_ends = before_line_feeds.map(|part| part.strip_suffix(&[CARRIAGE_RETURN]).unwrap_or(part));
    before_ends.flat_map(|part| part.split(|&byte| byte == CARRIAGE_RETURN))
}

/// A line as text; its first byte that is none, a control character other than tab or a byte that is not UTF-8, is named.
fn text_of_line(line: &[u8]) -> Result<&str, String> {
    let text = line.utf8_chunks().next().map_or("", |chunk| chunk.valid());
    let control = text.find(|character: char| character.is_ascii_control() && character != '\t');
    match line.get(control.unwrap_or(text.len())) {
        Some(byte) => Err(format!("byte {byte} is no text")),
        None => Ok(text),
    }
}

/// 01 "Journal records": the record of one line, no bytes if it has no call; `#` starts a comment.
fn record_of_line(line: &[u8]) -> Result<Vec<u8>, String> {
    let mut words = text_of_line(line)?.split('#').next().unwrap_or("").split_whitespace();
    let Some(name) = words.next() else { return Ok(Vec::new()) };
    let words: Vec<&str> = words.collect();
    record_of(form_of(name, &words).ok_or_else(|| no_such_call(name))?, &words)
}

/// 02 "A7": the form of a call's name, of the two that a call of a consumer has the one that the consumer's number picks.
fn form_of(name: &str, words: &[&str]) -> Option<&'static Form> {
    let form = row(name, 0)?;
    let place = form.fields.iter().position(|field| field.name == CONSUMER.name);
    let consumer = place.and_then(|place| decimal(words.get(place)?));
    row(name, consumer.unwrap_or(0))
}

/// 01 "Journal records": one record from its decimal fields, a test's readings following its count.
fn record_of(form: &Form, words: &[&str]) -> Result<Vec<u8>, String> {
    let test = form.name == "test";
    let own = if test { words.len().min(form.fields.len()) } else { words.len() };
    let (words, readings) = words.split_at(own);
    if words.len() != form.fields.len() {
        return Err(fields_against(form, words.len()));
    }
    let mut record = form.mark.to_vec();
    for (word, field) in words.iter().zip(form.fields) {
        record.extend(field.bytes(word)?);
    }
    if test && usize::from(record[6]) != readings.len() {
        return Err(readings_against(record[6], readings.len()));
    }
    for word in readings {
        record.extend(READING.bytes(word)?);
    }
    Ok(record)
}

/// What is said of a name that is no call's.
fn no_such_call(name: &str) -> String {
    let names: Vec<&str> = FORMS[..CALLS].iter().map(|form| form.name).collect();
    format!("{name}: no such call; the calls are {}", names.join(" "))
}

/// What is said of a number of fields that the call does not have.
fn fields_against(form: &Form, given: usize) -> String {
    let names: Vec<&str> = form.fields.iter().map(|field| field.name).collect();
    let behind = if form.name == "test" { ", then its readings" } else { "" };
    let (fields, are) = (counted(names.len(), "field"), are(given));
    format!("{} has {fields}, {}{behind}; {given} {are} given", form.name, names.join(" "))
}

/// What is said of a number of readings that is not a test's count.
fn readings_against(count: u8, given: usize) -> String {
    format!("test: count is {count}; {} {} given", counted(given, "reading"), are(given))
}

/// A number of things, the thing in the plural but for one.
fn counted(number: usize, thing: &str) -> String {
    let ending = if number == 1 { "" } else { "s" };
    format!("{number} {thing}{ending}")
}

/// The verb behind a number of things.
fn are(number: usize) -> &'static str {
    if number == 1 {
        "is"
    } else {
        "are"
    }
}

#[cfg(test)]
mod tests {
    use super::*;

    /// What is said of one line that stands behind a call and a comment, and before another that is wrong.
    fn said(line: &str) -> String {
        let message = records(format!("fix 1\n# a comment\n{line}\nfix\n")).unwrap_err();
        message.strip_prefix("line 3: ").expect("the first wrong line is named").to_string()
    }

    #[test]
    fn comments_and_blank_lines_are_skipped() {
        assert_eq!(records("\n# nothing\n  \nfix 1 # one\n").unwrap(), [0x46, 0x58, 1, 0, 0, 0]);
        assert_eq!(records("").unwrap(), []);
        assert_eq!(records("#").unwrap(), []);
    }

    #[test]
    fn the_last_line_needs_no_line_feed() {
        assert_eq!(records("fix 1").unwrap(), records("fix 1\n").unwrap());
        assert_eq!(records("fix 1\nfix").unwrap_err(), "line 2: fix has 1 field, DMP; 0 are given");
    }

    #[test]
    fn each_end_of_a_line_counts_once() {
        let plain = records("year 720 120 4\n\nfix 1\nclose 1\n").unwrap();
        for end in ["\n", "\r\n", "\r"] {
            let text = ["year 720 120 4", "", "fix 1", "close 1"].join(end);
            assert_eq!(records(&text).unwrap(), plain);
            assert_eq!(records(text.clone() + end).unwrap(), plain);
            let message = "line 5: fix has 1 field, DMP; 0 are given";
            assert_eq!(records([text.as_str(), "fix", "x"].join(end)).unwrap_err(), message);
        }
        for (text, line) in [("\r\r\nx", 3), ("\n\rx", 3), ("\r\n\rx", 3), ("\n\r\nx\r", 3), ("\r\n\r\n\n\r\rx", 6)] {
            assert!(records(text).unwrap_err().starts_with(&format!("line {line}: x: no such call; ")), "{text:?}");
        }
    }

    #[test]
    fn a_comment_ends_with_its_line() {
        for end in ["\n", "\r\n", "\r"] {
            assert_eq!(records(format!("# a comment{end}fix 1")).unwrap(), records("fix 1").unwrap());
        }
    }

    #[test]
    fn a_byte_order_mark_and_line_ends_of_two_bytes_are_taken() {
        let plain = records("year 720 120 4\n\nfix 1 # año\nclose 1").unwrap();
        assert_eq!(records("\u{FEFF}year 720 120 4\r\n\r\nfix 1 # año\r\nclose 1\r\n").unwrap(), plain);
        assert_eq!(records("year 720 120 4\r\nfix\r\n").unwrap_err(), "line 2: fix has 1 field, DMP; 0 are given");
        assert_eq!(records("\u{FEFF}").unwrap(), []);
        let message = "line 2: \u{FEFF}fix: no such call; ";
        assert!(records("fix 1\n\u{FEFF}fix 1\n").unwrap_err().starts_with(message));
    }

    #[test]
    fn a_byte_that_is_no_text_is_named_with_its_line() {
        assert_eq!(records(b"fix 1\n\nfix \xFF1\n").unwrap_err(), "line 3: byte 255 is no text");
        assert_eq!(records(b"fix 1 # a\xF1o\n").unwrap_err(), "line 1: byte 241 is no text");
        assert_eq!(records(b"fix 1 # \xC3\nfix 1\n").unwrap_err(), "line 1: byte 195 is no text");
        assert_eq!(records(b"fix x\n\xFF\n").unwrap_err(), "line 1: DMP: x is not a power in kW, 1 to 3000000");
        assert_eq!(records(b"\xFF\xFEf\0i\0x\0").unwrap_err(), "line 1: byte 255 is no text");
    }

    #[test]
    fn a_control_character_is_no_text() {
        for byte in (0..=31).chain([127]).filter(|byte| !b"\t\n\r".contains(byte)) {
            let message = format!("line 2: byte {byte} is no text");
            for line in [&[byte][..], &[b"fix 1", &[byte][..]].concat(), &[b"# a", &[byte][..], b"b"].concat()] {
                assert_eq!(records([b"fix 1\n", line, b"\nfix\n"].concat()).unwrap_err(), message);
            }
        }
        assert_eq!(records("\tfix\t1\t#\tone\n").unwrap(), records("fix 1").unwrap());
        assert_eq!(records("fix 1 # \u{20}~\u{80}").unwrap(), records("fix 1").unwrap());
    }

    #[test]
    fn the_first_byte_of_a_line_that_is_no_text_is_named() {
        assert_eq!(records(b"fix 1 # \0\xFF").unwrap_err(), "line 1: byte 0 is no text");
        assert_eq!(records(b"fix 1 # \xFF\0").unwrap_err(), "line 1: byte 255 is no text");
        assert_eq!(records(b"fix 1 # \xC3\x1B").unwrap_err(), "line 1: byte 195 is no text");
        assert_eq!(records(b"fix 1 # \xC3\xB1\x1B\x7F").unwrap_err(), "line 1: byte 27 is no text");
        assert_eq!(records(b"conmit \x01\n\0").unwrap_err(), "line 1: byte 1 is no text");
        assert_eq!(records(b"f\0i\0x\0\n\0").unwrap_err(), "line 1: byte 0 is no text");
    }

    #[test]
    fn a_name_that_is_no_call_is_named_with_the_calls() {
        let calls = "the calls are year unit test availability declare fix commit release meter close mean";
        for name in ["conmit", "Fix", "fix,", "1"] {
            assert_eq!(said(&format!("{name} 1")), format!("{name}: no such call; {calls}"));
        }
    }

    #[test]
    fn fields_are_counted() {
        let cases = [
            ("year 720 120", "year has 3 fields, NHRM NHMD NDHMD; 2 are given"),
            ("unit 1 1 1 17 0 0 0 0", "unit has 9 fields, unit producer kind flags PIC PPR E1 E2 CAP; 8 are given"),
            ("test", "test has 5 fields, unit component ending TC count, then its readings; 0 are given"),
            ("test 1 0 0 4", "test has 5 fields, unit component ending TC count, then its readings; 4 are given"),
            ("availability 1", "availability has 6 fields, unit component HD HMP HIF HED; 1 is given"),
            ("declare 1 2 3 4", "declare has 3 fields, consumer D A; 4 are given"),
            ("fix", "fix has 1 field, DMP; 0 are given"),
            ("fix 1 2", "fix has 1 field, DMP; 2 are given"),
            ("commit 1 2", "commit has 3 fields, producer consumer q; 2 are given"),
            ("release 1", "release has 3 fields, producer consumer q; 1 is given"),
            ("meter 1", "meter has 2 fields, consumer Dreal; 1 is given"),
            ("close", "close has 1 field, P; 0 are given"),
            ("mean 6", "mean has 2 fields, consumer mean; 1 is given"),
        ];
        for (line, message) in cases {
            assert_eq!(said(line), message);
        }
    }

    #[test]
    fn readings_are_counted() {
        assert_eq!(said("test 1 0 0 4 2 1"), "test: count is 2; 1 reading is given");
        assert_eq!(said("test 1 0 0 4 2"), "test: count is 2; 0 readings are given");
        assert_eq!(said("test 1 0 0 4 1 1 1"), "test: count is 1; 2 readings are given");
        assert_eq!(said("test 1 0 0 4 0 x"), "test: count is 0; 1 reading is given");
        assert_eq!(said("test 1 0 0 4 255"), "test: count is 255; 0 readings are given");
    }

    #[test]
    fn a_word_that_is_no_decimal_number_or_too_large_for_its_field_is_named() {
        for word in ["x", "-1", "+1", "1.5", "3,000,000", "0x10", "4294967296", "99999999999999999999999999"] {
            assert_eq!(said(&format!("fix {word}")), format!("DMP: {word} is not a power in kW, 1 to 3000000"));
        }
        assert_eq!(said("year 65536 x 1"), "NHRM: 65536 is not hours, 1 to 744");
        assert_eq!(said("unit 70000 1 1 17 0 0 0 0 0"), "unit: 70000 is not a unit, 1 to 48");
        assert_eq!(said("unit 256 1 1 17 0 0 0 0 0"), "unit: 256 is not a unit, 1 to 48");
        assert_eq!(said("declare 1 5000000000 1"), "D: 5000000000 is not a power in kW, 0 to 3000000");
        assert_eq!(said("test 1 0 0 4 2 1 x"), "reading: x is not a reading in kWh, 0 to 750000");
        assert_eq!(said("mean 6 4294967296"), "mean: 4294967296 is not a power in kW, 0 to 3000000");
        assert_eq!(said("mean 300 4294967296"), "mean: 4294967296 is not a power in kW, 0 to 3000000");
        for word in ["65536", "70000", "99999999999999999999999999", "x", "-1", "6_5"] {
            let message = format!("consumer: {word} is not a consumer, 1 to 300");
            for line in ["declare c 1 1", "meter c 1", "mean c 1", "commit 1 c 1", "release 1 c 1"] {
                assert_eq!(said(&line.replace(" c ", &format!(" {word} "))), message);
            }
        }
        assert_eq!(said("commit 256 70000 1"), "producer: 256 is not a producer, 1 to 16");
        assert_eq!(said("declare 70000 1"), "declare has 3 fields, consumer D A; 2 are given");
    }

    #[test]
    fn what_a_width_holds_is_written_in_range_or_not() {
        assert_eq!(records("close 65535").unwrap(), [0x43, 0x4C, 0xFF, 0xFF]);
        assert_eq!(records("close 0").unwrap(), [0x43, 0x4C, 0, 0]);
        assert_eq!(records("close 0000001").unwrap(), [0x43, 0x4C, 1, 0]);
        assert_eq!(records("meter 0 4294967295").unwrap(), [0x4D, 0x54, 0, 0xFF, 0xFF, 0xFF, 0xFF]);
        assert_eq!(records("mean 65535 4294967295").unwrap(), [0x61, 0x74, 0xFF, 0xFF, 0xFF, 0xFF, 0xFF, 0xFF]);
        assert_eq!(records("test 0 9 9 9 1 4294967295").unwrap()[2..], [0, 9, 9, 9, 1, 0xFF, 0xFF, 0xFF, 0xFF]);
    }
}
