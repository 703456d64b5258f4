//! Records into lines, one call on each, as a journal written as text has them.

use std::fmt::Write;

use crate::call::Call;
use crate::journal;
use crate::number::in_words;

/// 01 "Journal records": a call in words, its name and its fields, and for a test at most so many of its readings.
pub fn write_call(call: &Call, most_readings: usize, text: &mut String) {
    text.push_str(call.form().name);
    let mut put = |value: u32| write!(text, " {value}").expect("text is written to memory");
    call.fields().into_iter().for_each(&mut put);
    if let Call::Test(test) = call {
        test.run.kwh().take(most_readings).for_each(&mut put);
    }
}

/// The lines of a journal, and where and why the reading stopped, if it did.
#[derive(Debug, PartialEq, Eq)]
pub struct Lines {
    pub text: String,
    pub stopped: Option<String>,
}

/// 01 "Journal records", "Numbered replies": a line for each record, its place and reply behind it as a comment, and one for a stop.
pub fn lines(journal: &[u8]) -> Lines {
    let mut text = String::new();
    let run = journal::run_with(journal, |place, call, number| {
        write_call(call, usize::MAX, &mut text);
        writeln!(text, " # at byte {place}: {}", in_words(number)).expect("text is written to memory");
    });
    let stopped = run.stopped();
    if let Some(stopped) = &stopped {
        writeln!(text, "# {stopped}").expect("text is written to memory");
    }
    Lines { text, stopped }
}

#[cfg(test)]
mod tests {
    use super::*;
    use crate::random;
    use crate::record;
    use crate::text::records;

    /// The lines without their comments.
    fn calls(lines: &str) -> String {
        lines.lines().filter_map(|line| line.split_once(" # ")).map(|(call, _)| format!("{call}\n")).collect()
    }

    #[test]
    fn lines_and_records_turn_into_each_other() {
        let text = "year 720 120 4\nunit 48 16 8 15 1 2 3 4 4294967295\ntest 1 2 0 4 2 7 750001\n\
                    availability 1 0 1 2 3 4\ndeclare 64 5 6\nfix 1\ncommit 1 2 3\nrelease 1 2 3\n\
                    meter 1 0\nclose 65535\nmean 6 300\ndeclare 65 5 6\ncommit 1 255 3\nrelease 1 256 3\n\
                    meter 299 0\nmean 300 300\nmeter 0 5\n";
        let journal = records(text).unwrap();
        assert_eq!(calls(&lines(&journal).text), text);
        assert_eq!(records(lines(&journal).text).unwrap(), journal);
    }

    #[test]
    fn each_line_has_its_place_and_reply() {
        let journal = records("fix 0\nyear 720 120 4\nfix 5\ntest 2 0 0 4 1 7\n").unwrap();
        let expected = "fix 0 # at byte 0: 3 field outside its range\n\
                        year 720 120 4 # at byte 6: 0 accepted\n\
                        fix 5 # at byte 13: 13 weights sum to 0\n\
                        test 2 0 0 4 1 7 # at byte 19: 6 unit not enrolled\n";
        assert_eq!(lines(&journal), Lines { text: expected.to_string(), stopped: None });
        assert_eq!(lines(b""), Lines { text: String::new(), stopped: None });
    }

    #[test]
    fn a_stop_is_the_last_line_and_is_told_apart() {
        let journal = records("year 720 120 4\nfix 5\n").unwrap();
        let year = "year 720 120 4 # at byte 0: 0 accepted\n";
        let stopped = "reading stopped at byte 7: 1 record cut short".to_string();
        for length in 8..journal.len() {
            let expected = Lines { text: format!("{year}# {stopped}\n"), stopped: Some(stopped.clone()) };
            assert_eq!(lines(&journal[..length]), expected);
        }
        let stopped = "reading stopped at byte 0: 2 unknown mark".to_string();
        assert_eq!(lines(&[0, 0]), Lines { text: format!("# {stopped}\n"), stopped: Some(stopped) });
    }

    #[test]
    fn every_reading_of_a_count_above_96_has_its_place() {
        let text = format!("test 1 0 0 96 255{}\n", " 4294967295".repeat(255));
        let journal = records(&text).unwrap();
        assert_eq!(calls(&lines(&journal).text), text);
    }

    /// 02 "A7": the record of one byte and consumer 0 in place of each record whose form does not take its consumer, and how many these were.
    fn with_consumer_0(journal: &[u8]) -> (Vec<u8>, u32) {
        let (mut records, mut changed, mut place) = (Vec::new(), 0, 0);
        while place < journal.len() {
            let (call, next) = record::read(journal, place).expect("the journal has no stop");
            let record = record::bytes(&call);
            if record != journal[place..next] {
                let mut text = String::new();
                write_call(&call, 0, &mut text);
                assert!(text.split(' ').any(|word| word == "0"), "{text}");
                changed += 1;
            }
            records.extend(record);
            place = next;
        }
        (records, changed)
    }

    #[test]
    fn random_journals_turn_into_lines_and_back_up_to_the_stop() {
        let mut journals_changed = 0;
        for number in 0..300 {
            let journal = random::journal(5, number);
            let journal = &journal[..journal::run(&journal).place];
            let (expected, changed) = with_consumer_0(journal);
            let again = records(lines(journal).text).unwrap();
            assert_eq!(again, expected);
            assert_eq!(calls(&lines(&again).text), calls(&lines(journal).text));
            assert!(changed > 0 || again == journal);
            journals_changed += u32::from(changed > 0);
        }
        assert!((30..270).contains(&journals_changed), "{journals_changed}");
    }
}
