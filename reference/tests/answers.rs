//! The program's answers: standard output, standard error and the status of `text`, `lines`, `page`, `figures`, `narrow`, `offers`,
//! `plant-offers`, `plants`, `outages` and `logs`.

use std::fs::{self, File};
use std::io::Write;
use std::process::{Command, Output, Stdio};

/// The record of `year 720 120 4`.
const YEAR: &[u8] = b"YR\xD0\x02\x78\0\x04";

/// Its line.
const LINE: &str = "year 720 120 4 # at byte 0: 0 accepted\n";

/// What the program answers to an input, its standard output going where it is sent.
fn answer(words: &[&str], input: &[u8], output: Stdio) -> Output {
    let mut program = Command::new(env!("CARGO_BIN_EXE_reference"));
    let program = program.args(words).stdin(Stdio::piped()).stdout(output).stderr(Stdio::piped());
    let mut program = program.spawn().expect("the program starts");
    program.stdin.take().expect("there is a standard input").write_all(input).expect("the program reads it");
    program.wait_with_output().expect("the program ends")
}

/// Whether the program answers with this standard output, standard error and status.
fn answers(words: &[&str], input: &[u8], output: &[u8], message: &str, status: i32) {
    let answer = answer(words, input, Stdio::piped());
    assert_eq!(answer.stdout, output);
    assert_eq!(String::from_utf8_lossy(&answer.stderr), message);
    assert_eq!(answer.status.code(), Some(status));
}

#[test]
fn lines_of_a_whole_journal_have_no_message() {
    answers(&["lines"], b"", b"", "", 0);
    answers(&["lines"], YEAR, LINE.as_bytes(), "", 0);
    let refused = format!("{LINE}year 720 120 4 # at byte 7: 4 not in this stage\n");
    answers(&["lines"], &YEAR.repeat(2), refused.as_bytes(), "", 0);
}

#[test]
fn lines_of_a_journal_whose_reading_stops_have_a_message_beside_them() {
    for (more, number) in [(&b"Y"[..], "1 record cut short"), (b"ZZ", "2 unknown mark")] {
        let stopped = format!("reading stopped at byte 7: {number}\n");
        let output = format!("{LINE}# {stopped}");
        let message = format!("journal: {stopped}");
        answers(&["lines"], &[YEAR, more].concat(), output.as_bytes(), &message, 1);
    }
}

#[test]
fn a_text_gives_records_or_a_message() {
    answers(&["text"], b"year 720 120 4\r", YEAR, "", 0);
    answers(&["text"], b"meter 65 1\nmeter 64 1", b"mt\x41\0\x01\0\0\0MT\x40\x01\0\0\0", "", 0);
    answers(&["text"], b"meter 65536 1", b"", "line 1: consumer: 65536 is not a consumer, 1 to 300\n", 1);
    answers(&["text"], b"year 720 120 4\r# \0\r", b"", "line 2: byte 0 is no text\n", 1);
}

#[test]
fn pages_follow_each_other_file_by_file() {
    answers(&["page"], YEAR, b"4 0\n", "", 0);
    answers(&["page", "cases/j.txt", "/dev/null"], b"", b"4 0\n4 0\n", "", 0);
    let missing = "cases/none: No such file or directory (os error 2)\n";
    answers(&["page", "cases/j.txt", "cases/none"], b"", b"", missing, 1);
}

#[test]
fn figures_are_a_line_for_each_file() {
    answers(&["figures"], &YEAR.repeat(2), b"2 1 1 0 14 1 7 4\n", "", 0);
    answers(&["figures", "cases/j.txt", "/dev/null"], b"", b"0 0 0 2 0 0 0 0\n0 0 0 0 0 0 0 0\n", "", 0);
    let longer = YEAR.repeat(65_536);
    answers(&["figures"], &longer, b"65536 1 65535 0 458752 1 7 4\n", "", 0);
}

#[test]
fn journals_for_64_consumers_follow_each_other_file_by_file() {
    answers(&["narrow"], YEAR, &[b"0 7\n", YEAR].concat(), "", 0);
    answers(&["narrow"], b"mt\x41\0\x01\0\0\0", b"18 0\n", "", 0);
    answers(&["narrow", "cases/j.txt", "/dev/null"], b"", b"2 0\n0 0\n", "", 0);
    let longer = YEAR.repeat(65_536);
    answers(&["narrow"], &longer, &[b"0 458752\n", &longer[..]].concat(), "", 0);
    let missing = "cases/none: No such file or directory (os error 2)\n";
    answers(&["narrow", "cases/none"], b"", b"", missing, 1);
}

#[test]
fn offers_are_a_line_for_each_unit_of_a_firm_book() {
    let text = "year 720 120 4\nunit 1 1 1 17 0 0 0 0 0\ntest 1 0 0 6 6 2 1 1 1 1 1\navailability 1 0 9 0 1 0\n\
                declare 1 1 1\nfix 1\n";
    let journal = answer(&["text"], text.as_bytes(), Stdio::piped()).stdout;
    answers(&["offers"], &journal, b"1 4 3\n", "", 0);
    answers(&["offers"], YEAR, b"", "", 0);
    answers(&["offers", "cases/j.txt", "/dev/null"], b"", b"", "", 0);
    let missing = "cases/none: No such file or directory (os error 2)\n";
    answers(&["offers", "cases/none"], b"", b"", missing, 1);
}

#[test]
fn offers_of_plant_cases_are_a_line_for_each_that_is_asked_for() {
    let lines = b"0 0 0\n1 0 0 6 6 24 2 1 1 1 1 1\n2 0 9 0 1 0\n3 1 1 0 0 0 0 720 120 4\n";
    answers(&["plant"], lines, b"0 1 4666 0\n0\n4\n", "", 0);
    answers(&["plant-offers"], lines, b"1 4 3\n", "", 0);
    answers(&["plant-offers"], b"0 0 0\n3 1\n", b"", "line 2: no plant case\n", 1);
}

#[test]
fn random_plants_are_files_each_of_which_has_answers() {
    let folder = concat!(env!("CARGO_TARGET_TMPDIR"), "/plants");
    drop(fs::remove_dir_all(folder));
    answers(&["plants", "1", "400", folder], b"", b"", "", 0);
    let mut kinds = [0; 9];
    for file in fs::read_dir(folder).expect("the folder is there") {
        let lines = fs::read(file.expect("a file is there").path()).expect("the file is read");
        assert!(lines.starts_with(b"0 ") && lines.len() <= 65_536);
        let offers = answer(&["plant-offers"], &lines, Stdio::piped());
        assert_eq!((offers.status.code(), offers.stderr), (Some(0), Vec::new()));
        offers.stdout.split(|&byte| byte == b'\n').filter(|line| !line.is_empty()).for_each(|line| {
            kinds[usize::from(line[0] - b'0')] += 1;
        });
    }
    assert!(kinds[1..].iter().all(|&offers| offers >= 50), "{kinds:?}");
    answers(&["plants", "1", "x", folder], b"", b"", &usage(), 1);
}

/// What is said of words that are no subcommand.
fn usage() -> String {
    String::from_utf8(answer(&[], b"", Stdio::piped()).stderr).expect("the usage is text")
}

#[test]
fn figures_of_a_log_are_a_line_for_each_item() {
    let log = b"\x15\0\x64\0\0\0\x6E\0\0\0\x05\0\0\0\x62\0\0\0\x67\0\0\0\x02";
    answers(&["outages"], log, b"0 7 0 3 5\n", "", 0);
    answers(&["outages"], &[&log[..], b"\0\0"].concat(), b"0 7 0 3 5\n3\n", "", 0);
    answers(&["outages"], &log[..22], b"", "the last item is cut short\n", 1);
    answers(&["outages"], b"\0", b"", "the last length is cut short\n", 1);
}

#[test]
fn random_logs_are_items_each_of_which_has_an_answer() {
    let logs = answer(&["logs", "1", "100"], b"", Stdio::piped());
    assert_eq!((logs.status.code(), logs.stderr), (Some(0), Vec::new()));
    let lines = answer(&["outages"], &logs.stdout, Stdio::piped());
    assert_eq!(String::from_utf8_lossy(&lines.stdout).lines().count(), 100);
    answers(&["logs", "1", "0"], b"", b"", "", 0);
}

#[test]
fn output_that_cannot_be_written_is_said() {
    let full = || Stdio::from(File::options().write(true).open("/dev/full").expect("/dev/full is there"));
    let for_reading = || Stdio::from(File::open("/dev/null").expect("/dev/null is there"));
    let no_space = "standard output: No space left on device (os error 28)\n";
    let no_writing = "standard output: Bad file descriptor (os error 9)\n";
    for (output, message) in [(full(), no_space), (for_reading(), no_writing)] {
        let answer = answer(&["text"], b"year 720 120 4\n", output);
        assert_eq!(String::from_utf8_lossy(&answer.stderr), message);
        assert_eq!(answer.status.code(), Some(1));
    }
    let answer = answer(&["lines"], b"Y", full());
    let stopped = "journal: reading stopped at byte 0: 1 record cut short\n";
    assert_eq!(String::from_utf8_lossy(&answer.stderr), format!("{stopped}{no_space}"));
    assert_eq!(answer.status.code(), Some(1));
}

#[test]
fn other_words_give_the_usage() {
    let other: [&[&str]; 11] = [
        &["text", "k.txt"],
        &["lines", "j.journal"],
        &["counts", "96"],
        &["outages", "logs"],
        &["plant", "lines.txt"],
        &["plant-offers", "lines.txt"],
        &["plants", "1", "1"],
        &["logs", "1"],
        &["logs", "1", "x"],
        &["records"],
        &[],
    ];
    for words in other {
        let answer = answer(words, b"", Stdio::piped());
        assert_eq!((answer.stdout, answer.status.code()), (Vec::new(), Some(1)));
        assert!(String::from_utf8_lossy(&answer.stderr).starts_with("usage: reference "));
    }
}
