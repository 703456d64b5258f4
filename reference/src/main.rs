//! The program `reference`: each subcommand reads standard input, or the files it is given, whole and writes standard output.

use std::fs::File;
use std::io::{self, Read, Write};
use std::os::fd::AsFd;
use std::path::Path;
use std::process::ExitCode;

use reference::field::decimal;
use reference::lines::Lines;
use reference::listing::{self, MOST_BYTES};
use reference::{answers, card, cases, desk, items, lines, random, text};

/// The subcommands.
const USAGE: &str = "usage: reference yearbook | desk [FILE..] | page [FILE..] | figures [FILE..] | narrow [FILE..] | \
                     offers [FILE..] | plant | plant-offers | counts | record | outages | replies | text | lines | \
                     random SEED COUNT DIR | plants SEED COUNT DIR | logs SEED COUNT";

/// 01 "Journal in, listing out": the bytes from which the program sees that its input is too long.
const ENOUGH: u64 = MOST_BYTES as u64 + 1;

/// What standard output gets, and a message if something is wrong all the same.
struct Answer {
    output: Vec<u8>,
    message: Option<String>,
}

/// Runs the subcommand that the arguments name; each message is a line on standard error.
fn main() -> ExitCode {
    let arguments: Vec<String> = std::env::args().skip(1).collect();
    let words: Vec<&str> = arguments.iter().map(String::as_str).collect();
    let alone = |message| Answer { output: Vec::new(), message: Some(message) };
    let Answer { output, message } = answer(&words).unwrap_or_else(alone);
    let unwritten = write(&output).err().map(|error| format!("standard output: {error}"));
    let messages: Vec<String> = message.into_iter().chain(unwritten).collect();
    messages.iter().for_each(|message| eprintln!("{message}"));
    if messages.is_empty() {
        ExitCode::SUCCESS
    } else {
        ExitCode::FAILURE
    }
}

/// Writes standard output, to the last byte, as a file: `io::stdout` is content with a descriptor that cannot be written.
fn write(output: &[u8]) -> io::Result<()> {
    File::from(io::stdout().as_fd().try_clone_to_owned()?).write_all(output)
}

/// The answer of one subcommand, or a message alone.
fn answer(words: &[&str]) -> Result<Answer, String> {
    let output = match words {
        ["yearbook"] => listing::yearbook(&input(ENOUGH)?),
        ["desk", files @ ..] => each(files, ENOUGH, desk::parts)?,
        ["page", files @ ..] => each(files, u64::MAX, answers::page)?,
        ["figures", files @ ..] => each(files, u64::MAX, answers::figures)?,
        ["narrow", files @ ..] => each(files, u64::MAX, answers::narrow)?,
        ["offers", files @ ..] => each(files, ENOUGH, answers::offers)?,
        ["plant"] => cases::plant(&input_text()?)?.into_bytes(),
        ["plant-offers"] => cases::plant_offers(&input_text()?)?.into_bytes(),
        ["counts"] => card::counts().into_bytes(),
        ["record"] => items::records(&input(u64::MAX)?)?.into_bytes(),
        ["outages"] => items::outages(&input(u64::MAX)?)?.into_bytes(),
        ["replies"] => answers::replies(&input(u64::MAX)?),
        ["text"] => text::records(input(u64::MAX)?)?,
        ["lines"] => {
            let Lines { text, stopped } = lines::lines(&input(u64::MAX)?);
            let message = stopped.map(|stopped| format!("journal: {stopped}"));
            return Ok(Answer { output: text.into_bytes(), message });
        }
        ["random", seed, count, folder] => written(random::write_journals, seed, count, folder)?,
        ["plants", seed, count, folder] => written(random::plants::write_plants, seed, count, folder)?,
        ["logs", seed, count] => random::logs::items(decimal(seed).ok_or(USAGE)?, decimal(count).ok_or(USAGE)?),
        _ => return Err(USAGE.to_string()),
    };
    Ok(Answer { output, message: None })
}

/// Random files in a folder, which are the answer: nothing is printed.
fn written(
    write: fn(u64, u64, &Path) -> io::Result<()>,
    seed: &str,
    count: &str,
    folder: &str,
) -> Result<Vec<u8>, String> {
    let (seed, count) = (decimal(seed).ok_or(USAGE)?, decimal(count).ok_or(USAGE)?);
    write(seed, count, Path::new(folder)).map_err(|error| error.to_string())?;
    Ok(Vec::new())
}

/// What is printed of standard input or, one behind the other, of the files that are named.
fn each(files: &[&str], most: u64, printed: fn(&[u8]) -> Vec<u8>) -> Result<Vec<u8>, String> {
    if files.is_empty() {
        return Ok(printed(&input(most)?));
    }
    let parts: Result<Vec<Vec<u8>>, String> = files.iter().map(|name| Ok(printed(&file(name, most)?))).collect();
    Ok(parts?.concat())
}

/// The first `most` bytes of standard input, which is read to its end.
fn input(most: u64) -> Result<Vec<u8>, String> {
    let mut bytes = Vec::new();
    let mut source = io::stdin().lock();
    let read = source.by_ref().take(most).read_to_end(&mut bytes);
    let rest = read.and_then(|_| io::copy(&mut source, &mut io::sink()));
    rest.map(|_| bytes).map_err(|error| format!("standard input: {error}"))
}

/// The first `most` bytes of a file.
fn file(name: &str, most: u64) -> Result<Vec<u8>, String> {
    let mut bytes = Vec::new();
    let read = File::open(name).and_then(|file| file.take(most).read_to_end(&mut bytes));
    read.map(|_| bytes).map_err(|error| format!("{name}: {error}"))
}

/// Standard input as text.
fn input_text() -> Result<String, String> {
    String::from_utf8(input(u64::MAX)?).map_err(|_| "standard input is no text".to_string())
}
