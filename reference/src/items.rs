//! The case languages in items, a length of 2 bytes, low byte first, and as many bytes each: records, and outage logs.

use crate::number::Number;
use crate::outages;
use crate::plant::Minutes;
use crate::range;
use crate::record;

/// 01 "Journal records": reads one record of each item and writes it again.
pub fn records(input: &[u8]) -> Result<String, String> {
    each(input, record_answer)
}

/// 02 "A5": takes each item as a log and tells its figures, or the number that it meets.
pub fn outages(input: &[u8]) -> Result<String, String> {
    each(input, outages_answer)
}

/// The answers to the items, a line each.
fn each(input: &[u8], answer: fn(&[u8]) -> String) -> Result<String, String> {
    let mut answers = String::new();
    let mut rest = input;
    while let Some((length, behind)) = rest.split_first_chunk::<2>() {
        let length = usize::from(u16::from_le_bytes(*length));
        let (item, behind) = behind.split_at_checked(length).ok_or("the last item is cut short")?;
        answers.push_str(&answer(item));
        answers.push('\n');
        rest = behind;
    }
    match rest {
        [] => Ok(answers),
        _ => Err("the last length is cut short".to_string()),
    }
}

/// 01 "Journal records": how one item is read, its number 3 or 0, and the record that the writer makes of it.
fn record_answer(item: &[u8]) -> String {
    if item.is_empty() {
        return "end".to_string();
    }
    let (call, next) = match record::read(item, 0) {
        Ok(record) => record,
        Err(number) => return format!("stop {}", number as u8),
    };
    let fields: Vec<String> = call.fields().iter().map(u32::to_string).collect();
    let number = if range::holds(&call) { 0 } else { Number::Range as u8 };
    let mut buffer = vec![0; next];
    let written = match record::write(&call, &mut buffer) {
        Ok(length) => hexadecimal(&buffer[..length]),
        Err(number) => (number as u8).to_string(),
    };
    format!("read {} {next} {} {number} {written}", hexadecimal(&item[..2]), fields.join(" "))
}

/// Bytes as lowercase hexadecimal digits.
fn hexadecimal(bytes: &[u8]) -> String {
    bytes.iter().map(|byte| format!("{byte:02x}")).collect()
}

/// 02 "A5": 0 and HD, HMP, HIF and HED of one log, or the number alone.
fn outages_answer(log: &[u8]) -> String {
    match outages::figures(log) {
        Ok(Minutes { hd, hmp, hif, hed }) => format!("0 {hd} {hmp} {hif} {hed}"),
        Err(number) => (number as u8).to_string(),
    }
}

#[cfg(test)]
mod tests {
    use super::*;

    #[test]
    fn records_are_read_and_written_again() {
        let year = [0x59, 0x52, 0xD0, 2, 120, 0, 4];
        let mut input = vec![9, 0];
        input.extend_from_slice(&year);
        input.extend_from_slice(&[0xFF, 0xFF]);
        input.extend_from_slice(&[0, 0, 1, 0, 0x59, 2, 0, 0, 0]);
        input.extend_from_slice(&[4, 0, 0x43, 0x4C, 0, 0]);
        input.extend_from_slice(&[11, 0, 0x54, 0x53, 1, 0, 1, 4, 1, 1, 2, 0, 0]);
        input.extend_from_slice(b"\x07\0MT\x41\x07\0\0\0\x08\0mt\x41\0\x07\0\0\0\x08\0mt\x40\0\x07\0\0\0");
        let answers = "read 5952 7 720 120 4 0 5952d002780004\nend\nstop 1\nstop 2\nread 434c 4 0 3 3\n\
                       read 5453 11 1 0 1 4 1 0 5453010001040101020000\nread 4d54 7 0 7 3 3\n\
                       read 6d74 8 65 7 0 6d74410007000000\nread 6d74 8 0 7 3 3\n";
        assert_eq!(records(&input).unwrap(), answers);
        assert!(records(&[1]).is_err() && records(&[1, 0]).is_err());
    }

    #[test]
    fn logs_have_a_number_or_figures() {
        let mut input = vec![21, 0, 100, 0, 0, 0, 110, 0, 0, 0, 5, 0, 0, 0, 98, 0, 0, 0, 103, 0, 0, 0, 2];
        input.extend_from_slice(&[12, 0, 9, 0, 0, 0, 9, 0, 0, 0, 5, 0, 0, 0]);
        input.extend_from_slice(&[0, 0, 1, 0, 7]);
        assert_eq!(outages(&input).unwrap(), "0 7 0 3 5\n17\n3\n3\n");
        assert_eq!(outages(&[]).unwrap(), "");
        assert!(outages(&[1]).is_err() && outages(&[1, 0]).is_err());
    }
}
