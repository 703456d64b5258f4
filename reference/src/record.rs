//! The reader and the writer of one record.

use crate::call::{Availability, Call, Contract, Declare, Form, Mean, Meter, Test, Unit, Year};
use crate::number::Number;
use crate::plant::{Minutes, PowerTest};
use crate::range::{self, CONSUMERS, CONSUMERS_IN_A_BYTE};

/// 01 "Journal records": reads the record at a place and returns its call and the place behind it; stops with 1 or 2.
pub fn read(journal: &[u8], place: usize) -> Result<(Call<'_>, usize), Number> {
    let rest = &journal[place..];
    let mark = front::<2>(rest)?;
    let body = &rest[2..];
    let (call, length) = match mark {
        [0x59, 0x52] => {
            let b = front::<5>(body)?;
            (Call::Year(Year { nhrm: two(b, 0), nhmd: two(b, 2), ndhmd: b[4] }), 5)
        }
        [0x55, 0x4E] => {
            let b = front::<24>(body)?;
            let unit = Unit {
                unit: b[0],
                producer: b[1],
                kind: b[2],
                flags: b[3],
                pic: four(b, 4),
                ppr: four(b, 8),
                e1: four(b, 12),
                e2: four(b, 16),
                cap: four(b, 20),
            };
            (Call::Unit(unit), 24)
        }
        [0x54, 0x53] => {
            let b = front::<5>(body)?;
            let length = 5 + 4 * usize::from(b[4]);
            let readings = body.get(5..length).ok_or(Number::CutShort)?;
            let run = PowerTest { ending: b[2], tc: b[3], count: b[4], readings };
            (Call::Test(Test { unit: b[0], component: b[1], run }), length)
        }
        [0x41, 0x56] => {
            let b = front::<18>(body)?;
            let minutes = Minutes { hd: four(b, 2), hmp: four(b, 6), hif: four(b, 10), hed: four(b, 14) };
            (Call::Availability(Availability { unit: b[0], component: b[1], minutes }), 18)
        }
        [0x44, 0x4D] => {
            let b = front::<9>(body)?;
            (Call::Declare(Declare { consumer: of_a_byte(b[0]), d: four(b, 1), a: four(b, 5) }), 9)
        }
        [0x46, 0x58] => (Call::Fix(four(front::<4>(body)?, 0)), 4),
        [0x43, 0x4D] => (Call::Commit(contract(front(body)?)), 6),
        [0x52, 0x4C] => (Call::Release(contract(front(body)?)), 6),
        [0x4D, 0x54] => {
            let b = front::<5>(body)?;
            (Call::Meter(Meter { consumer: of_a_byte(b[0]), dreal: four(b, 1) }), 5)
        }
        [0x43, 0x4C] => (Call::Close(two(front::<2>(body)?, 0)), 2),
        [0x41, 0x54] => {
            let b = front::<5>(body)?;
            (Call::Mean(Mean { consumer: of_a_byte(b[0]), mean: four(b, 1) }), 5)
        }
        [0x64, 0x6D] => {
            let b = front::<10>(body)?;
            (Call::Declare(Declare { consumer: above_64(two(b, 0)), d: four(b, 2), a: four(b, 6) }), 10)
        }
        [0x63, 0x6D] => (Call::Commit(contract_above_64(front(body)?)), 7),
        [0x72, 0x6C] => (Call::Release(contract_above_64(front(body)?)), 7),
        [0x6D, 0x74] => {
            let b = front::<6>(body)?;
            (Call::Meter(Meter { consumer: above_64(two(b, 0)), dreal: four(b, 2) }), 6)
        }
        [0x61, 0x74] => {
            let b = front::<6>(body)?;
            (Call::Mean(Mean { consumer: above_64(two(b, 0)), mean: four(b, 2) }), 6)
        }
        _ => return Err(Number::UnknownMark),
    };
    Ok((call, place + 2 + length))
}

/// 01 "Numbered replies", 1: the first N bytes, or a record cut short.
fn front<const N: usize>(bytes: &[u8]) -> Result<&[u8; N], Number> {
    bytes.first_chunk::<N>().ok_or(Number::CutShort)
}

/// 01 "Journal records": the fields of commit and of release.
fn contract(b: &[u8; 6]) -> Contract {
    Contract { producer: b[0], consumer: of_a_byte(b[1]), q: four(b, 2) }
}

/// 02 "A7": these fields behind the marks for consumers above 64.
fn contract_above_64(b: &[u8; 7]) -> Contract {
    Contract { producer: b[0], consumer: above_64(two(b, 1)), q: four(b, 3) }
}

/// 02 "A7": the consumer of a field of one byte, which takes 1 to 64; any other is read as consumer 0, of which there is none.
fn of_a_byte(field: u8) -> u16 {
    let number = u16::from(field);
    if number <= CONSUMERS_IN_A_BYTE {
        number
    } else {
        0
    }
}

/// 02 "A7": the consumer of a field of two bytes, which takes 65 to 300; any other is read as consumer 0, of which there is none.
fn above_64(field: u16) -> u16 {
    if field > CONSUMERS_IN_A_BYTE && usize::from(field) <= CONSUMERS {
        field
    } else {
        0
    }
}

/// 01 "Journal records": a field of 2 bytes, low byte first.
fn two<const N: usize>(b: &[u8; N], at: usize) -> u16 {
    u16::from_le_bytes([b[at], b[at + 1]])
}

/// 01 "Journal records": a field of 4 bytes, low byte first.
fn four<const N: usize>(b: &[u8; N], at: usize) -> u32 {
    u32::from_le_bytes([b[at], b[at + 1], b[at + 2], b[at + 3]])
}

/// 01 "Journal records": the bytes of a call's record, mark, fields and a test's readings, whatever its ranges.
pub fn bytes(call: &Call) -> Vec<u8> {
    bytes_in(call.form(), call)
}

/// 02 "A7": the bytes of a call in one of the forms that calls of its name have, whether or not this form takes its consumer.
pub fn bytes_in(form: &Form, call: &Call) -> Vec<u8> {
    let mut record = form.mark.to_vec();
    for (value, field) in call.fields().iter().zip(form.fields) {
        record.extend_from_slice(&value.to_le_bytes()[..field.width]);
    }
    if let Call::Test(test) = call {
        record.extend_from_slice(test.run.readings);
    }
    record
}

/// 01 "Journal records", the writer: puts a call's record at the front of a buffer, returns its length; meets 3, 15.
pub fn write(call: &Call, buffer: &mut [u8]) -> Result<usize, Number> {
    if !range::holds(call) {
        return Err(Number::Range);
    }
    let record = bytes(call);
    let front = buffer.get_mut(..record.len()).ok_or(Number::Buffer)?;
    front.copy_from_slice(&record);
    Ok(record.len())
}

#[cfg(test)]
mod tests {
    use super::*;
    use crate::call::{above_64, row};

    /// 02 "A7": the consumers that the five calls of a consumer have when they are read from records of one form with this number in its field.
    fn read_from(in_a_byte: bool, number: u16) -> [u16; 5] {
        let contract = Contract { producer: 1, consumer: number, q: 7 };
        let calls = [
            ("declare", Call::Declare(Declare { consumer: number, d: 5, a: 6 })),
            ("commit", Call::Commit(contract)),
            ("release", Call::Release(contract)),
            ("meter", Call::Meter(Meter { consumer: number, dreal: 8 })),
            ("mean", Call::Mean(Mean { consumer: number, mean: 9 })),
        ];
        calls.map(|(name, call)| {
            let form = row(name, if in_a_byte { 1 } else { 300 }).unwrap();
            let record = bytes_in(form, &call);
            let (read, next) = read(&record, 0).expect("the record is whole");
            assert_eq!(next, record.len());
            for length in 1..next {
                assert_eq!(super::read(&record[..length], 0), Err(Number::CutShort));
            }
            let mut fields = read.fields();
            let place = form.fields.iter().position(|field| field.name == "consumer").unwrap();
            let consumer = std::mem::replace(&mut fields[place], number.into());
            assert_eq!((read.form().name, fields), (name, call.fields()));
            assert_eq!(range::holds(&read), consumer > 0);
            consumer as u16
        })
    }

    #[test]
    fn a_byte_takes_consumers_1_to_64() {
        for number in 0..=255 {
            let consumer = if number <= 64 { number } else { 0 };
            assert_eq!(read_from(true, number), [consumer; 5], "{number}");
        }
    }

    #[test]
    fn two_bytes_take_consumers_65_to_300() {
        for number in (0..=1_000).chain([0x4100, 0x4141, 32_768, 65_535]) {
            let consumer = if (65..=300).contains(&number) { number } else { 0 };
            assert_eq!(read_from(false, number), [consumer; 5], "{number}");
        }
    }

    #[test]
    fn marks_for_consumers_above_64_are_those_of_a7() {
        let marks: Vec<([u8; 2], &str)> = above_64().iter().map(|form| (form.mark, form.name)).collect();
        let expected =
            [(*b"dm", "declare"), (*b"cm", "commit"), (*b"rl", "release"), (*b"mt", "meter"), (*b"at", "mean")];
        assert_eq!(marks, expected);
    }

    #[test]
    fn a_call_has_one_record_form() {
        for consumer in 0..=400 {
            let call = Call::Commit(Contract { producer: 16, consumer, q: 0x0003_0201 });
            let [low, high] = consumer.to_le_bytes();
            let record = match consumer {
                1..=64 => vec![b'C', b'M', 16, low, 1, 2, 3, 0],
                65..=300 => vec![b'c', b'm', 16, low, high, 1, 2, 3, 0],
                _ => {
                    let mut buffer = [0xAA; 10];
                    assert_eq!(write(&call, &mut buffer), Err(Number::Range));
                    assert_eq!((write(&call, &mut []), buffer), (Err(Number::Range), [0xAA; 10]));
                    continue;
                }
            };
            for room in 0..12 {
                let mut buffer = vec![0xAA; room];
                if room < record.len() {
                    assert_eq!(write(&call, &mut buffer), Err(Number::Buffer));
                    assert_eq!(buffer, vec![0xAA; room]);
                } else {
                    assert_eq!(write(&call, &mut buffer), Ok(record.len()));
                    assert_eq!(buffer, [&record[..], &vec![0xAA; room - record.len()]].concat());
                }
            }
        }
    }
}
