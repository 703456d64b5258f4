//! The numbers of 01 "Numbered replies".

/// 01 "Numbered replies": what a stop, a refused call, a division or the writer returns.
#[derive(Clone, Copy, Debug, PartialEq, Eq)]
#[repr(u8)]
pub enum Number {
    /// 1: record cut short.
    CutShort = 1,
    /// 2: unknown mark.
    UnknownMark = 2,
    /// 3: field outside its range; a division's T, weights or their number.
    Range = 3,
    /// 4: stage.
    Stage = 4,
    /// 5: unit already enrolled.
    Enrolled = 5,
    /// 6: unit not enrolled.
    NotEnrolled = 6,
    /// 7: component foreign to kind.
    Component = 7,
    /// 8: ending 0 with count not TC; ending 1 or 2 with count TC or more.
    Count = 8,
    /// 9: HD + HIF + HMP is 0 or above 1,052,640, or HED > HD + HMP.
    Minutes = 9,
    /// 10: consumer not declared (commit, release, meter, mean).
    Undeclared = 10,
    /// 11: producer's balances + q exceed its units' efficient offers.
    Offers = 11,
    /// 12: q above the pair's balance.
    Balance = 12,
    /// 13: weights sum to 0.
    NoWeight = 13,
    /// 14: a DFA above 3,000,000.
    Adjusted = 14,
    /// 15: output buffer shorter than the record, or than a division's amounts.
    Buffer = 15,
    /// 02 "A4", 16, checked before 14: close while a declared consumer has neither a reading nor a mean.
    NoRealDemand = 16,
    /// 02 "A5", 17, after 3: a window or an entry whose end is not after its start, a window too long, or an entry out of order.
    OutOfOrder = 17,
    /// 02 "A7", 18, in the converter: a mark for consumers above 64.
    Above64 = 18,
    /// 02 "A7", 19, after 14: charges above 6,000,000,000,000 cents.
    Charges = 19,
}

/// 01 "Numbered replies": an accepted call returns 0, a refused one its number.
pub fn reply(result: Result<(), Number>) -> u8 {
    match result {
        Ok(()) => 0,
        Err(number) => number as u8,
    }
}

/// 01 "Numbered replies": what each number means in short words, from 0, an accepted call.
const MEANINGS: [&str; 20] = [
    "accepted",
    "record cut short",
    "unknown mark",
    "field outside its range",
    "not in this stage",
    "unit already enrolled",
    "unit not enrolled",
    "component foreign to kind",
    "count of readings against the full time",
    "minutes that cannot be",
    "consumer not declared",
    "above the producer's efficient offers",
    "above the pair's balance",
    "weights sum to 0",
    "adjusted demand above 3,000,000 kW",
    "buffer too short",
    "consumer without a reading or a mean",
    "outage log out of order",
    "mark for consumers above 64",
    "charges above 6,000,000,000,000 cents",
];

/// 01 "Numbered replies": a number and what it means in short words.
pub fn in_words(number: u8) -> String {
    format!("{number} {}", MEANINGS[usize::from(number)])
}

/// 01 "Numbered replies": the column When, from number 1.
const CONDITIONS: [&str; 19] = [
    "record cut short",
    "unknown mark",
    "field outside its range; a division's T, weights or their number",
    "stage",
    "unit already enrolled",
    "unit not enrolled",
    "component foreign to kind",
    "ending 0 with count not TC; ending 1 or 2 with count TC or more",
    "HD + HIF + HMP is 0 or above 1,052,640, or HED > HD + HMP",
    "consumer not declared (commit, release, meter, mean)",
    "producer's balances + q exceed its units' efficient offers",
    "q above the pair's balance",
    "weights sum to 0",
    "a DFA above 3,000,000",
    "output buffer shorter than the record, or than a division's amounts",
    "close while a declared consumer has neither a reading nor a mean",
    "a window or an entry whose end is not after its start, a window too long, or an entry out of order",
    "a mark for consumers above 64",
    "charges above 6,000,000,000,000 cents",
];

/// 01 "Numbered replies": a number and when it is met, as its row has it.
pub fn with_condition(number: Number) -> String {
    let number = number as usize;
    format!("{number} {}", CONDITIONS[number - 1])
}
