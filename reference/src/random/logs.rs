//! Seeded random outage logs.

use super::draw::Draw;
use crate::outages::{Entry, Log, FORCED, HEAD, LAST_MINUTE, MOST_ENTRIES, PLANNED};
use crate::plant::MOST_MINUTES;

/// 02 "A5": `count` logs of a seed, each behind its length of 2 bytes, low byte first.
pub fn items(seed: u64, count: u64) -> Vec<u8> {
    let mut items = Vec::new();
    for number in 0..count {
        let log = log(seed, number);
        items.extend_from_slice(&(log.len() as u16).to_le_bytes());
        items.extend_from_slice(&log);
    }
    items
}

/// 02 "A5": one log of a seed: whole, out of order, out of range, both of these, or of a wrong length.
fn log(seed: u64, number: u64) -> Vec<u8> {
    let draw = &mut Draw::new(seed, number);
    let mut log = whole(draw);
    match draw.between(0, 99) {
        0..=55 => {}
        56..=75 => out_of_order(draw, &mut log),
        76..=88 => out_of_range(draw, &mut log),
        89..=94 => {
            out_of_order(draw, &mut log);
            out_of_range(draw, &mut log);
        }
        _ => {
            if draw.chance(25) {
                out_of_order(draw, &mut log);
            }
            return of_another_length(draw, log.bytes());
        }
    }
    log.bytes()
}

/// 02 "A5": a log in range and in order, but that one in fifty has an entry too many.
fn whole(draw: &mut Draw) -> Log {
    let length = match draw.between(0, 99) {
        0..=4 => 1,
        5 | 6 => MOST_MINUTES,
        7 => draw.between(1, MOST_MINUTES.into()) as u32,
        8..=69 => draw.between(2, 200) as u32,
        _ => draw.between(200, 6_000) as u32,
    };
    let latest = LAST_MINUTE - length;
    let start = match draw.between(0, 19) {
        0..=5 => draw.figure(latest),
        6..=8 => latest - draw.between(0, 300) as u32,
        9 => (1 << 31) - draw.between(0, length.into()) as u32,
        _ => draw.between(0, latest.into()) as u32,
    };
    let hed = match draw.between(0, 19) {
        0..=6 => 0,
        7 => MOST_MINUTES,
        8 | 9 => draw.figure(MOST_MINUTES),
        _ => draw.between(0, length.into()) as u32,
    };
    let count = match draw.between(0, 99) {
        0..=7 => 0,
        8..=18 => 1,
        19..=79 => draw.between(2, 12),
        80..=94 => draw.between(13, 60),
        95 => draw.between(61, 999),
        96 | 97 => MOST_ENTRIES as u64,
        _ => MOST_ENTRIES as u64 + 1,
    };
    let end = start + length;
    let mut entries = entries(draw, start.into(), end.into(), count);
    if let (Some(first), true) = (entries.first_mut(), draw.chance(5)) {
        first.start = 0;
    }
    if let (Some(last), true) = (entries.last_mut(), draw.chance(5)) {
        last.end = LAST_MINUTE;
    }
    Log { start, end, hed, entries }
}

/// 02 "A5": up to `count` entries in order, from before the window to behind it, as many as there are minutes for.
fn entries(draw: &mut Draw, start: u64, end: u64, count: u64) -> Vec<Entry> {
    let usual = (end - start) / count.max(1);
    let step = draw.pick(&[1, 2, 5, 60, usual + 1, 3 * usual + 1, end - start]);
    let kinds = draw.pick(&[&[PLANNED][..], &[FORCED], &[PLANNED, FORCED], &[PLANNED, FORCED]]);
    let before = draw.pick(&[0, step, step * count / 2, step * count]);
    let mut entries = Vec::new();
    let mut place = start.saturating_sub(draw.between(0, before));
    for _ in 0..count {
        let from = if draw.chance(25) { place } else { about(draw, start, end, place, step) };
        place = about(draw, start, end, from + 1, step).min(LAST_MINUTE.into());
        if from >= place {
            break;
        }
        entries.push(Entry { start: from as u32, end: place as u32, kind: draw.pick(kinds) });
    }
    entries
}

/// A minute not before `least`: one of the next `step`, or one about an edge of the window that is not far.
fn about(draw: &mut Draw, start: u64, end: u64, least: u64, step: u64) -> u64 {
    let edges = [start.saturating_sub(1), start, start + 1, end - 1, end, end + 1];
    let near: Vec<u64> = edges.into_iter().filter(|edge| (least..least + 8 * step).contains(edge)).collect();
    if !near.is_empty() && draw.chance(20) {
        return draw.pick(&near);
    }
    draw.between(least, least + step - 1)
}

/// 02 "A5", 17: a window without minutes or too long, or an entry that has no minutes or begins too early, if there is an entry.
fn out_of_order(draw: &mut Draw, log: &mut Log) {
    match draw.between(0, 12) {
        0 => log.end = log.start,
        1 => (log.start, log.end) = (log.end, draw.pick(&[log.start, log.end - 1])),
        2 => {
            log.start = log.start.min(LAST_MINUTE - MOST_MINUTES - 1);
            log.end = log.start + MOST_MINUTES + 1;
        }
        3 => log.end = LAST_MINUTE - draw.between(0, 9) as u32,
        4 => log.start = LAST_MINUTE,
        _ if !log.entries.is_empty() => entry_out_of_order(draw, &mut log.entries),
        _ => {}
    }
}

/// 02 "A5", 17: an entry whose end is not after its start, or one that begins before the one before it has ended.
fn entry_out_of_order(draw: &mut Draw, entries: &mut [Entry]) {
    let last = entries.len() - 1;
    let any = draw.between(0, last as u64) as usize;
    let place = draw.pick(&[0, last.min(1), any, any, any, any]);
    let Entry { start, end, .. } = entries[place];
    match draw.between(0, 6) {
        0 => entries[place].end = start,
        1 => (entries[place].start, entries[place].end) = (end, draw.pick(&[start, end - 1])),
        2 => entries[place].start = LAST_MINUTE,
        _ if place == 0 => entries[0].start = end,
        3 | 4 => entries[place].start = entries[place - 1].end - 1,
        5 => entries[place].start = entries[place - 1].start,
        _ => entries.swap(place - 1, place),
    }
}

/// 02 "A5", 3: HED, a minute or a kind beyond its range, of an entry often in the last.
fn out_of_range(draw: &mut Draw, log: &mut Log) {
    let minute = draw.pick(&[LAST_MINUTE + 1, LAST_MINUTE + 1, u32::MAX]);
    let any = draw.byte(FORCED + 1, u8::MAX);
    match draw.between(0, 9) {
        0 => log.start = minute,
        1 => log.end = minute,
        2 => log.hed = draw.pick(&[MOST_MINUTES + 1, MOST_MINUTES + 1, u32::MAX]),
        _ if !log.entries.is_empty() => {
            let last = log.entries.len() - 1;
            let place = if draw.chance(50) { last } else { draw.between(0, last as u64) as usize };
            let entry = &mut log.entries[place];
            match draw.between(0, 5) {
                0 => entry.start = minute,
                1 => entry.end = minute,
                _ => entry.kind = draw.pick(&[0, 3, u8::MAX, any]),
            }
        }
        _ => {}
    }
}

/// 02 "A5", 3: a log of some bytes more or fewer, or of fewer than the head has.
fn of_another_length(draw: &mut Draw, mut log: Vec<u8>) -> Vec<u8> {
    let length = log.len();
    let wanted = match draw.between(0, 5) {
        0 | 1 => length + 1,
        2 => length - 1,
        3 => draw.between(0, HEAD as u64 - 1) as usize,
        4 => 0,
        _ => draw.between(0, length as u64 + 8) as usize,
    };
    log.resize(wanted, PLANNED);
    log
}

#[cfg(test)]
mod tests {
    use super::*;
    use crate::number::reply;
    use crate::outages::figures;

    #[test]
    fn a_seed_and_a_number_give_one_log() {
        assert_eq!(log(7, 3), log(7, 3));
        assert_ne!(log(7, 3), log(7, 4));
        assert_ne!(log(7, 3), log(8, 3));
    }

    #[test]
    fn logs_stand_behind_their_lengths() {
        let item = |number| [&(log(7, number).len() as u16).to_le_bytes()[..], &log(7, number)].concat();
        assert_eq!(items(7, 3), [item(0), item(1), item(2)].concat());
        assert_eq!(items(7, 0), []);
    }

    #[test]
    fn about_half_of_the_logs_are_accepted_and_many_meet_each_number() {
        let mut met = [0; 18];
        for number in 0..1_000 {
            met[usize::from(reply(figures(&log(1, number)).map(|_| ())))] += 1;
        }
        assert!(met[0] > 450 && met[3] > 150 && met[17] > 120, "{met:?}");
    }
}
