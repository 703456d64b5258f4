//! Seeded random plants as lines of plant cases, their figures about the edges of 02 "A6".

use std::fs;
use std::io;
use std::path::Path;

use super::calls::{self, Style, Trial};
use super::draw::Draw;
use crate::call::Year;
use crate::offer::{derated, over};
use crate::plant::{Component, Minutes, PowerTest, WATTS_OF_KILOWATT};
use crate::range::{MOST_ENERGY, MOST_KW};

/// The most bytes of a file of plants.
const MOST_BYTES: usize = 65_536;

/// 02 "A6": writes `count` plants of a seed into files of at most 65,536 bytes in a folder, numbered from 00000.
pub fn write_plants(seed: u64, count: u64, folder: &Path) -> io::Result<()> {
    fs::create_dir_all(folder)?;
    for (number, file) in files((0..count).map(|number| plant(seed, number))).iter().enumerate() {
        fs::write(folder.join(format!("{number:05}.txt")), file)?;
    }
    Ok(())
}

/// Plants one behind the other, as many to a file as it has room for.
fn files(plants: impl Iterator<Item = String>) -> Vec<String> {
    let mut files = vec![String::new()];
    for plant in plants {
        let last = files.last_mut().expect("there is a file");
        if last.len() + plant.len() > MOST_BYTES {
            files.push(plant);
        } else {
            last.push_str(&plant);
        }
    }
    files
}

/// 01 "Firm offer": one plant of a seed, the kinds in turn: its tests, its availabilities and some offers.
fn plant(seed: u64, number: u64) -> String {
    let (draw, kind) = (Draw::new(seed, number), (number % 8) as u8 + 1);
    let mut sketch = Sketch { draw, kind, parts: [Component::default(); 3], lines: String::new() };
    let components = if kind == 8 { 0..=2 } else { 0..=0 };
    let scale = sketch.draw.pick(&[1, 2, 4, 9, 30, 200, 1_500, 20_000, 300_000, 3_000_000]);
    for component in components {
        sketch.tests(component, scale);
        if kind != 8 || component > 0 {
            sketch.availability(component);
        }
    }
    let first = sketch.unit();
    for _ in 0..sketch.draw.between(1, 4) {
        sketch.offer();
    }
    first + &sketch.lines
}

/// A plant that is being drafted: its components as they stand behind its lines, the first of which is still missing.
struct Sketch {
    draw: Draw,
    kind: u8,
    parts: [Component; 3],
    lines: String,
}

impl Sketch {
    /// 01 "Maximum power": tests of one component, mostly until there is a result.
    fn tests(&mut self, component: usize, scale: u32) {
        let style =
            Style { scale, producers: 1, consumers: 0, greatest: 0, units: 1, alike: false, tied: false, errors: 0 };
        for _ in 0..self.draw.between(1, 3) {
            let Trial { ending, tc, readings } = calls::trial(&mut self.draw, &style);
            let count = readings.len();
            let words: String = readings.iter().map(|reading| format!(" {reading}")).collect();
            self.lines += &format!("1 {component} {ending} {tc} {count} {}{words}\n", 4 * count);
            let lent: Vec<u8> = readings.iter().flat_map(|reading| reading.to_le_bytes()).collect();
            let test = PowerTest { ending, tc, count: count as u8, readings: &lent };
            self.parts[component].test(&test, None).expect("the count suits the ending");
            if self.parts[component].power.is_some() {
                break;
            }
        }
    }

    /// 01 "Availability": of one component, seldom none.
    fn availability(&mut self, component: usize) {
        if self.draw.chance(3) {
            return;
        }
        let minutes = calls::minutes(&mut self.draw);
        let Minutes { hd, hmp, hif, hed } = minutes;
        self.lines += &format!("2 {component} {hd} {hmp} {hif} {hed}\n");
        self.parts[component].avail(minutes).expect("the minutes can be");
    }

    /// 01 "Maximum power": the first line, in which PIC, if given, is about one of the results, all of which it caps.
    fn unit(&mut self) -> String {
        if self.draw.chance(55) {
            return "0 0 0\n".to_string();
        }
        let results: Vec<u64> = self.parts.iter().filter_map(|part| part.power).map(u64::from).collect();
        let result = if results.is_empty() { 0 } else { self.draw.pick(&results) };
        let pic = self.kilowatts_about(result);
        for part in &mut self.parts {
            part.power = part.power.map(|power| u64::from(power).min(WATTS_OF_KILOWATT * u64::from(pic)) as u32);
        }
        format!("0 1 {pic}\n")
    }

    /// 01 "Firm offer": an offer of the plant's kind, its figures about what they are compared with.
    fn offer(&mut self) {
        let hours = calls::year(&mut self.draw);
        let [pp, derated_pp, gen, store] = self.powers();
        let report = u8::from(self.kind <= 2 && self.draw.chance(95));
        let [mut ppr, mut e1, mut e2, mut cap] = [0; 4];
        match self.kind {
            1 => {}
            2 => ppr = self.kilowatts_about(pp),
            3 | 7 => e1 = self.energy_about(derated_pp, hours.nhrm),
            4 | 6 => e1 = self.energy_about(derated_pp, hours.ndhmd.into()),
            5 => e1 = self.energy_about(derated_pp, hours.nhmd),
            _ => {
                let peak = hours.ndhmd.into();
                e2 = self.energy_about(store, peak);
                cap = self.energy_about(store, peak);
                let store = store.min(over(e2, peak)).min(over(cap, peak));
                // the rest up to a whole kW, or to PP
                let whole = (store + gen).div_ceil(WATTS_OF_KILOWATT) * WATTS_OF_KILOWATT - store;
                let rest = self.draw.pick(&[gen, whole, pp.saturating_sub(store)]);
                e1 = self.energy_about(rest, peak);
            }
        }
        let Year { nhrm, nhmd, ndhmd } = hours;
        self.lines += &format!("3 {} {report} {ppr} {e1} {e2} {cap} {nhrm} {nhmd} {ndhmd}\n", self.kind);
    }

    /// 01 "Firm offer": PP, and PP·c of each component, in W, 0 where a part is missing.
    fn powers(&self) -> [u64; 4] {
        let [set, generator, storage] = &self.parts;
        let of = |part| derated(part).unwrap_or(0);
        [set.power.unwrap_or(0).into(), of(set), of(generator), of(storage)]
    }

    /// A power in kW about one in W: the next one below or above, one not far away, or any.
    fn kilowatts_about(&mut self, watts: u64) -> u32 {
        let below = (watts / WATTS_OF_KILOWATT) as u32;
        let power = match self.draw.between(0, 9) {
            0..=2 => below,
            3..=6 => below + 1,
            7 => below.saturating_sub(1),
            8 => self.draw.near(below, MOST_KW),
            _ => self.draw.figure(MOST_KW),
        };
        power.min(MOST_KW)
    }

    /// An energy that gives over the hours about a power in W: the next one, one of whole kW, one not far away, or any.
    fn energy_about(&mut self, watts: u64, hours: u16) -> u32 {
        let (below, whole) =
            (watts * u64::from(hours) / WATTS_OF_KILOWATT, watts / WATTS_OF_KILOWATT * u64::from(hours));
        let energy = match self.draw.between(0, 9) {
            0..=2 => below,
            3..=5 => below + 1,
            6 => whole,
            7 => whole + u64::from(hours),
            8 => self.draw.near(below.min(MOST_ENERGY.into()) as u32, MOST_ENERGY).into(),
            _ => self.draw.figure(MOST_ENERGY).into(),
        };
        energy.min(MOST_ENERGY.into()) as u32
    }
}

#[cfg(test)]
mod tests {
    use super::*;
    use crate::cases;

    #[test]
    fn a_seed_and_a_number_give_one_plant() {
        assert_eq!(plant(7, 3), plant(7, 3));
        assert_ne!(plant(7, 3), plant(7, 11));
        assert_ne!(plant(7, 3), plant(8, 3));
    }

    #[test]
    fn a_file_has_room_for_65_536_bytes_and_begins_with_a_plant() {
        let plants = || (0..2_000).map(|number| plant(1, number));
        let files = files(plants());
        assert!(files.len() > 2 && files.iter().all(|file| file.len() <= MOST_BYTES && file.starts_with("0 ")));
        assert_eq!(files.concat(), plants().collect::<String>());
        let half = "x".repeat(MOST_BYTES / 2);
        let halves = super::files([half.clone(), half.clone(), half].into_iter());
        assert_eq!(halves.iter().map(String::len).collect::<Vec<usize>>(), [MOST_BYTES, MOST_BYTES / 2]);
    }

    #[test]
    fn offers_of_each_kind_are_changed_by_a6_and_left_by_it() {
        let (mut changed, mut left) = ([0; 9], [0; 9]);
        let text: String = (0..4_000).map(|number| plant(1, number)).collect();
        for line in cases::plant_offers(&text).unwrap().lines() {
            let numbers: Vec<usize> = line.split(' ').map(|number| number.parse().unwrap()).collect();
            let [kind, offer, without] = numbers[..] else { panic!("{line}") };
            let counted = if offer == without { &mut left } else { &mut changed };
            counted[kind] += 1;
        }
        assert!((1..=8).all(|kind| changed[kind] >= 50 && left[kind] >= 50), "{changed:?} {left:?}");
    }
}
