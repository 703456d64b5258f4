//! Random journals whose charges are about the limit of 02 "A7".

use super::demand::count;
use super::draft::{shuffle, Draft};
use super::season::{open, perhaps_fault};
use crate::book::Consumer;
use crate::call::{Call, Declare};
use crate::range::{CONSUMERS, MOST_KW};
use crate::share::GREATEST_TOTAL;

/// A year whose close charges so many consumers, all of which declared the same, and no others.
struct Plan {
    price: u16,
    /// DMP over the sum of D, by which every D and every Dreal is multiplied.
    ratio: u32,
    /// The D of each charged consumer, whose A is greater by far.
    charged_d: u32,
    /// The D, and the A, of each other consumer.
    other_d: u32,
    charged: Vec<u16>,
    others: Vec<u16>,
    /// The kW by which the Dreal of all charged consumers together exceeds their D where the charges are the greatest that are accepted.
    most: u64,
}

impl Plan {
    /// The kW by which the Dreal of one charged consumer may exceed its D with a DFA of at most 3,000,000.
    fn room(&self) -> u32 {
        MOST_KW / self.ratio - self.charged_d
    }

    /// 02 "A7": as many charged consumers as the limit needs, or about as many, or far more, and some others.
    fn draw(draft: &mut Draft) -> Plan {
        let draw = &mut draft.draw;
        let price = draw.pick(&[2_500, 2_500, 2_500, 2_499, 2_000, 1_250, 1_000, 607, 700]);
        let ratio = draw.pick(&[1, 1, 1, 2, 3]);
        let charged_d = draw.pick(&[0, 0, 1, 3]);
        let most = GREATEST_TOTAL / (12 * u64::from(price) * u64::from(ratio));
        let mut plan = Plan {
            price,
            ratio,
            charged_d,
            other_d: draw.pick(&[1, 100, 1_000]),
            charged: Vec::new(),
            others: Vec::new(),
            most,
        };
        let others = draw.pick(&[1, 1, 2, 10]);
        let needed = most.div_ceil(plan.room().into());
        let all = CONSUMERS as u64 - others;
        let charged = match draw.between(0, 9) {
            0 => needed - 1,
            1 => all,
            2 => draw.between(needed.min(all), all),
            3 | 4 => needed + 1,
            _ => needed,
        };
        let mut numbers: Vec<u16> = (1..=CONSUMERS as u16).collect();
        if draw.chance(50) {
            shuffle(draw, &mut numbers);
        }
        numbers.truncate((others + charged.min(all)) as usize);
        shuffle(draw, &mut numbers);
        plan.charged = numbers.split_off(others as usize);
        plan.others = numbers;
        plan
    }

    /// A Dreal of each charged consumer, so many kW above D in all, or the most that there can be: as much as one may in each but the last, or about
    /// the same in each.
    fn demands(&self, kw: u64, evenly: bool) -> Vec<(u16, u32)> {
        let count = self.charged.len() as u64;
        let mut left = kw.min(count * u64::from(self.room()));
        let (each, rest) = (left / count, left % count);
        let mut demands = Vec::new();
        for (place, &consumer) in (0..).zip(&self.charged) {
            let above = if evenly { each + u64::from(place < rest) } else { left.min(self.room().into()) };
            left -= above;
            demands.push((consumer, self.charged_d + above as u32));
        }
        demands
    }
}

/// 02 "A7": a year whose charges are the greatest that are accepted, about them or far above, and often lower ones where the close met 19.
pub fn about_the_limit(draft: &mut Draft) {
    open(draft);
    let plan = Plan::draw(draft);
    declare(draft, &plan);
    let kw = match draft.draw.between(0, 9) {
        0..=2 => plan.most,
        3..=5 => plan.most + 1,
        6 => plan.most - 1,
        7 => plan.most + draft.draw.between(2, 5_000_000),
        _ => u64::MAX,
    };
    let evenly = draft.draw.chance(40);
    let mut demands = plan.demands(kw, evenly);
    for &consumer in &plan.others {
        let dreal = draft.draw.between(0, 2 * u64::from(plan.other_d)) as u32;
        demands.push((consumer, dreal));
    }
    shuffle(&mut draft.draw, &mut demands);
    let silent = usize::from(draft.draw.chance(20));
    for &(consumer, dreal) in &demands[silent..] {
        perhaps_fault(draft);
        count(draft, consumer, dreal);
    }
    let above = draft.greatest_dreal() + 1;
    if draft.draw.chance(20) && above <= MOST_KW {
        let (consumer, _) = draft.draw.pick(&demands);
        count(draft, consumer, above);
    }
    close(draft, &plan, &demands);
}

/// 01 "The book": the declarations in a drawn order, and the fix.
fn declare(draft: &mut Draft, plan: &Plan) {
    let Plan { charged_d, other_d, .. } = *plan;
    let charged = plan.charged.iter().map(|&consumer| (consumer, charged_d, true));
    let others = plan.others.iter().map(|&consumer| (consumer, other_d, false));
    let mut declarations: Vec<(u16, u32, bool)> = charged.chain(others).collect();
    shuffle(&mut draft.draw, &mut declarations);
    for (consumer, d, is_charged) in declarations {
        perhaps_fault(draft);
        let a = if is_charged { draft.draw.pick(&[d + 1, 2 * d + 3, MOST_KW]) } else { d };
        draft.put(&Call::Declare(Declare { consumer, d, a }));
    }
    let sum: u32 = draft.book.consumers.iter().flatten().map(|consumer| consumer.d).sum();
    draft.put(&Call::Fix(plan.ratio * sum));
}

/// 02 "A7": the close, again and again with what it lacked or with less.
fn close(draft: &mut Draft, plan: &Plan, demands: &[(u16, u32)]) {
    loop {
        match draft.put(&Call::Close(plan.price)) {
            16 if draft.draw.chance(92) => enter_where(draft, demands, |held| held.dreal().is_none()),
            14 if draft.draw.chance(85) => {
                let greatest = draft.greatest_dreal();
                enter_where(draft, demands, |held| held.dreal() > Some(greatest));
            }
            19 if draft.draw.chance(85) => lower(draft, plan),
            _ => return,
        }
    }
}

/// Enters the planned Dreal of the consumers of which this holds.
fn enter_where(draft: &mut Draft, demands: &[(u16, u32)], holds: impl Fn(&Consumer) -> bool) {
    for &(consumer, dreal) in demands {
        if draft.held(consumer).is_some_and(&holds) {
            count(draft, consumer, dreal);
        }
    }
}

/// 02 "A7": lower Dreal of charged consumers, down to the greatest charges that are accepted, at times to one kW more.
fn lower(draft: &mut Draft, plan: &Plan) {
    let above = |draft: &Draft, consumer: u16| {
        let dreal = draft.held(consumer).and_then(|held| held.dreal()).unwrap_or(0);
        u64::from(dreal.saturating_sub(plan.charged_d))
    };
    let kw: u64 = plan.charged.iter().map(|&consumer| above(draft, consumer)).sum();
    let mut excess = kw - plan.most;
    if excess > 1 && draft.draw.chance(30) {
        excess -= 1;
    }
    for &consumer in &plan.charged {
        let less = above(draft, consumer).min(excess);
        if less > 0 {
            let dreal = plan.charged_d + (above(draft, consumer) - less) as u32;
            count(draft, consumer, dreal);
            excess -= less;
        }
    }
}

#[cfg(test)]
mod tests {
    use std::collections::BTreeMap;

    use super::*;
    use crate::book::Stage;
    use crate::journal::run_with;
    use crate::random::draw::Draw;

    #[test]
    fn closes_meet_19_and_charges_are_exactly_the_limit_and_about_it() {
        let mut seen = BTreeMap::new();
        for number in 0..400 {
            let mut draft = Draft::new(Draw::new(11, number));
            about_the_limit(&mut draft);
            let mut numbers = Vec::new();
            let run = run_with(&draft.journal, |_, call, number| {
                if matches!(call, Call::Close(_)) {
                    numbers.push(number);
                }
            });
            let mut see = |what: &'static str, holds: bool| *seen.entry(what).or_insert(0) += u32::from(holds);
            let charges = run.book.settlement.charges;
            see("19", numbers.contains(&19));
            see("19 behind 16", numbers.windows(2).any(|pair| pair == [16, 19]));
            see("19 behind 14", numbers.windows(2).any(|pair| pair == [14, 19]));
            see("the limit", charges == GREATEST_TOTAL);
            see("the limit behind 19", charges == GREATEST_TOTAL && numbers.contains(&19));
            see("the greatest below", (GREATEST_TOTAL - 90_000..GREATEST_TOTAL).contains(&charges));
            see("undistributed", run.book.settlement.undistributed > 0);
            see("a credit", run.book.settlement.credits > 0);
            see("open", run.book.stage == Stage::Firm);
            assert!(draft.journal.len() < 20_000);
        }
        assert!(seen.len() == 9 && seen.values().all(|&times| times >= 10), "{seen:?}");
    }
}
