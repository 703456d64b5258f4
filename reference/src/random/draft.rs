//! A journal that is being drafted together with its book.

use super::calls::{self, Style, Trial};
use super::draw::Draw;
use crate::book::{Book, Consumer};
use crate::call::{Availability, Call, Contract, Mean, Meter, Test};
use crate::number::reply;
use crate::plant::PowerTest;
use crate::range::{MOST_KW, PRODUCERS};
use crate::record;

/// 02 "A7": the ends of what the fields of one byte and of two take, and the numbers about the greatest byte.
pub const BOUNDARIES: [u16; 6] = [1, 64, 65, 255, 256, 300];

/// The draws, the records so far and the book that they lead to.
pub struct Draft {
    pub draw: Draw,
    pub style: Style,
    pub book: Book,
    pub journal: Vec<u8>,
}

impl Draft {
    /// A draft without records.
    pub fn new(mut draw: Draw) -> Draft {
        let style = calls::style(&mut draw);
        Draft { draw, style, book: Book::default(), journal: Vec::new() }
    }

    /// Adds one whole record and returns the book's reply to its call.
    pub fn put_record(&mut self, record: &[u8]) -> u8 {
        let (call, next) = record::read(record, 0).expect("a drafted record is whole");
        assert_eq!(next, record.len());
        self.journal.extend_from_slice(record);
        reply(self.book.apply(&call))
    }

    /// Adds the record of one call and returns the book's reply.
    pub fn put(&mut self, call: &Call) -> u8 {
        self.put_record(&record::bytes(call))
    }

    /// Unit numbers that are enrolled, or those that are not.
    pub fn units(&self, enrolled: bool) -> Vec<u8> {
        (1..).zip(&self.book.plants).filter(|(_, plant)| plant.is_some() == enrolled).map(|(unit, _)| unit).collect()
    }

    /// Declared consumers of which this holds.
    fn declared(&self, holds: impl Fn(&Consumer) -> bool) -> Vec<u16> {
        let numbers = (1..).zip(&self.book.consumers);
        numbers.filter(|(_, held)| matches!(held, Some(held) if holds(held))).map(|(consumer, _)| consumer).collect()
    }

    /// Declared consumers.
    pub fn consumers(&self) -> Vec<u16> {
        self.declared(|_| true)
    }

    /// Consumers of the style that are not declared.
    pub fn undeclared(&self) -> Vec<u16> {
        let numbers = (1..=self.style.greatest).zip(&self.book.consumers);
        numbers.filter(|(_, held)| held.is_none()).map(|(consumer, _)| consumer).collect()
    }

    /// 02 "A4": declared consumers that have a reading or a mean.
    pub fn with_dreal(&self) -> Vec<u16> {
        self.declared(|consumer| consumer.dreal().is_some())
    }

    /// 02 "A4": declared consumers that have neither a reading nor a mean.
    pub fn without_dreal(&self) -> Vec<u16> {
        self.declared(|consumer| consumer.dreal().is_none())
    }

    /// What the book has of a consumer.
    pub fn held(&self, consumer: u16) -> Option<&Consumer> {
        self.book.consumers[usize::from(consumer) - 1].as_ref()
    }

    /// Any consumer of the style, 02 "A7": often one at the end of a form's range, or where a byte no longer holds the number.
    pub fn any_consumer(&mut self) -> u16 {
        let greatest = self.style.greatest;
        if self.draw.chance(30) {
            self.draw.pick(&BOUNDARIES).min(greatest)
        } else {
            self.draw.number(1, greatest)
        }
    }

    /// Pairs of a producer and a consumer with a balance above 0.
    pub fn pairs(&self) -> Vec<(u8, u16)> {
        let mut pairs = Vec::new();
        for (producer, held) in (1..).zip(&self.book.producers) {
            for (consumer, &balance) in (1..).zip(&held.balances) {
                if balance > 0 {
                    pairs.push((producer, consumer));
                }
            }
        }
        pairs
    }

    /// 01 "Numbered replies", 11: the kW that a producer may still commit.
    pub fn room(&self, producer: u8) -> u64 {
        let held = &self.book.producers[usize::from(producer) - 1];
        held.efficient - held.committed
    }

    /// 01 "Numbered replies", 14: the greatest Dreal whose DFA is not above 3,000,000.
    pub fn greatest_dreal(&self) -> u32 {
        let most = (u128::from(MOST_KW) + 1) * u128::from(self.book.declared) - 1;
        (most / u128::from(self.book.dmp.max(1))).min(MOST_KW.into()) as u32
    }

    /// A whole record of any call with fields in range, whatever the book holds.
    pub fn any_record(&mut self) -> Vec<u8> {
        let near = self.style.consumers.min(self.style.greatest - 1) + 1;
        let consumer = if self.draw.chance(20) { self.any_consumer() } else { self.draw.number(1, near) };
        let Draft { draw, style, book, .. } = self;
        let unit = draw.byte(1, style.units.clamp(1, 47) + 1);
        let component = draw.pick(&[0, 0, 0, 1, 2]);
        let producer = draw.byte(1, style.producers.min(15) + 1);
        let contract = Contract { producer, consumer, q: draw.near(style.scale, MOST_KW).max(1) };
        let call = match draw.between(0, 10) {
            0 => Call::Year(calls::year(draw)),
            1 => Call::Unit(calls::unit(draw, style, &book.hours, unit)),
            2 => return test_record(unit, component, &calls::trial(draw, style)),
            3 => Call::Availability(Availability { unit, component, minutes: calls::minutes(draw) }),
            4 => Call::Declare(calls::declare(draw, style, consumer)),
            5 => Call::Fix(draw.near(style.scale, MOST_KW).max(1)),
            6 => Call::Commit(contract),
            7 => Call::Release(contract),
            8 => Call::Meter(Meter { consumer, dreal: draw.figure(MOST_KW) }),
            9 => Call::Close(1 + draw.figure(2_499) as u16),
            _ => Call::Mean(Mean { consumer, mean: draw.figure(MOST_KW) }),
        };
        record::bytes(&call)
    }
}

/// 01 "Journal records", test: the record of a test of one component.
pub fn test_record(unit: u8, component: u8, trial: &Trial) -> Vec<u8> {
    let readings: Vec<u8> = trial.readings.iter().flat_map(|reading| reading.to_le_bytes()).collect();
    let count = trial.readings.len() as u8;
    let run = PowerTest { ending: trial.ending, tc: trial.tc, count, readings: &readings };
    record::bytes(&Call::Test(Test { unit, component, run }))
}

/// Puts items in a drawn order.
pub fn shuffle<T>(draw: &mut Draw, items: &mut [T]) {
    for last in (1..items.len()).rev() {
        items.swap(last, draw.between(0, last as u64) as usize);
    }
}

/// 01 "Quantities": any producer number.
pub fn any_producer(draw: &mut Draw) -> u8 {
    draw.byte(1, PRODUCERS as u8)
}
