//! The book and its eleven calls.

use std::array;

use crate::call::{Availability, Call, Contract, Declare, Mean, Meter, Test, Unit, Year};
use crate::charge::{self, Settlement};
use crate::number::Number;
use crate::offer;
use crate::plant::Component;
use crate::range::{self, CONSUMERS, PRODUCERS, UNITS};
use crate::share;

/// 01 "The book": the stages.
#[derive(Clone, Copy, Debug, PartialEq, Eq)]
pub enum Stage {
    Blank,
    Gathering,
    Firm,
    Closed,
}

/// 01 "The book": an enrolled unit, its components, its offer and its efficient offer.
#[derive(Clone, Copy, Debug, PartialEq, Eq)]
pub struct Plant {
    pub unit: Unit,
    pub parts: [Component; 3],
    pub offer: u64,
    pub efficient: u64,
}

/// 01 "Journal in, listing out", P: a producer's efficient total, the sum of its balances and the balances by consumer.
#[derive(Clone, Copy, Debug, PartialEq, Eq)]
pub struct Producer {
    pub efficient: u64,
    pub committed: u64,
    pub balances: [u64; CONSUMERS],
}

/// 01 "The book", 02 "A4": a declared consumer, the last reading and the last mean if there is one.
#[derive(Clone, Copy, Debug, PartialEq, Eq)]
pub struct Consumer {
    pub d: u32,
    pub a: u32,
    pub firm: u64,
    pub reading: Option<u32>,
    pub mean: Option<u32>,
}

impl Consumer {
    /// 02 "A4": Dreal, the mean where it stands, whether or not a reading exists, else the reading.
    pub fn dreal(&self) -> Option<u32> {
        self.mean.or(self.reading)
    }
}

/// 01 "The book": all that the calls have entered.
#[derive(Clone, Debug, PartialEq, Eq)]
pub struct Book {
    pub stage: Stage,
    pub hours: Year,
    pub plants: [Option<Plant>; UNITS],
    pub producers: [Producer; PRODUCERS],
    pub consumers: [Option<Consumer>; CONSUMERS],
    pub declared: u64,
    pub dmp: u32,
    pub settlement: Settlement,
}

/// 01 "The list of demand 3": a fresh book is blank.
impl Default for Book {
    fn default() -> Book {
        Book {
            stage: Stage::Blank,
            hours: Year::default(),
            plants: [None; UNITS],
            producers: [Producer { efficient: 0, committed: 0, balances: [0; CONSUMERS] }; PRODUCERS],
            consumers: [None; CONSUMERS],
            declared: 0,
            dmp: 0,
            settlement: Settlement::default(),
        }
    }
}

/// 01 "Quantities": the place of a unit, producer or consumer number in its array.
fn at(number: impl Into<usize>) -> usize {
    number.into() - 1
}

/// 01 "The book": the stage to which a call belongs.
pub fn stage_of(call: &Call) -> Stage {
    match call {
        Call::Year(_) => Stage::Blank,
        Call::Unit(_) | Call::Test(_) | Call::Availability(_) | Call::Declare(_) | Call::Fix(_) => Stage::Gathering,
        Call::Commit(_) | Call::Release(_) | Call::Meter(_) | Call::Close(_) | Call::Mean(_) => Stage::Firm,
    }
}

impl Book {
    /// 01 "The book", "Numbered replies": runs one call; 3 and 4 come first, a refused call changes nothing.
    pub fn apply(&mut self, call: &Call) -> Result<(), Number> {
        if !range::holds(call) {
            return Err(Number::Range);
        }
        if self.stage != stage_of(call) {
            return Err(Number::Stage);
        }
        match call {
            Call::Year(year) => self.year(*year),
            Call::Unit(unit) => self.enrol(*unit),
            Call::Test(test) => self.test(test),
            Call::Availability(availability) => self.availability(availability),
            Call::Declare(declare) => self.declare(*declare),
            Call::Fix(dmp) => self.fix(*dmp),
            Call::Commit(contract) => self.commit(*contract),
            Call::Release(contract) => self.release(*contract),
            Call::Meter(meter) => self.meter(*meter),
            Call::Close(price) => self.close(*price),
            Call::Mean(mean) => self.mean(*mean),
        }
    }

    /// 01 "The book": year leads to gathering.
    fn year(&mut self, year: Year) -> Result<(), Number> {
        self.hours = year;
        self.stage = Stage::Gathering;
        Ok(())
    }

    /// 01 "Numbered replies", 5: a unit is enrolled once.
    fn enrol(&mut self, unit: Unit) -> Result<(), Number> {
        let place = &mut self.plants[at(unit.unit)];
        if place.is_some() {
            return Err(Number::Enrolled);
        }
        *place = Some(Plant { unit, parts: [Component::default(); 3], offer: 0, efficient: 0 });
        Ok(())
    }

    /// 01 "Maximum power" (2.3.5): a test of a unit's component; meets 6, 7, 8.
    fn test(&mut self, test: &Test) -> Result<(), Number> {
        let plant = self.plants[at(test.unit)].as_mut().ok_or(Number::NotEnrolled)?;
        let own = if plant.unit.kind == 8 { 0..=2 } else { 0..=0 };
        if !own.contains(&test.component) {
            return Err(Number::Component);
        }
        let injection = plant.unit.injection();
        plant.parts[usize::from(test.component)].test(&test.run, injection)
    }

    /// 01 "Availability" (annex 2.1), "Firm offer": kind 8 has it for components 1 and 2 only; meets 6, 7, 9.
    fn availability(&mut self, availability: &Availability) -> Result<(), Number> {
        let plant = self.plants[at(availability.unit)].as_mut().ok_or(Number::NotEnrolled)?;
        let own = if plant.unit.kind == 8 { 1..=2 } else { 0..=0 };
        if !own.contains(&availability.component) {
            return Err(Number::Component);
        }
        plant.parts[usize::from(availability.component)].avail(availability.minutes)
    }

    /// 01 "The book": a later declaration replaces the earlier.
    fn declare(&mut self, declare: Declare) -> Result<(), Number> {
        let Declare { consumer, d, a } = declare;
        self.consumers[at(consumer)] = Some(Consumer { d, a, firm: 0, reading: None, mean: None });
        Ok(())
    }

    /// 01 "Division by shares" (2.6.5.1), "Efficient offer": firm demands and offers stand from here; meets 13.
    fn fix(&mut self, dmp: u32) -> Result<(), Number> {
        let weights: [u32; CONSUMERS] =
            array::from_fn(|place| self.consumers[place].as_ref().map_or(0, |consumer| consumer.d));
        let mut firm = [0; CONSUMERS];
        share::divide(dmp.into(), &weights, &mut firm)?;
        for (consumer, firm) in self.consumers.iter_mut().zip(firm) {
            if let Some(consumer) = consumer {
                consumer.firm = firm;
            }
        }
        self.declared = weights.iter().map(|&d| u64::from(d)).sum();
        self.dmp = dmp;
        self.fix_offers();
        self.stage = Stage::Firm;
        Ok(())
    }

    /// 01 "Firm offer", "Efficient offer": the figures of lines U and P.
    fn fix_offers(&mut self) {
        let mut units = [(0, 0); UNITS];
        for (plant, unit) in self.plants.iter_mut().zip(&mut units) {
            if let Some(plant) = plant {
                plant.offer = offer::firm_offer(&plant.unit, &plant.parts, &self.hours);
                *unit = (plant.unit.flags, plant.offer);
            }
        }
        let year = offer::chosen_year(&units);
        for plant in self.plants.iter_mut().flatten() {
            plant.efficient = offer::efficient_offer(plant.unit.flags, plant.offer, year);
            self.producers[at(plant.unit.producer)].efficient += plant.efficient;
        }
    }

    /// 01 "Numbered replies", 10: the consumer of a commit, release, meter or mean is declared.
    fn declared_consumer(&mut self, consumer: u16) -> Result<&mut Consumer, Number> {
        self.consumers[at(consumer)].as_mut().ok_or(Number::Undeclared)
    }

    /// 01 "Numbered replies", 11: a producer's balances stay within its efficient offers; meets 10, 11.
    fn commit(&mut self, contract: Contract) -> Result<(), Number> {
        self.declared_consumer(contract.consumer)?;
        let producer = &mut self.producers[at(contract.producer)];
        let q = u64::from(contract.q);
        if producer.committed + q > producer.efficient {
            return Err(Number::Offers);
        }
        producer.committed += q;
        producer.balances[at(contract.consumer)] += q;
        Ok(())
    }

    /// 01 "Numbered replies", 12: a release stays within the pair's balance; meets 10, 12.
    fn release(&mut self, contract: Contract) -> Result<(), Number> {
        self.declared_consumer(contract.consumer)?;
        let producer = &mut self.producers[at(contract.producer)];
        let q = u64::from(contract.q);
        let balance = &mut producer.balances[at(contract.consumer)];
        if q > *balance {
            return Err(Number::Balance);
        }
        *balance -= q;
        producer.committed -= q;
        Ok(())
    }

    /// 01 "The book": a later reading replaces the earlier; meets 10.
    fn meter(&mut self, meter: Meter) -> Result<(), Number> {
        self.declared_consumer(meter.consumer)?.reading = Some(meter.dreal);
        Ok(())
    }

    /// 02 "A4": a later mean replaces the earlier; meets 10.
    fn mean(&mut self, mean: Mean) -> Result<(), Number> {
        self.declared_consumer(mean.consumer)?.mean = Some(mean.mean);
        Ok(())
    }

    /// 01 "Close" (2.6.5.2): nothing is put in the book until every check has passed; meets 16, 14, 19.
    fn close(&mut self, price: u16) -> Result<(), Number> {
        charge::settle(&self.consumers, self.declared, self.dmp, price, &mut self.settlement)?;
        self.stage = Stage::Closed;
        Ok(())
    }
}
