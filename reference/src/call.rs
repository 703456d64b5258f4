//! The eleven calls and the forms of their records, of which a call of a consumer has two.

use crate::field::{self, Field};
use crate::plant::{Minutes, PowerTest};
use crate::range::CONSUMERS_IN_A_BYTE;

/// 01 "Journal records", year: NHRM, NHMD and NDHMD in hours.
#[derive(Clone, Copy, Debug, Default, PartialEq, Eq)]
pub struct Year {
    pub nhrm: u16,
    pub nhmd: u16,
    pub ndhmd: u8,
}

/// 01 "Journal records", unit: powers in kW, energies in kWh.
#[derive(Clone, Copy, Debug, Default, PartialEq, Eq)]
pub struct Unit {
    pub unit: u8,
    pub producer: u8,
    pub kind: u8,
    pub flags: u8,
    pub pic: u32,
    pub ppr: u32,
    pub e1: u32,
    pub e2: u32,
    pub cap: u32,
}

/// 01 "Journal records", flags: used in the first simulated year.
pub const FIRST_YEAR: u8 = 1;
/// 01 "Journal records", flags: used in the second simulated year.
pub const SECOND_YEAR: u8 = 2;
/// 01 "Journal records", flags: forced generation persists.
pub const FORCED: u8 = 4;
/// 01 "Journal records", flags: PIC given.
pub const PIC_GIVEN: u8 = 8;
/// 01 "Journal records", flags: supply report held (kinds 1, 2 only).
pub const SUPPLY_REPORT: u8 = 16;

impl Unit {
    /// 01 "Maximum power": the cap of each result, PIC if given.
    pub fn injection(&self) -> Option<u32> {
        (self.flags & PIC_GIVEN != 0).then_some(self.pic)
    }
}

/// 01 "Journal records", test: of one component of a unit.
#[derive(Clone, Copy, Debug, PartialEq, Eq)]
pub struct Test<'a> {
    pub unit: u8,
    pub component: u8,
    pub run: PowerTest<'a>,
}

/// 01 "Journal records", availability: of one component of a unit.
#[derive(Clone, Copy, Debug, PartialEq, Eq)]
pub struct Availability {
    pub unit: u8,
    pub component: u8,
    pub minutes: Minutes,
}

/// 01 "Journal records", declare: D and the administrator's projection A in kW.
#[derive(Clone, Copy, Debug, PartialEq, Eq)]
pub struct Declare {
    pub consumer: u16,
    pub d: u32,
    pub a: u32,
}

/// 01 "Journal records", commit and release: q in kW.
#[derive(Clone, Copy, Debug, PartialEq, Eq)]
pub struct Contract {
    pub producer: u8,
    pub consumer: u16,
    pub q: u32,
}

/// 01 "Journal records", meter: Dreal in kW.
#[derive(Clone, Copy, Debug, PartialEq, Eq)]
pub struct Meter {
    pub consumer: u16,
    pub dreal: u32,
}

/// 02 "A4": the mean of a consumer's daily maxima at the system's peak hours, in kW.
#[derive(Clone, Copy, Debug, PartialEq, Eq)]
pub struct Mean {
    pub consumer: u16,
    pub mean: u32,
}

/// 01 "Journal records", 02 "A4": the calls of the table; fix gives DMP in kW, close P in cents per kW-month.
#[derive(Clone, Copy, Debug, PartialEq, Eq)]
pub enum Call<'a> {
    Year(Year),
    Unit(Unit),
    Test(Test<'a>),
    Availability(Availability),
    Declare(Declare),
    Fix(u32),
    Commit(Contract),
    Release(Contract),
    Meter(Meter),
    Close(u16),
    Mean(Mean),
}

/// 01 "Journal records": one row of the table, the mark, the call's name and its fields, a test's without its readings.
#[derive(Debug)]
pub struct Form {
    pub mark: [u8; 2],
    pub name: &'static str,
    pub fields: &'static [Field],
}

/// 01 "Journal records": one row of the table.
const fn form(mark: [u8; 2], name: &'static str, fields: &'static [Field]) -> Form {
    Form { mark, name, fields }
}

/// 01 "Journal records": the fields of a unit.
const OF_UNIT: &[Field] = &[
    field::UNIT,
    field::PRODUCER,
    field::KIND,
    field::FLAGS,
    field::PIC,
    field::PPR,
    field::E1,
    field::E2,
    field::CAP,
];

/// 01 "Journal records": the fields of a test, which its readings follow.
const OF_TEST: &[Field] = &[field::UNIT, field::COMPONENT, field::ENDING, field::TC, field::COUNT];

/// 01 "Journal records": the fields of an availability.
const OF_AVAILABILITY: &[Field] = &[field::UNIT, field::COMPONENT, field::HD, field::HMP, field::HIF, field::HED];

/// 01 "Journal records": the fields of commit and of release.
const OF_CONTRACT: &[Field] = &[field::PRODUCER, field::CONSUMER, field::Q];

/// 02 "A7": these fields where the consumer is above 64.
const OF_CONTRACT_ABOVE_64: &[Field] = &[field::PRODUCER, field::CONSUMER_ABOVE_64, field::Q];

/// 01 "Journal records", 02 "A4", "A7": the table, the rows of consumers above 64 behind the others.
pub static FORMS: [Form; 16] = [
    form([0x59, 0x52], "year", &[field::NHRM, field::NHMD, field::NDHMD]),
    form([0x55, 0x4E], "unit", OF_UNIT),
    form([0x54, 0x53], "test", OF_TEST),
    form([0x41, 0x56], "availability", OF_AVAILABILITY),
    form([0x44, 0x4D], "declare", &[field::CONSUMER, field::D, field::A]),
    form([0x46, 0x58], "fix", &[field::DMP]),
    form([0x43, 0x4D], "commit", OF_CONTRACT),
    form([0x52, 0x4C], "release", OF_CONTRACT),
    form([0x4D, 0x54], "meter", &[field::CONSUMER, field::DREAL]),
    form([0x43, 0x4C], "close", &[field::P]),
    form([0x41, 0x54], "mean", &[field::CONSUMER, field::MEAN]),
    form([0x64, 0x6D], "declare", &[field::CONSUMER_ABOVE_64, field::D, field::A]),
    form([0x63, 0x6D], "commit", OF_CONTRACT_ABOVE_64),
    form([0x72, 0x6C], "release", OF_CONTRACT_ABOVE_64),
    form([0x6D, 0x74], "meter", &[field::CONSUMER_ABOVE_64, field::DREAL]),
    form([0x61, 0x74], "mean", &[field::CONSUMER_ABOVE_64, field::MEAN]),
];

/// 01 "Journal records": the rows in front, one for each call's name.
pub const CALLS: usize = 11;

/// 02 "A7": the rows behind them, whose marks are for consumers above 64.
pub fn above_64() -> &'static [Form] {
    &FORMS[CALLS..]
}

/// 02 "A7": the row of the table for a call's name and, where the call is of a consumer, for the consumer's number.
pub fn row(name: &str, consumer: u64) -> Option<&'static Form> {
    let mut rows = FORMS.iter().filter(|form| form.name == name);
    if consumer > CONSUMERS_IN_A_BYTE.into() {
        rows.next_back()
    } else {
        rows.next()
    }
}

impl Call<'_> {
    /// 01 "Journal records", 02 "A7": the row of the table that this call has.
    pub fn form(&self) -> &'static Form {
        let of_consumer = |consumer: u16, row, above_64| if consumer > CONSUMERS_IN_A_BYTE { above_64 } else { row };
        let row = match self {
            Call::Year(_) => 0,
            Call::Unit(_) => 1,
            Call::Test(_) => 2,
            Call::Availability(_) => 3,
            Call::Declare(d) => of_consumer(d.consumer, 4, 11),
            Call::Fix(_) => 5,
            Call::Commit(c) => of_consumer(c.consumer, 6, 12),
            Call::Release(c) => of_consumer(c.consumer, 7, 13),
            Call::Meter(m) => of_consumer(m.consumer, 8, 14),
            Call::Close(_) => 9,
            Call::Mean(m) => of_consumer(m.consumer, 10, 15),
        };
        &FORMS[row]
    }

    /// 01 "Journal records": the fields in the table's order, a test's without its readings.
    pub fn fields(&self) -> Vec<u32> {
        match self {
            Call::Year(y) => vec![y.nhrm.into(), y.nhmd.into(), y.ndhmd.into()],
            Call::Unit(u) => {
                vec![u.unit.into(), u.producer.into(), u.kind.into(), u.flags.into(), u.pic, u.ppr, u.e1, u.e2, u.cap]
            }
            Call::Test(t) => {
                vec![t.unit.into(), t.component.into(), t.run.ending.into(), t.run.tc.into(), t.run.count.into()]
            }
            Call::Availability(a) => {
                let Minutes { hd, hmp, hif, hed } = a.minutes;
                vec![a.unit.into(), a.component.into(), hd, hmp, hif, hed]
            }
            Call::Declare(d) => vec![d.consumer.into(), d.d, d.a],
            Call::Fix(dmp) => vec![*dmp],
            Call::Commit(c) | Call::Release(c) => vec![c.producer.into(), c.consumer.into(), c.q],
            Call::Meter(m) => vec![m.consumer.into(), m.dreal],
            Call::Close(p) => vec![(*p).into()],
            Call::Mean(m) => vec![m.consumer.into(), m.mean],
        }
    }
}
