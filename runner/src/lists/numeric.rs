//! What the lists' calls reached on the fields of 09h, 0Ah and 0Dh, counted so that a generator that misses its aim fails
//! the run.

use second::Call::{ByteRead, ByteWrite, Read, Write};

use super::aim::Aim;
use crate::calls::bank::Agreed;
use crate::case::Case;
use crate::engine::{self, Owned};
use crate::refusals::{only, Numbers, ACCEPTED, VALUE};
use crate::report::Report;
use crate::tally::Row;

/// A call on a field with Min and Max that is accepted, or a write that is refused with 12.
struct Look {
    call: second::Call,
    id: u8,
    min: i64,
    max: i64,
    /// What is written or answered, as the field's number.
    number: i64,
}

impl Look {
    fn writes(&self) -> bool {
        matches!(self.call, Write { .. })
    }

    /// A write to an entry for whose Min and Max the test holds.
    fn writes_if(&self, test: fn(i64, i64) -> bool) -> bool {
        self.writes() && test(self.min, self.max)
    }

    fn reads(&self, active: bool) -> bool {
        matches!(self.call, Read { set, .. } if (set == 2) == active)
    }

    /// The number is below 0, in a field of this ID.
    fn negative(&self, id: u8) -> bool {
        self.id == id && self.number < 0
    }

    /// Min is above Max, and the number is from Max to Min, in a field of this ID.
    fn exchanged(&self, id: u8) -> bool {
        self.id == id && self.max < self.min && (self.max..=self.min).contains(&self.number)
    }
}

/// Name, numbers, and what a call must be to be counted there, under the number that it answers.
type Reached = (Row, fn(&Look) -> bool);

const fn reached(name: &'static str, numbers: Numbers, test: fn(&Look) -> bool) -> Reached {
    (Row::new(name, numbers), test)
}

const REFUSED: Numbers = only(&[12]);

#[rustfmt::skip]
static REACHED: [Reached; 24] = [
    reached("write: Min - 1", REFUSED, |look| look.writes() && look.number == look.min - 1),
    reached("write: Min", ACCEPTED, |look| look.writes_if(|min, max| min <= max) && look.number == look.min),
    reached("write: Max", ACCEPTED, |look| look.writes_if(|min, max| min <= max) && look.number == look.max),
    reached("write: Max + 1", REFUSED, |look| look.writes() && look.number == look.max + 1),
    reached("write: range whole", VALUE, |look| look.writes_if(|min, max| min == -128 && max == 127)),
    reached("write: range across 0", VALUE, |look| look.writes_if(|min, max| min < 0 && 0 < max)),
    reached("write: range above 0", VALUE, |look| look.writes_if(|min, max| 0 < min && min < max)),
    reached("write: range below 0", VALUE, |look| look.writes_if(|min, max| min < max && max < 0)),
    reached("write: range of one", VALUE, |look| look.writes_if(|min, max| min == max)),
    reached("write: range empty", REFUSED, |look| look.writes_if(|min, max| min > max)),
    // A value that is accepted if Min and Max are read in the other order.
    reached("write: 09h as by 0Dh", REFUSED, |look| look.writes() && look.exchanged(0x09)),
    reached("write: 0Ah as by 0Dh", REFUSED, |look| look.writes() && look.exchanged(0x0A)),
    reached("write: 0Dh as by 09h", REFUSED, |look| look.writes() && look.exchanged(0x0D)),
    reached("write: 09h below 0", VALUE, |look| look.writes() && look.negative(0x09)),
    reached("write: 0Ah below 0", VALUE, |look| look.writes() && look.negative(0x0A)),
    reached("write: 0Dh below 0", VALUE, |look| look.writes() && look.negative(0x0D)),
    reached("read: 09h below 0", ACCEPTED, |look| look.reads(false) && look.negative(0x09)),
    reached("read: 0Ah below 0", ACCEPTED, |look| look.reads(false) && look.negative(0x0A)),
    reached("read: 0Dh below 0", ACCEPTED, |look| look.reads(false) && look.negative(0x0D)),
    reached("read active: 09h below 0", ACCEPTED, |look| look.reads(true) && look.negative(0x09)),
    reached("read active: 0Ah below 0", ACCEPTED, |look| look.reads(true) && look.negative(0x0A)),
    reached("read active: 0Dh below 0", ACCEPTED, |look| look.reads(true) && look.negative(0x0D)),
    reached("byte write: below 0", ACCEPTED, |look| matches!(look.call, ByteWrite { .. }) && look.number < 0),
    reached("byte read: below 0", ACCEPTED, |look| matches!(look.call, ByteRead { .. }) && look.number < 0),
];

pub fn rows() -> impl Iterator<Item = &'static Row> {
    REACHED.iter().map(|(row, _)| row)
}

/// The number of a field of 8 bits that shows a byte.
fn number(byte: u8) -> i64 {
    (byte as i8).into()
}

/// Counts a call, if it is on a field with Min and Max.
pub fn count(report: &mut Report, case: &Case, aim: &Aim, call: second::Call, agreed: &Agreed) {
    if !VALUE.has(agreed.refusal) {
        return;
    }
    // All 8 bits of a byte have one owner there.
    let owner = |set, offset| match engine::owner(case.count, case.rw, case.ro, set, offset, 0) {
        Owned { gap: 0, entry, .. } => Some(entry),
        _ => None,
    };
    let (entry, number) = match call {
        Write { entry, value, .. } => (Some(entry), value),
        Read { entry, .. } => (Some(entry), agreed.number),
        ByteWrite { set, offset, byte } => (owner(set, offset), number(byte)),
        ByteRead { set, offset } => (owner(set, offset), number(agreed.number as u8)),
        _ => (None, 0),
    };
    let Some((entry, [min, max])) = entry.and_then(|entry| Some((entry, aim.range(entry)?))) else {
        return;
    };
    let look = Look { call, id: aim.ids[entry], min, max, number };
    for (row, test) in &REACHED {
        if test(&look) {
            report.calls.count(row, agreed.refusal);
        }
    }
}
