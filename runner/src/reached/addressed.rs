//! Where in Table 4-1 the fields stood that place was asked for and the bytes that owner was asked at, and where their sets
//! ended; each by set, which is the column.

use super::look::Look;
use crate::engine::{Loaded, Owned};
use crate::refusals::{only, Numbers};
use crate::table_4_1::{self, OVERFLOW, PAGE, TABLE};
use crate::tally::{Row, Tally};
use std::ops::Range;

const SETS: Numbers = only(&[0, 1, 2]);

/// A row, and whether it was met.
type Met<T> = (Row, fn(&T) -> bool);

const fn met<T>(name: &'static str, test: fn(&T) -> bool) -> Met<T> {
    (Row::new(name, SETS), test)
}

/// The lengths of sets at and beside the ends of their pages and overflow pages.
static LENGTHS: [Met<usize>; 10] = [
    met("length 20", |&length| length == 20),
    met("length 21", |&length| length == 21),
    met("length 22", |&length| length == 22),
    met("length 23", |&length| length == 23),
    met("length 24", |&length| length == 24),
    met("length 76", |&length| length == 76),
    met("length 77", |&length| length == 77),
    met("length 78", |&length| length == 78),
    met("length 79", |&length| length == 79),
    met("length 80", |&length| length == 80),
];

/// A byte of a set, the set's length, and the offsets of all the fields, or of the space, of the entry that has the byte.
struct Spot {
    offset: usize,
    overflow: usize,
    end: usize,
    length: usize,
    of_entry: Range<usize>,
}

impl Spot {
    fn new(look: &Look, set: usize, offset: usize, of_entry: Range<usize>) -> Spot {
        let (overflow, end) = (table_4_1::overflow(set), table_4_1::end(set));
        Spot { offset, overflow, end, length: look.answer.length(set), of_entry }
    }

    fn is_on_page(&self) -> bool {
        self.offset < self.overflow
    }

    fn is_in_table(&self) -> bool {
        self.offset < self.end
    }

    /// The entry stands on both sides of an offset.
    fn crosses(&self, offset: usize) -> bool {
        self.of_entry.start < offset && offset < self.of_entry.end
    }
}

static SPOTS: [Met<Spot>; 12] = [
    met("page, first byte", |s| s.offset == 0),
    met("page, last but one", |s| s.offset + 2 == s.overflow),
    met("page, last byte", |s| s.offset + 1 == s.overflow),
    met("overflow, first byte", |s| s.offset == s.overflow),
    met("overflow, second byte", |s| s.offset == s.overflow + 1),
    met("overflow, last but one", |s| s.offset + 2 == s.end),
    met("overflow, last byte", |s| s.offset + 1 == s.end),
    met("set ends with page", |s| s.offset + 1 == s.overflow && s.length == s.overflow),
    met("set ends with overflow", |s| s.offset + 1 == s.end && s.length == s.end),
    met("page, entry on both", |s| s.is_on_page() && s.crosses(s.overflow)),
    met("overflow, entry on both", |s| !s.is_on_page() && s.is_in_table() && s.crosses(s.overflow)),
    met("overflow, entry past it", |s| s.is_in_table() && s.crosses(s.end)),
];

/// Fields without an address.
static PAST: [Met<Spot>; 4] = [
    met("past, first byte", |s| s.offset == s.end),
    met("past, second byte", |s| s.offset == s.end + 1),
    met("past, a later byte", |s| s.offset > s.end + 1),
    met("past, entry in overflow", |s| !s.is_in_table() && s.crosses(s.end)),
];

/// An address that a set was asked at, and the set's length.
struct Asked {
    set: usize,
    address: [usize; 2],
    length: usize,
}

impl Asked {
    /// The address has this offset in the set.
    fn is_at(&self, test: impl Fn(usize) -> bool) -> bool {
        table_4_1::offset(self.set, self.address).is_some_and(test)
    }

    fn is_on(&self, range: usize) -> bool {
        TABLE[self.set][range].has(self.address)
    }

    /// The set has bytes on its overflow page, and bytes past that.
    fn overflows(&self) -> bool {
        self.length > table_4_1::overflow(self.set)
    }

    fn passes(&self) -> bool {
        self.length > table_4_1::end(self.set)
    }

    /// The byte directly before one of the set's ranges, or behind it.
    fn is_before(&self, range: usize) -> bool {
        let range = &TABLE[self.set][range];
        self.address == [range.page, range.first - 1]
    }

    fn is_behind(&self, range: usize) -> bool {
        let range = &TABLE[self.set][range];
        self.address == [range.page, range.last + 1]
    }

    /// The address of a byte in one of another set's ranges, which the set has elsewhere.
    fn is_of(&self, other: usize, range: usize) -> bool {
        let offset = table_4_1::offset(other, self.address);
        self.set != other && TABLE[other][range].has(self.address) && offset.is_some_and(|offset| offset < self.length)
    }

    /// With the low 8 bits alone of page and byte, the address of a byte that the set has.
    fn has_in_low_bits(&self) -> bool {
        let low = self.address.map(|number| number & 0xFF);
        table_4_1::offset(self.set, low).is_some_and(|offset| offset < self.length)
    }

    /// A byte number, on whatever page, that one of the set's ranges has.
    fn has_byte(&self) -> bool {
        TABLE[self.set].iter().any(|range| range.has([range.page, self.address[1]]))
    }

    fn has_page(&self) -> bool {
        TABLE[self.set].iter().any(|range| range.page == self.address[0])
    }
}

const fn of_others<T>(name: &'static str, set: usize, test: fn(&T) -> bool) -> Met<T> {
    (Row::new(name, SETS.without(set)), test)
}

#[rustfmt::skip]
static REFUSED: [Met<Asked>; 21] = [
    met("page, set's length", |a| a.is_on(PAGE) && a.is_at(|offset| offset == a.length)),
    met("page, past set's length", |a| a.is_on(PAGE) && a.is_at(|offset| offset > a.length)),
    met("overflow, first, length", |a| !a.is_on(PAGE) && !a.overflows() && a.is_at(|offset| offset == a.length)),
    met("overflow, set's length", |a| a.overflows() && a.is_at(|offset| offset == a.length)),
    met("overflow, past length", |a| a.is_on(OVERFLOW) && a.is_at(|offset| offset > a.length)),
    met("before the page", |a| a.length > 0 && a.is_before(PAGE)),
    met("behind the page", |a| a.overflows() && a.is_behind(PAGE)),
    met("before the overflow", |a| a.overflows() && a.is_before(OVERFLOW)),
    met("behind the overflow", |a| a.passes() && a.is_behind(OVERFLOW)),
    met("0, 0, set in the table", |a| a.address == [0, 0] && a.length > 0 && !a.passes()),
    met("0, 0, set goes past it", |a| a.address == [0, 0] && a.passes()),
    met("page 0, a set's byte", |a| a.length > 0 && a.address[0] == 0 && a.has_byte()),
    met("a set's page, byte 0", |a| a.length > 0 && a.address[1] == 0 && a.has_page()),
    met("page above 255", |a| a.address[0] > 0xFF && a.has_in_low_bits()),
    met("byte above 255", |a| a.address[1] > 0xFF && a.has_in_low_bits()),
    of_others("set 0's page", 0, |a| a.is_of(0, PAGE)),
    of_others("set 0's overflow", 0, |a| a.is_of(0, OVERFLOW)),
    of_others("set 1's page", 1, |a| a.is_of(1, PAGE)),
    of_others("set 1's overflow", 1, |a| a.is_of(1, OVERFLOW)),
    of_others("set 2's page", 2, |a| a.is_of(2, PAGE)),
    of_others("set 2's overflow", 2, |a| a.is_of(2, OVERFLOW)),
];

fn tally<T: 'static>(heading: &'static str, rows: impl Iterator<Item = &'static Met<T>>) -> Tally {
    Tally::new(heading, &rows.map(|(row, _)| row).collect::<Vec<_>>())
}

fn count<T: 'static>(tally: &mut Tally, rows: impl Iterator<Item = &'static Met<T>>, set: usize, at: &T) {
    for (row, _) in rows.filter(|(_, test)| test(at)) {
        tally.count(row, set);
    }
}

pub struct Addressed {
    lengths: Tally,
    placed: Tally,
    /// Fields and gaps.
    told: [Tally; 2],
    refused: Tally,
}

impl Addressed {
    pub fn new() -> Addressed {
        Addressed {
            lengths: tally("accepted, by set", LENGTHS.iter()),
            placed: tally("place, by set", SPOTS.iter().chain(&PAST)),
            told: ["field at, by set", "gap at, by set"].map(|heading| tally(heading, SPOTS.iter())),
            refused: tally("10 at, by set", REFUSED.iter()),
        }
    }

    /// Counts an accepted load.
    pub fn loaded(&mut self, loaded: &Loaded) {
        for set in 0..3 {
            count(&mut self.lengths, LENGTHS.iter(), set, &loaded.length(set));
        }
    }

    /// Counts the field of an entry that was placed.
    pub fn placed(&mut self, look: &Look, set: usize, entry: usize, offset: usize) {
        let spot = Spot::new(look, set, offset, look.fields(entry));
        count(&mut self.placed, SPOTS.iter().chain(&PAST), set, &spot);
    }

    /// Counts an address that a set was asked at, on an accepted map, for a bit that there is.
    pub fn asked(&mut self, look: &Look, set: usize, address: [usize; 2], owned: &Owned) {
        if owned.refusal != 0 {
            let asked = Asked { set, address, length: look.answer.length(set) };
            count(&mut self.refused, REFUSED.iter(), set, &asked);
        } else if let Some(offset) = table_4_1::offset(set, address) {
            let entry = owned.looked_at - 1;
            let of_entry = if owned.gap == 0 { look.fields(entry) } else { look.space(entry) };
            count(&mut self.told[owned.gap], SPOTS.iter(), set, &Spot::new(look, set, offset, of_entry));
        }
    }

    pub fn tallies(&self) -> [&Tally; 5] {
        let [fields, gaps] = &self.told;
        [&self.lengths, &self.placed, fields, gaps, &self.refused]
    }
}
