//! Two strings as lists of entries, which the generators build and damage entry by entry.

use crate::case::Case;
use crate::random::Random;
use crate::shape::{self, mask_bytes, shape, BASE_TABLE, LINEAR_TABLE, RW_OPAQUE, TABLE};

pub const RW: usize = 0;
pub const RO: usize = 1;

/// The longest string that is accepted.
pub const LONGEST: usize = 120;
/// The most entries of a string that are accepted.
pub const MOST_ENTRIES: usize = 16;
/// The largest sum of MemoryLengths that is accepted.
pub const LARGEST: usize = 256;

#[derive(Clone)]
pub struct Strings {
    pub count: usize,
    /// The IDs of the table that are drawn, by string.
    pub table: [&'static [u8]; 2],
    pub entries: [Vec<Vec<u8>>; 2],
    /// The sum of MemoryLengths that entries are added within.
    pub largest: usize,
}

impl Strings {
    /// No entry yet. Two maps in five are to have no ID of note 1.
    pub fn new(random: &Random, count: usize) -> Strings {
        let table = random.pick(&[BASE_TABLE, BASE_TABLE, TABLE, TABLE, LINEAR_TABLE]);
        Strings { count, table, entries: [Vec::new(), Vec::new()], largest: LARGEST }
    }

    pub fn a(&self) -> usize {
        mask_bytes(self.count)
    }

    /// The place of MemoryLength in an entry.
    pub fn memory_at(&self) -> usize {
        2 + self.a()
    }

    pub fn flags_at(&self) -> usize {
        3 + self.a()
    }

    /// The least Length of an entry without fields, which no other ID goes below.
    pub fn least(&self) -> usize {
        3 + self.a()
    }

    pub fn size(&self, string: usize) -> usize {
        self.entries[string].iter().map(Vec::len).sum()
    }

    /// A string can take one more small entry.
    pub fn has_room(&self, string: usize) -> bool {
        self.entries[string].len() < MOST_ENTRIES && self.size(string) + self.least() <= LONGEST
    }

    /// An entry without fields, of the least Length.
    pub fn small_entry(&self, id: u8, memory: usize) -> Vec<u8> {
        let mut entry = vec![0; self.least()];
        entry[0] = id;
        entry[1] = entry.len() as u8;
        entry[self.memory_at()] = memory as u8;
        entry
    }

    /// MemoryLength of an entry, 0 if it was cut off.
    pub fn memory(&self, entry: &[u8]) -> usize {
        entry.get(self.memory_at()).map_or(0, |&memory| usize::from(memory))
    }

    /// The sum of all MemoryLengths.
    pub fn sum(&self) -> usize {
        self.entries.iter().flatten().map(|entry| self.memory(entry)).sum()
    }

    /// The sum of the MemoryLengths before an entry.
    pub fn sum_before(&self, string: usize, index: usize) -> usize {
        let rw = if string == RO { self.entries[RW].len() } else { 0 };
        let before = self.entries[RW][..rw].iter().chain(&self.entries[string][..index]);
        before.map(|entry| self.memory(entry)).sum()
    }

    /// A media-side table entry stands in RW.
    pub fn has_media(&self) -> bool {
        self.entries[RW].iter().any(|entry| TABLE[RW].contains(&entry[0]) && entry[self.flags_at()] & 1 == 1)
    }

    /// An ID that may stand in the string: of the table, 00h, or opaque.
    pub fn right_id(&self, random: &Random, string: usize) -> u8 {
        match random.below(20) {
            0..=12 => random.pick(self.table[string]),
            13 | 14 => 0x00,
            15 if string == RW => RW_OPAQUE,
            _ => high_opaque(random),
        }
    }

    /// An ID that may not stand in the string.
    pub fn wrong_id(&self, random: &Random, string: usize) -> u8 {
        if string == RW {
            random.pick(self.table[RO])
        } else if random.once_in(8) {
            RW_OPAQUE
        } else {
            random.pick(self.table[RW])
        }
    }

    pub fn flat(&self) -> Flat {
        Flat { count: self.count, strings: [self.entries[RW].concat(), self.entries[RO].concat()] }
    }
}

/// Both strings as bytes.
#[derive(Clone)]
pub struct Flat {
    pub count: usize,
    pub strings: [Vec<u8>; 2],
}

impl Flat {
    pub fn case(&self) -> Case<'_> {
        Case { count: self.count, rw: &self.strings[RW], ro: &self.strings[RO] }
    }
}

pub fn high_opaque(random: &Random) -> u8 {
    match random.below(4) {
        0 => 0x13,
        1 => 0xFF,
        _ => random.within(0x13, 0xFF) as u8,
    }
}

/// An entry that passes the checks 1 to 5 by itself. `media` is PropertyFlags bit 0, or the odd byte of an opaque entry.
pub fn good_entry(random: &Random, count: usize, id: u8, media: bool) -> Vec<u8> {
    let a = mask_bytes(count);
    let surplus = match random.below(6) {
        0 => 1,
        1 => random.below(12),
        _ => 0,
    };
    let mut entry = random.bytes(shape(id).least + a + surplus);
    entry[0] = id;
    entry[1] = entry.len() as u8;
    entry[2 + a] = memory(random, shape(id).needed);
    if let Some(flags) = entry.get_mut(3 + a) {
        *flags = *flags & 0xFE | u8::from(media);
    }
    if let Some((at, first)) = shape::step(id) {
        entry[at + a] = first + random.below(4) as u8;
    }
    if let Some([min_at, max_at]) = shape::range(id) {
        // The index, which may recur, or EqualizerTarget.
        entry[4 + a] = random.pick(&[0xFF, 0, 1, random.byte()]);
        let [min, max] = range(random);
        entry[min_at + a] = min as u8;
        entry[max_at + a] = max as u8;
    }
    entry
}

/// Min and Max: most often across 0; else whole, of one number, empty, above 0, below 0 or any.
fn range(random: &Random) -> [i8; 2] {
    let any = [random.byte() as i8, random.byte() as i8];
    let sorted = |[one, other]: [i8; 2]| [one.min(other), one.max(other)];
    match random.below(12) {
        0 => [i8::MIN, i8::MAX],
        1 => [any[0], any[0]],
        2 => [sorted(any)[1], sorted(any)[0]],
        3 => sorted(any.map(|number| number & i8::MAX)),
        4 => sorted(any.map(|number| number | i8::MIN)),
        5 => any,
        _ => [any[0] | i8::MIN, any[1] & i8::MAX],
    }
}

/// A MemoryLength of at least the need.
fn memory(random: &Random, needed: u8) -> u8 {
    let surplus = match (needed, random.below(8)) {
        (_, 0) => random.within(1, 40),
        (_, 1) => 1,
        (0, 2..=5) => random.below(6),
        _ => 0,
    };
    needed + surplus as u8
}
