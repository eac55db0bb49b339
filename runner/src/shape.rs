//! What the generators aim by: least Lengths, needs, steps, ranges, and IDs by kind. The comparison doesn't rest on it.

use std::ops::RangeInclusive;

/// `least` is without A.
pub struct Shape {
    pub least: usize,
    pub needed: u8,
}

pub fn shape(id: u8) -> Shape {
    let (least, needed) = match id {
        0x02 | 0x05 | 0x06 | 0x0B | 0x0C => (4, 1),
        0x03 => (4, 2),
        0x04 | 0x08 | 0x0E => (6, 4),
        0x07 => (7, 8),
        0x09 | 0x0A | 0x0D => (8, 8),
        0x0F | 0x10 => (4, 8),
        0x11 => (4, 16),
        0x12 => (6, 8),
        _ => (3, 0),
    };
    Shape { least, needed }
}

/// The parts of an ID's fields.
pub fn parts(id: u8) -> usize {
    match id {
        0x07 | 0x11 => 2,
        _ => usize::from(shape(id).needed > 0),
    }
}

/// The place of an ID's step, without A, and the first of the four codes that aren't reserved.
pub fn step(id: u8) -> Option<(usize, u8)> {
    match id {
        0x09 | 0x0A => Some((7, 1)),
        0x0D => Some((7, 0)),
        0x12 => Some((5, 0)),
        _ => None,
    }
}

/// The places of an ID's Min and Max, without A.
pub fn range(id: u8) -> Option<[usize; 2]> {
    match id {
        0x09 | 0x0A => Some([5, 6]),
        0x0D => Some([6, 5]),
        _ => None,
    }
}

/// A, also for a count that is refused.
pub fn mask_bytes(count: usize) -> usize {
    if count <= 8 {
        1
    } else {
        2
    }
}

/// IDs of the table, by the string that they belong to.
pub const TABLE: [&[u8]; 2] =
    [&[0x02, 0x03, 0x04, 0x05, 0x06, 0x07, 0x08, 0x09, 0x0A, 0x0B, 0x0C, 0x0D, 0x0E, 0x0F, 0x10], &[0x11, 0x12]];

/// The table without the IDs of note 1, and with no others in RW.
pub const BASE_TABLE: [&[u8]; 2] = [&[0x02, 0x03, 0x04, 0x05, 0x06, 0x07, 0x08, 0x0F, 0x10], &[0x11, 0x12]];
pub const LINEAR_TABLE: [&[u8]; 2] = [&[0x09, 0x0A, 0x0B, 0x0C, 0x0D, 0x0E], &[0x11, 0x12]];

/// The IDs of note 1 of document 02, the numeric parameters.
pub const NUMERIC: RangeInclusive<u8> = 0x09..=0x0E;

/// The opaque ID that only RW has.
pub const RW_OPAQUE: u8 = 0x01;
