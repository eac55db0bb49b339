//! Document 01's table as one packed row for each of the 256 IDs.

#[derive(Clone, Copy)]
pub struct Row {
    /// Without A.
    pub least: u8,
    pub needed: u8,
    pub traits: u8,
    pub parts: u8,
    /// The width W is 2 to this.
    pub shift: u8,
    /// The first of the four steps that aren't reserved.
    pub first_step: u8,
    /// The accepted values of a width below 8, as bits.
    pub codes: u16,
}

pub const IN_RW: u8 = 1;
pub const IN_RO: u8 = 2;
pub const HAS_FLAGS: u8 = 4;
pub const HOST_FIRST: u8 = 8;
/// The last byte of the least Length is a step.
pub const HAS_STEP: u8 = 16;
/// The last 2 bytes of the least Length are a code mask.
pub const HAS_CODES: u8 = 32;
/// In RW, Min and Max stand before the step.
pub const SIGNED: u8 = 64;
/// Max stands before Min.
pub const MAX_FIRST: u8 = 128;

const TABLE_RW: u8 = IN_RW | HAS_FLAGS;
const FIRST: u8 = TABLE_RW | HOST_FIRST;
const RANGED: u8 = TABLE_RW | SIGNED | HAS_STEP;
const TABLE_RO: u8 = IN_RO | HAS_FLAGS | SIGNED;

const fn row(id: usize) -> Row {
    let (least, needed, traits, parts, shift, codes) = match id {
        0x02 | 0x05 | 0x06 => (4, 1, FIRST, 1, 0, 0x0003),
        0x03 => (4, 2, FIRST, 1, 1, 0x0007),
        0x04 => (6, 4, FIRST | HAS_CODES, 1, 2, 0xFFFF),
        0x07 => (7, 8, FIRST | HAS_CODES, 2, 2, 0xF8FF),
        0x08 => (6, 4, FIRST | HAS_CODES, 1, 2, 0x800F),
        0x09 | 0x0A => (8, 8, RANGED, 1, 3, 0),
        0x0B | 0x0C => (4, 1, TABLE_RW, 1, 0, 0x0003),
        0x0D => (8, 8, RANGED | MAX_FIRST, 1, 3, 0),
        0x0E => (6, 4, TABLE_RW | HAS_CODES, 1, 2, 0xFFFF),
        0x0F | 0x10 => (4, 8, TABLE_RW, 1, 3, 0),
        0x11 => (4, 16, TABLE_RO, 2, 3, 0),
        0x12 => (6, 8, TABLE_RO | HAS_STEP, 1, 3, 0),
        0x01 => (3, 0, IN_RW, 0, 0, 0),
        _ => (3, 0, IN_RW | IN_RO, 0, 0, 0),
    };
    let first_step = if id == 0x09 || id == 0x0A { 1 } else { 0 };
    Row { least, needed, traits, parts, shift, first_step, codes }
}

pub static ROWS: [Row; 256] = {
    let mut rows = [row(0); 256];
    let mut id = 0;
    while id < 256 {
        rows[id] = row(id);
        id += 1;
    }
    rows
};
