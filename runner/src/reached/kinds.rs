//! Refusals of the load by the string and the kind of the entry that they name.

use super::look::Seen;
use crate::refusals::{IN_PLACE, MISPLACED};
use crate::tally::{Row, Tally};

static KINDS: [Row; 24] = [
    Row::new("RW: 02h to 08h", IN_PLACE.and(&[4, 6])),
    Row::new("RW: 09h", IN_PLACE.and(&[4, 5])),
    Row::new("RW: 0Ah", IN_PLACE.and(&[4, 5])),
    Row::new("RW: 0Bh", IN_PLACE.and(&[4])),
    Row::new("RW: 0Ch", IN_PLACE.and(&[4])),
    Row::new("RW: 0Dh", IN_PLACE.and(&[4, 5])),
    Row::new("RW: 0Eh", IN_PLACE.and(&[4])),
    Row::new("RW: 0Fh, 10h", IN_PLACE.and(&[4])),
    Row::new("RW: 11h, 12h", MISPLACED),
    Row::new("RW: 01h", IN_PLACE),
    Row::new("RW: 00h", IN_PLACE),
    Row::new("RW: 13h to FFh", IN_PLACE),
    Row::new("RO: 02h to 08h", MISPLACED),
    Row::new("RO: 09h", MISPLACED),
    Row::new("RO: 0Ah", MISPLACED),
    Row::new("RO: 0Bh", MISPLACED),
    Row::new("RO: 0Ch", MISPLACED),
    Row::new("RO: 0Dh", MISPLACED),
    Row::new("RO: 0Eh", MISPLACED),
    Row::new("RO: 0Fh, 10h", MISPLACED),
    Row::new("RO: 11h, 12h", IN_PLACE.and(&[4, 5])),
    Row::new("RO: 01h", MISPLACED),
    Row::new("RO: 00h", IN_PLACE),
    Row::new("RO: 13h to FFh", IN_PLACE),
];

pub fn tally() -> Tally {
    Tally::new("load refused at", &KINDS.each_ref())
}

pub fn count(tally: &mut Tally, refusal: usize, stop: &Seen) {
    let class = match stop.id() {
        0x02..=0x08 => 0,
        id @ 0x09..=0x0E => usize::from(id) - 8,
        0x0F | 0x10 => 7,
        0x11 | 0x12 => 8,
        0x01 => 9,
        0x00 => 10,
        0x13..=0xFF => 11,
    };
    tally.count(&KINDS[12 * stop.string + class], refusal);
}
