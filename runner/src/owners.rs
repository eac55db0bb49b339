//! Bits whose owner, and the number of entries looked at for it, are known from document 01 and note 12 of document 02 alone.

use crate::calls::owner;
use crate::case::Case;
use crate::engine::Owned;
use crate::fixed::{hex, SPARSE};
use crate::report::Report;

pub fn compare(report: &mut Report) {
    for Known { name, count, rw, ro, bits } in known() {
        for (bit, owned) in bits {
            owner::compare(report, &Case { count, rw: &rw, ro: &ro }, bit, &[(name, owned)]);
        }
    }
}

/// A map, and set, offset and bit with what owner answers.
struct Known {
    name: &'static str,
    count: usize,
    rw: Vec<u8>,
    ro: Vec<u8>,
    bits: Vec<([usize; 3], Owned)>,
}

pub fn field(entry: usize, part: usize, lane: usize, looked_at: usize) -> Owned {
    Owned { refusal: 0, at: 0, gap: 0, entry, part, lane, looked_at }
}

pub fn gap(looked_at: usize) -> Owned {
    Owned { gap: 1, looked_at, ..Owned::default() }
}

pub fn refused(number: usize, at: usize) -> Owned {
    Owned::refused(number, at)
}

#[rustfmt::skip]
fn known() -> Vec<Known> {
    // An entry of MemoryLength 1, and one of 0.
    const SMALL: &str = "13 04 0F 01 ";
    const EMPTY: &str = "13 04 0F 00 ";
    let of = |name, count, rw: &str, ro: &str, bits: &[_]| {
        Known { name, count, rw: hex(rw), ro: hex(ro), bits: bits.to_vec() }
    };
    let last = |entry: &str| EMPTY.repeat(15) + entry;
    vec![
        of("document 01's example", 4, "02 05 0B 01 00 00 05 00 02 00 05 05 0F 01 00", "",
           &[([0, 0, 0], field(0, 0, 1, 1)), ([2, 0, 7], field(0, 0, 8, 1)), ([1, 1, 0], gap(2)), ([2, 2, 7], gap(2)),
             ([0, 3, 4], field(2, 0, 5, 3)), ([2, 4, 0], refused(10, 0)), ([3, 0, 0], refused(10, 0)),
             ([0, 0, 8], refused(10, 0))]),
        of("MemoryLength 0 first, between and behind", 4, SPARSE[0], SPARSE[1],
           &[([0, 0, 0], field(1, 0, 1, 2)), ([2, 0, 7], field(1, 0, 8, 2)), ([1, 1, 0], field(4, 0, 1, 5)),
             ([0, 2, 7], field(4, 0, 8, 5)), ([2, 3, 0], gap(5)), ([0, 4, 0], refused(10, 0)), ([2, 4, 0], field(7, 0, 1, 8)),
             ([2, 11, 7], field(7, 0, 8, 8)), ([2, 12, 0], gap(9)), ([2, 13, 7], gap(9)), ([2, 14, 0], refused(10, 0))]),
        of("MemoryLength 0 throughout RW", 4, "00 04 00 00 13 04 00 00", "11 05 0F 10 00",
           &[([0, 0, 0], refused(10, 0)), ([2, 0, 0], field(2, 0, 1, 3)), ([2, 7, 7], field(2, 0, 8, 3)),
             ([2, 8, 0], field(2, 1, 1, 3)), ([2, 15, 7], field(2, 1, 8, 3)), ([2, 16, 0], refused(10, 0))]),
        of("MemoryLength 0 throughout", 4, EMPTY, EMPTY, &[([0, 0, 0], refused(10, 0)), ([2, 0, 0], refused(10, 0))]),
        of("RO alone", 4, "", "13 04 00 01 00 04 00 00 12 07 0F 09 00 00 00",
           &[([1, 0, 0], refused(10, 0)), ([2, 0, 0], gap(1)), ([2, 1, 0], field(2, 0, 1, 3)), ([2, 8, 0], field(2, 0, 8, 3)),
             ([2, 9, 0], gap(3)), ([2, 10, 0], refused(10, 0))]),
        of("entries at offsets 255 and 256", 4, "00 04 00 FF 13 04 00 00 00 04 00 01 13 04 00 00", "FF 04 00 00",
           &[([0, 0, 0], gap(1)), ([1, 254, 7], gap(1)), ([2, 255, 0], gap(3)), ([2, 256, 0], refused(10, 0))]),
        of("16 and 16 entries", 4, &SMALL.repeat(16), &SMALL.repeat(16),
           &[([0, 0, 0], gap(1)), ([1, 15, 0], gap(16)), ([1, 16, 0], refused(10, 0)), ([2, 16, 0], gap(17)),
             ([2, 31, 7], gap(32)), ([2, 32, 0], refused(10, 0))]),
        of("a gap after 31 of MemoryLength 0", 4, &EMPTY.repeat(16), &last(SMALL), &[([2, 0, 0], gap(32))]),
        of("a field after 31 of MemoryLength 0", 4, &EMPTY.repeat(16), &last("12 07 0F 08 00 00 00"),
           &[([2, 4, 0], field(31, 0, 5, 32))]),
        of("two mask bytes", 9, "13 05 01 01 00 02 06 01 FF 01 00 13 05 01 01 00", "13 05 01 01 02",
           &[([0, 0, 2], field(1, 0, 3, 2)), ([2, 2, 0], gap(4))]),
        of("a fault behind the byte", 4, "02 05 0F 01 00 02", "", &[([0, 0, 0], refused(1, 1))]),
        of("a fault in RO, behind the byte", 4, "02 05 0F 01 00", "02 05 0F 01 00", &[([0, 0, 0], refused(3, 1))]),
        of("a 17th entry behind the byte", 4, &SMALL.repeat(17), "", &[([0, 0, 0], refused(16, 16))]),
    ]
}
