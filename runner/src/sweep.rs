//! Every ID in both strings and with both mask sizes, each of its numbers at and beside its limit, as a 17th entry too;
//! every step; every ID of the table after every other; every count of entries; every byte of a map with the whole table.

use crate::fixed::{hex, WHOLE};
use crate::shape::{self, mask_bytes, shape};
use crate::strings::{Flat, LONGEST, MOST_ENTRIES, RO, RW};

/// Hands each map of the sweep to `take`.
pub fn sweep(mut take: impl FnMut(&Flat)) {
    for count in [8, 9] {
        for string in [RW, RO] {
            for before in [0x00, 0x01, 0x0F, 0x07, 0x0D] {
                for id in 0..=0xFF {
                    each_entry(count, id, |entry| take(&alone(count, string, before, entry)));
                }
            }
            for id in 0..=0xFF {
                each_step(count, id, |entry| take(&alone(count, string, 0x0B, entry)));
                each_entry(count, id, |entry| take(&seventeenth(count, string, entry)));
            }
        }
        each_pair(count, &mut take);
        each_count(count, &mut take);
    }
    each_byte(&mut take);
}

/// The entries of one ID: Length, MemoryLength and step below, at and above the limit, host and media side.
fn each_entry(count: usize, id: u8, mut take: impl FnMut(&[u8])) {
    let a = mask_bytes(count);
    let least = shape(id).least + a;
    let needed = shape(id).needed;
    for length in [least - 1, least, least + 3] {
        for memory in [needed.saturating_sub(1), needed, needed + 1] {
            for last in [2, 3, 4, 5] {
                take(&filled(a, id, length, memory, last));
            }
        }
    }
}

/// The entries of an ID with a step, for every step code, at the least Length and above. The bytes about it are as a step is
/// that is accepted or reserved, so that one read at another place shows.
fn each_step(count: usize, id: u8, mut take: impl FnMut(&[u8])) {
    let a = mask_bytes(count);
    let Some((at, _)) = shape::step(id) else { return };
    for length in [shape(id).least + a, shape(id).least + a + 2] {
        for other in [0, 1, 4, 5, 0xFF] {
            for step in 0..=0xFF {
                let mut entry = filled(a, id, length, shape(id).needed, other);
                entry[at + a] = step;
                take(&entry);
            }
        }
    }
}

/// Every ID to 13h after every other, each on both sides.
fn each_pair(count: usize, take: &mut impl FnMut(&Flat)) {
    let a = mask_bytes(count);
    let entry = |id: u8, side: u8| {
        let mut entry = filled(a, id, shape(id).least.max(4) + a, shape(id).needed, 1);
        entry[3 + a] = 0xFE | side;
        entry
    };
    for (first, second) in (0x00..=0x13).flat_map(|first| (0x00..=0x13).map(move |second| (first, second))) {
        for sides in 0..4 {
            let pair = [entry(first, sides & 1), entry(second, sides >> 1)];
            take(&Flat { count, strings: [pair.concat(), Vec::new()] });
            take(&Flat { count, strings: pair });
        }
    }
}

/// Every count of RW and of RO entries that 120 bytes allow, with one byte left after either string and without.
fn each_count(count: usize, take: &mut impl FnMut(&Flat)) {
    let small = small(count);
    let counts = 0..=LONGEST / small.len();
    for (rw, ro) in counts.clone().flat_map(|rw| counts.clone().map(move |ro| (rw, ro))) {
        for left in [[0, 0], [1, 0], [0, 1]] {
            let string = |entries, left| [small.repeat(entries), vec![0; left]].concat();
            take(&Flat { count, strings: [string(rw, left[RW]), string(ro, left[RO])] });
        }
    }
}

/// A map with every ID of the table, for every value of every byte of both strings.
fn each_byte(take: &mut impl FnMut(&Flat)) {
    let map = Flat { count: 4, strings: WHOLE.map(hex) };
    for string in [RW, RO] {
        for at in 0..map.strings[string].len() {
            for byte in 0..=0xFF {
                let mut map = map.clone();
                map.strings[string][at] = byte;
                take(&map);
            }
        }
    }
}

/// An entry with this byte wherever no other is named.
fn filled(a: usize, id: u8, length: usize, memory: u8, byte: u8) -> Vec<u8> {
    let mut entry = vec![byte; length];
    entry[0] = id;
    entry[1] = length as u8;
    if let Some(place) = entry.get_mut(2 + a) {
        *place = memory;
    }
    entry
}

/// An entry that reserves a byte.
fn small(count: usize) -> Vec<u8> {
    let a = mask_bytes(count);
    filled(a, 0x13, 3 + a, 1, 0)
}

/// The entry after 16 others of its string; in RO after RW entries too, as many as its ID has a remainder by 17.
fn seventeenth(count: usize, string: usize, entry: &[u8]) -> Flat {
    let small = small(count);
    let mut strings = [small.repeat(usize::from(entry[0]) % (MOST_ENTRIES + 1)), Vec::new()];
    strings[string] = [small.repeat(MOST_ENTRIES), entry.to_vec()].concat();
    Flat { count, strings }
}

/// The entry in its string, after an RW entry with the ID `before` and an odd last byte, and before nothing.
fn alone(count: usize, string: usize, before: u8, entry: &[u8]) -> Flat {
    let a = mask_bytes(count);
    let mut strings = [filled(a, before, shape(before).least.max(4) + a, shape(before).needed, 1), Vec::new()];
    strings[string].extend(entry);
    Flat { count, strings }
}
