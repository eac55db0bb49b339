//! Maps with faults: each refusal at each kind of entry, faults at the exact boundary, several at once, a 17th entry, and
//! noise.

use crate::random::Random;
use crate::shape::{self, shape, NUMERIC, RW_OPAQUE};
use crate::strings::{good_entry, high_opaque, Flat, Strings, LARGEST, LONGEST, MOST_ENTRIES, RO, RW};
use crate::valid::{fill_entries, good_count, valid};

/// A valid map with one fault, or with several in one entry or in many.
pub fn damaged(random: &Random) -> Flat {
    spoilt(random, valid(random), random.pick(&[1, 1, 1, 2, 4]))
}

/// A map with a 17th entry in a string or in both; by itself, or with faults in it, before it, behind it or in the other
/// string.
pub fn crowded(random: &Random) -> Flat {
    let mut strings = valid(random);
    for &string in random.pick(&[&[RW][..], &[RO], &[RO], &[RW, RO]]) {
        crowd(random, &mut strings, string);
    }
    spoilt(random, strings, random.pick(&[0, 1, 1, 2]))
}

/// A string of 16 entries, a 17th of any ID, and behind it none, some, or as many as 120 bytes hold.
fn crowd(random: &Random, strings: &mut Strings, string: usize) {
    strings.entries[string].clear();
    let id = any_id(random, strings, string);
    let beyond = good_entry(random, strings.count, id, random.once_in(4));
    let room = LONGEST - beyond.len();
    let most = room / strings.least() - MOST_ENTRIES;
    let behind = random.pick(&[0, 0, 1, random.below(most + 1), most]);
    fill_entries(random, strings, string, MOST_ENTRIES, room - behind * strings.least());
    strings.entries[string].push(beyond);
    fill_entries(random, strings, string, MOST_ENTRIES + 1 + behind, LONGEST);
}

/// The map with this many faults; now and then one of the caller's beside them.
fn spoilt(random: &Random, mut strings: Strings, faults: usize) -> Flat {
    let (mut string, mut index) = (RW, 0);
    for fault in 0..faults {
        if fault == 0 || random.once_in(2) {
            string = random.pick(&[RW, RO]);
            index = target(random, &mut strings, string);
        }
        index = index.min(strings.entries[string].len() - 1);
        damage(random, &mut strings, string, index);
    }
    let mut flat = strings.flat();
    if random.once_in(12) {
        refuse_caller(random, &mut flat);
    }
    flat
}

/// An ID of any kind, most often one that may stand in the string.
fn any_id(random: &Random, strings: &Strings, string: usize) -> u8 {
    match random.below(12) {
        0..=5 => random.pick(strings.table[string]),
        6 => 0x00,
        7 if string == RW => RW_OPAQUE,
        8 | 9 => strings.wrong_id(random, string),
        _ => high_opaque(random),
    }
}

/// The place of an entry of a kind picked anew, which is inserted where the string has none; in a string of more than 16 also
/// that of the 16th or 17th.
fn target(random: &Random, strings: &mut Strings, string: usize) -> usize {
    if strings.entries[string].len() > MOST_ENTRIES && random.once_in(2) {
        return random.pick(&[MOST_ENTRIES - 1, MOST_ENTRIES, MOST_ENTRIES]);
    }
    let id = any_id(random, strings, string);
    let found = strings.entries[string].iter().position(|entry| entry[0] == id);
    found.unwrap_or_else(|| {
        let index = random.below(strings.entries[string].len() + 1);
        let entry = good_entry(random, strings.count, id, false);
        insert(strings, string, index, entry)
    })
}

/// Inserts an entry; others leave where the string would pass 120 bytes or gain a 17th entry. Answers the entry's place.
fn insert(strings: &mut Strings, string: usize, index: usize, entry: Vec<u8>) -> usize {
    let mut index = index;
    let most = strings.entries[string].len().max(MOST_ENTRIES);
    strings.entries[string].insert(index, entry);
    while strings.entries[string].len() > most || strings.size(string) > LONGEST && strings.entries[string].len() > 1 {
        let last = strings.entries[string].len() - 1;
        if index < last {
            strings.entries[string].pop();
        } else {
            strings.entries[string].remove(0);
            index -= 1;
        }
    }
    index
}

fn damage(random: &Random, strings: &mut Strings, string: usize, index: usize) {
    match random.below(10) {
        0 => cut(random, strings, string, index),
        1 => length_over(random, strings, string, index),
        2 | 3 => length_below(random, strings, string, index),
        4 => wrong_string(random, strings, string, index),
        5 => memory_below(random, strings, string, index),
        6 => reserved_step(random, strings, index),
        7 => host_after_media(random, strings, index),
        8 => sum_at_limit(random, strings, string, index),
        _ => strings.entries[string].push(vec![random.byte()]),
    }
}

/// 1: the string ends inside the entry, half of the time after its ID.
fn cut(random: &Random, strings: &mut Strings, string: usize, index: usize) {
    strings.entries[string].truncate(index + 1);
    let entry = &mut strings.entries[string][index];
    let kept = if random.once_in(2) { 1 } else { random.within(1, entry.len()) };
    entry.truncate(kept);
}

/// 1: Length over the bytes left, by one or by more.
fn length_over(random: &Random, strings: &mut Strings, string: usize, index: usize) {
    let left: usize = strings.entries[string][index..].iter().map(Vec::len).sum();
    let least = (left + 1).min(255);
    let length = random.pick(&[least, least, 255, random.within(least, 255)]);
    if let Some(byte) = strings.entries[string][index].get_mut(1) {
        *byte = length as u8;
    }
}

/// 2: Length below the least. The bytes stay, or the entry is cut to them, or the string ends after two.
fn length_below(random: &Random, strings: &mut Strings, string: usize, index: usize) {
    let least = shape(strings.entries[string][index][0]).least + strings.a();
    let length = random.pick(&[0, 1, least - 1, least - 1, random.below(least)]);
    let entry = &mut strings.entries[string][index];
    if let Some(byte) = entry.get_mut(1) {
        *byte = length as u8;
    }
    match random.below(4) {
        0 => entry.truncate(length.max(2)),
        1 => {
            entry.truncate(2);
            strings.entries[string].truncate(index + 1);
        }
        _ => {}
    }
}

/// 3: an entry of the other string, well made.
fn wrong_string(random: &Random, strings: &mut Strings, string: usize, index: usize) {
    let id = strings.wrong_id(random, string);
    let entry = good_entry(random, strings.count, id, false);
    insert(strings, string, index, entry);
}

/// 4: MemoryLength below the need, most often by one.
fn memory_below(random: &Random, strings: &mut Strings, string: usize, index: usize) {
    let place = strings.memory_at();
    let entry = &mut strings.entries[string][index];
    let needed = usize::from(shape(entry[0]).needed);
    if needed == 0 {
        return;
    }
    let memory = random.pick(&[needed - 1, needed - 1, 0, random.below(needed)]);
    if let Some(byte) = entry.get_mut(place) {
        *byte = memory as u8;
    }
}

/// 5: an entry with a reserved step.
fn reserved_step(random: &Random, strings: &mut Strings, index: usize) {
    let with_step = strings.table.concat().into_iter().filter(|&id| shape::step(id).is_some());
    let id = random.pick(&with_step.collect::<Vec<u8>>());
    let (at, first) = shape::step(id).expect("a step");
    let above = usize::from(first) + 4;
    let below = usize::from(first).checked_sub(1).unwrap_or(above);
    let mut entry = good_entry(random, strings.count, id, random.once_in(8));
    entry[at + strings.a()] = random.pick(&[below, above, above, 255, random.within(above, 255)]) as u8;
    let string = if id == 0x12 { RO } else { RW };
    let index = index.min(strings.entries[string].len());
    insert(strings, string, index, entry);
}

/// 6: a host-side 02h to 08h with a media-side table entry anywhere before it.
fn host_after_media(random: &Random, strings: &mut Strings, index: usize) {
    let index = index.min(strings.entries[RW].len());
    let host = random.within(0x02, 0x08) as u8;
    let media = random.pick(strings.table[RW]);
    let host = good_entry(random, strings.count, host, false);
    let media = good_entry(random, strings.count, media, true);
    let index = insert(strings, RW, index, host);
    insert(strings, RW, random.below(index + 1), media);
}

/// 7 and its limit: the sum with this entry is 257, 256 or more than 257.
fn sum_at_limit(random: &Random, strings: &mut Strings, string: usize, index: usize) {
    let mut index = index;
    if strings.sum_before(string, index) < 2 {
        let entry = strings.small_entry(0x00, 255);
        insert(strings, RW, 0, entry);
        index = (index + usize::from(string == RW)).min(strings.entries[string].len() - 1);
    }
    let missing = LARGEST.saturating_sub(strings.sum_before(string, index));
    let memory = random.pick(&[missing, missing + 1, missing + 1, random.within(missing, missing.max(255))]);
    let place = strings.memory_at();
    if let Some(byte) = strings.entries[string][index].get_mut(place) {
        *byte = memory.min(255) as u8;
    }
}

/// 9: a count that isn't 1 to 15, or a string over 120 bytes.
pub fn refuse_caller(random: &Random, flat: &mut Flat) {
    if random.once_in(2) {
        let any = random.next() as usize;
        flat.count = random.pick(&[0, 0, 16, 16, 17, 255, 256, 257, 1 << 16, 1 << 32, (1 << 32) + 4, usize::MAX, any]);
    }
    if random.once_in(2) {
        let size = random.pick(&[LONGEST + 1, LONGEST + 1, LONGEST + 2, 255, 256, 257, 1000]);
        let string = &mut flat.strings[random.below(2)];
        let more = random.bytes(size.saturating_sub(string.len()));
        string.extend(more);
    }
}

/// A valid map with one byte changed, put in or taken out.
pub fn changed(random: &Random) -> Flat {
    let mut flat = valid(random).flat();
    let string = &mut flat.strings[random.below(2)];
    if string.is_empty() {
        string.push(random.byte());
        return flat;
    }
    let at = random.below(string.len());
    match random.below(6) {
        0 => string[at] = random.byte(),
        1 => string[at] = string[at].wrapping_add(1),
        2 => string[at] = string[at].wrapping_sub(1),
        3 => string[at] ^= 1 << random.below(8),
        4 => string.insert(at, random.byte()),
        _ => {
            string.remove(at);
        }
    }
    flat
}

/// Entries whose every number stands at or beside its limit.
pub fn bordering(random: &Random) -> Flat {
    let mut strings = Strings::new(random, good_count(random));
    for string in [RW, RO] {
        for _ in 0..random.below(12) {
            let id = if random.once_in(12) { random.byte() } else { random.within(0x00, 0x13) as u8 };
            let id = if string == RO && random.once_in(2) { random.pick(&[0x00, 0x11, 0x12, 0x13]) } else { id };
            let is_drawn = !NUMERIC.contains(&id) || strings.table[RW].contains(&id);
            let id = if is_drawn { id } else { random.pick(strings.table[RW]) };
            let mut entry = good_entry(random, strings.count, id, random.once_in(6));
            let place = strings.memory_at();
            entry[place] = match random.below(24) {
                0 => shape(id).needed.wrapping_sub(1),
                1 => random.pick(&[64, 128, 255]),
                _ => shape(id).needed,
            };
            if random.once_in(20) {
                entry[1] = entry[1].wrapping_add(random.pick(&[1, 255]));
            }
            if random.once_in(8) {
                let last = entry.len() - 1;
                entry[last] = random.pick(&[0, 1, 3, 4, 5]);
            }
            if strings.size(string) + entry.len() <= LONGEST {
                strings.entries[string].push(entry);
            }
        }
    }
    strings.flat()
}

/// Bytes of no plan.
pub fn noise(random: &Random) -> Flat {
    let count = if random.once_in(8) { random.below(20) } else { good_count(random) };
    let strings = [0, 1].map(|_| {
        let size = random.pick(&[0, 1, 2, 3, 4, 5, 8, 20, 60, 119, 120, 121]);
        let mut string = random.bytes(size);
        if random.once_in(2) {
            string.iter_mut().for_each(|byte| *byte %= 20);
        }
        string
    });
    Flat { count, strings }
}
