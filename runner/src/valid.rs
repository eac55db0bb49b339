//! Maps that the load accepts: every count, few entries, 15 or 16 in a string, full strings, sums up to exactly 256, and sets
//! that end about a border of Table 4-1.

use crate::random::Random;
use crate::shape::shape;
use crate::strings::{good_entry, high_opaque, Strings, LARGEST, LONGEST, MOST_ENTRIES, RO, RW};

pub fn valid(random: &Random) -> Strings {
    let mut strings = Strings::new(random, good_count(random));
    for string in [RW, RO] {
        if random.once_in(3) {
            let number = random.pick(&[MOST_ENTRIES - 1, MOST_ENTRIES, MOST_ENTRIES]);
            fill_entries(random, &mut strings, string, number, LONGEST);
        } else {
            add_entries(random, &mut strings, string);
        }
    }
    if random.once_in(3) {
        fill_sum(random, &mut strings);
    }
    for string in [RW, RO] {
        if random.once_in(4) {
            fill_string(random, &mut strings, string);
        }
    }
    strings
}

/// A map whose staged or active length stands at or beside the end of a page or overflow page of Table 4-1.
pub fn addressed(random: &Random) -> Strings {
    let mut strings = Strings::new(random, good_count(random));
    let lengths = match random.below(4) {
        0 => [random.within(22, 24), random.below(LARGEST + 1)],
        1 => [random.within(78, 80), random.below(LARGEST + 1)],
        2 => [random.pick(&[0, random.below(21)]), random.within(20, 22)],
        _ => [random.pick(&[0, random.below(77)]), random.within(76, 78)],
    };
    for (string, length) in lengths.into_iter().enumerate() {
        strings.largest = length.max(strings.sum());
        add_entries(random, &mut strings, string);
        reserve(random, &mut strings, string);
    }
    strings
}

/// Brings the sum to the largest by a 00h entry before the last of a string, which leaves where there is no room for both.
fn reserve(random: &Random, strings: &mut Strings, string: usize) {
    if strings.sum() == strings.largest {
        return;
    }
    if !strings.has_room(string) {
        strings.entries[string].pop();
    }
    let entry = strings.small_entry(0x00, (strings.largest - strings.sum()).min(255));
    let index = random.below(strings.entries[string].len().max(1));
    strings.entries[string].insert(index, entry);
}

/// 1 to 15, most often at the ends of the two mask sizes.
pub fn good_count(random: &Random) -> usize {
    if random.once_in(2) {
        random.pick(&[1, 8, 9, 15])
    } else {
        random.within(1, 15)
    }
}

/// Adds entries as they come, up to 16.
fn add_entries(random: &Random, strings: &mut Strings, string: usize) {
    let room = random.pick(&[0, 12, 40, 80, LONGEST, LONGEST, LONGEST]);
    for _ in 0..random.below(24) {
        if strings.entries[string].len() < MOST_ENTRIES {
            add_entry(random, strings, string, room);
        }
    }
}

/// Brings a string to this number of entries, which its room allows: small ones alone, or as they come, with small ones where
/// others would leave too few bytes. The last finds room for any ID, where that can be.
pub fn fill_entries(random: &Random, strings: &mut Strings, string: usize, number: usize, room: usize) {
    let as_they_come = !random.once_in(4);
    while strings.entries[string].len() < number {
        let later = number - strings.entries[string].len() - 1;
        let kept = if later == 0 { 0 } else { later * strings.least() + 6 };
        let is_small = !as_they_come || later > 0 && random.once_in(3);
        if is_small || !add_entry(random, strings, string, room.saturating_sub(kept)) {
            add_small(random, strings, string);
        }
    }
}

/// Adds an entry if it leaves the string within its room, the sum within the largest and check 6 content. Says whether it did.
fn add_entry(random: &Random, strings: &mut Strings, string: usize, room: usize) -> bool {
    let repeated = strings.entries[string].last().filter(|_| random.once_in(6)).map(|entry| entry[0]);
    let id = repeated.unwrap_or_else(|| strings.right_id(random, string));
    let must_be_media = strings.has_media() && (0x02..=0x08).contains(&id);
    let has_fields = shape(id).needed > 0;
    let media = must_be_media || random.once_in(if has_fields { 8 } else { 2 });
    let entry = good_entry(random, strings.count, id, media);
    let fits = strings.size(string) + entry.len() <= room && strings.sum() + strings.memory(&entry) <= strings.largest;
    if fits {
        strings.entries[string].push(entry);
    }
    fits
}

/// Adds an entry of the least Length that reserves nothing or, within the sum of 256, one byte.
fn add_small(random: &Random, strings: &mut Strings, string: usize) {
    let id = if random.once_in(2) { 0x00 } else { high_opaque(random) };
    let memory = random.below(2).min(LARGEST.saturating_sub(strings.sum()));
    let entry = strings.small_entry(id, memory);
    strings.entries[string].push(entry);
}

/// Brings the sum to 256 exactly, where there is room for it: by a larger MemoryLength, or by 00h entries.
fn fill_sum(random: &Random, strings: &mut Strings) {
    let string = random.pick(&[RW, RO]);
    let place = strings.memory_at();
    let missing = LARGEST - strings.sum();
    if let Some(last) = strings.entries[string].last_mut() {
        if let Some(memory) = last[place].checked_add(missing.min(255) as u8) {
            last[place] = memory;
        }
    }
    while strings.sum() < LARGEST && strings.has_room(string) {
        let entry = strings.small_entry(0x00, (LARGEST - strings.sum()).min(255));
        strings.entries[string].push(entry);
    }
}

/// Brings a string to 120 bytes exactly: its last entry, or a new one, takes the bytes that are left.
fn fill_string(random: &Random, strings: &mut Strings, string: usize) {
    let left = LONGEST - strings.size(string);
    let surplus = random.bytes(left);
    if let Some(last) = strings.entries[string].last_mut() {
        last.extend(surplus);
        last[1] = last.len() as u8;
        return;
    }
    let mut entry = surplus;
    entry[0] = high_opaque(random);
    entry[1] = entry.len() as u8;
    let place = strings.memory_at();
    entry[place] = random.below(LARGEST - strings.sum().min(LARGEST - 1)) as u8;
    strings.entries[string].push(entry);
}
