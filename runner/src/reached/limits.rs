//! The exact limits of documents 01 and 02 at which a map must have stood, on both sides.

use super::look::{Look, Seen};
use crate::shape::NUMERIC;
use crate::strings::{LARGEST, LONGEST, MOST_ENTRIES, RO, RW};

/// A name, and whether a load stood there.
type Limit = (&'static str, fn(&Look) -> bool);

#[rustfmt::skip]
pub const LIMITS: [Limit; 98] = [
    ("count 1 accepted", |l| l.accepted() && l.case.count == 1),
    ("count 8 accepted", |l| l.accepted() && l.case.count == 8),
    ("count 9 accepted", |l| l.accepted() && l.case.count == 9),
    ("count 15 accepted", |l| l.accepted() && l.case.count == 15),
    ("9: count 0", |l| l.nine(l.case.count == 0)),
    ("9: count 16", |l| l.nine(l.case.count == 16)),
    ("9: count above 255", |l| l.nine(l.case.count > 255)),
    ("9: RW of 121 bytes", |l| l.nine(good_count(l) && l.case.rw.len() == LONGEST + 1 && l.case.ro.len() <= LONGEST)),
    ("9: RO of 121 bytes", |l| l.nine(good_count(l) && l.case.rw.len() <= LONGEST && l.case.ro.len() == LONGEST + 1)),
    ("RW of 120 bytes accepted", |l| l.accepted() && l.case.rw.len() == LONGEST),
    ("RO of 120 bytes accepted", |l| l.accepted() && l.case.ro.len() == LONGEST),
    ("both of 120 bytes accepted", |l| l.accepted() && l.case.rw.len() == LONGEST && l.case.ro.len() == LONGEST),
    ("RW empty, RO not, accepted", |l| l.accepted() && l.case.rw.is_empty() && !l.case.ro.is_empty()),
    ("RO empty, RW not, accepted", |l| l.accepted() && !l.case.rw.is_empty() && l.case.ro.is_empty()),
    ("both empty", |l| l.accepted() && l.case.rw.is_empty() && l.case.ro.is_empty()),
    ("15 RW entries accepted", |l| l.accepted() && l.answer.rw_count == MOST_ENTRIES - 1),
    ("15 RO entries accepted", |l| l.accepted() && l.answer.ro_count == MOST_ENTRIES - 1),
    ("16 RW entries accepted", |l| l.accepted() && l.answer.rw_count == MOST_ENTRIES),
    ("16 RO entries accepted", |l| l.accepted() && l.answer.ro_count == MOST_ENTRIES),
    ("16 and 16 entries accepted", |l| l.accepted() && [l.answer.rw_count, l.answer.ro_count] == [MOST_ENTRIES; 2]),
    ("surplus bytes of a 16th RW entry", |l| l.with(|e| e.string == RW && ends_with_surplus(l, e))),
    ("surplus bytes of a 16th RO entry", |l| l.with(|e| e.string == RO && ends_with_surplus(l, e))),
    ("1: one byte after 15 RW entries", |l| one_byte_after(l, 1, RW, MOST_ENTRIES - 1)),
    ("1: one byte after 15 RO entries", |l| one_byte_after(l, 1, RO, MOST_ENTRIES - 1)),
    ("16: one byte after 16 RW entries", |l| one_byte_after(l, 16, RW, MOST_ENTRIES)),
    ("16: one byte after 16 RO entries", |l| one_byte_after(l, 16, RO, MOST_ENTRIES)),
    ("16: exactly 17 RW entries", |l| l.refused(16, |e| e.string == RW && l.entries(RW) == MOST_ENTRIES + 1 && is_last(e))),
    ("16: exactly 17 RO entries", |l| l.refused(16, |e| e.string == RO && l.entries(RO) == MOST_ENTRIES + 1 && is_last(e))),
    ("16: more than 20 RW entries", |l| l.refused(16, |e| e.string == RW && l.entries(RW) > 20)),
    ("16: more than 20 RO entries", |l| l.refused(16, |e| e.string == RO && l.entries(RO) > 20)),
    ("16: 30 entries, one mask byte", |l| l.refused(16, |e| l.a == 1 && l.entries(e.string) == LONGEST / 4)),
    ("16: 24 entries, two mask bytes", |l| l.refused(16, |e| l.a == 2 && l.entries(e.string) == LONGEST / 5)),
    ("16: after entries that reserve nothing", |l| l.refused(16, |e| l.sum_with(e) == l.memory(e).unwrap_or(0))),
    ("16: in RO after no RW entry", |l| l.refused(16, |e| e.string == RO && l.answer.at == MOST_ENTRIES)),
    ("16: in RO after 15 RW entries", |l| l.refused(16, |_| l.answer.at == 2 * MOST_ENTRIES - 1)),
    ("16: in RO after 16 RW entries", |l| l.refused(16, |_| l.answer.at == 2 * MOST_ENTRIES)),
    ("16: in RW before a 17th RO entry", |l| l.refused(16, |e| e.string == RW && l.has_17th_in(RO))),
    ("3 before a 17th entry", |l| l.refused(3, |e| l.has_17th_in(e.string))),
    ("4 before a 17th entry", |l| l.refused(4, |e| l.has_17th_in(e.string))),
    ("5 before a 17th entry", |l| l.refused(5, |e| l.has_17th_in(e.string))),
    ("6 before a 17th entry", |l| l.refused(6, |e| l.has_17th_in(e.string))),
    ("7 before a 17th entry", |l| l.refused(7, |e| l.has_17th_in(e.string))),
    ("a 16th entry's fault before a 17th", |l| l.stops(|e| l.before(e) == MOST_ENTRIES - 1 && l.has_17th_in(e.string))),
    ("RW fault before a 17th RO entry", |l| l.answer.refusal != 16 && l.stops(|e| e.string == RW && l.has_17th_in(RO))),
    ("9: count 0, a 17th entry", |l| l.nine(l.case.count == 0 && has_17th(l))),
    ("9: a string too long, a 17th entry", |l| l.nine(good_count(l) && has_17th(l))),
    ("staged length 256", |l| l.accepted() && l.answer.staged_length == LARGEST),
    ("active length 256", |l| l.accepted() && l.answer.active_length == LARGEST),
    ("RO entry at offset 256", |l| l.accepted() && l.answer.staged_length == LARGEST && l.answer.ro_count > 0),
    ("7: sum of exactly 257", |l| l.refused(7, |e| l.sum_with(e) == LARGEST + 1)),
    ("1: one byte left", |l| l.refused(1, |e| e.rest.len() == 1)),
    ("1: Length one over the bytes left", |l| l.refused(1, |e| e.length() == Some(e.rest.len() + 1))),
    ("1: Length 255", |l| l.refused(1, |e| e.length() == Some(255))),
    ("2: Length 0", |l| l.refused(2, |e| e.length() == Some(0))),
    ("2: Length 1", |l| l.refused(2, |e| e.length() == Some(1))),
    ("2: Length 0, two bytes left", |l| l.refused(2, |e| e.length() == Some(0) && e.rest.len() == 2)),
    ("2: Length one below the least", |l| l.refused(2, |e| e.length() == Some(l.least(e) - 1))),
    ("Length = least = bytes left accepted", |l| l.with(|e| e.rest.len() == l.least(e))),
    ("Length above the least accepted", |l| l.with(|e| e.length() > Some(l.least(e)))),
    ("MemoryLength above the need accepted", |l| l.with(|e| l.needed(e) > 0 && l.memory(e) > Some(l.needed(e)))),
    ("4: MemoryLength one below the need", |l| l.refused(4, |e| l.memory(e) == Some(l.needed(e) - 1))),
    ("4: MemoryLength 0", |l| l.refused(4, |e| l.memory(e) == Some(0))),
    ("5: 12h, step 4", |l| reserved(l, 0x12, 4)),
    ("5: 12h, step 255", |l| reserved(l, 0x12, 255)),
    ("5: 0Dh, step 4", |l| reserved(l, 0x0D, 4)),
    ("5: 0Dh, step 255", |l| reserved(l, 0x0D, 255)),
    ("5: 09h, step 0", |l| reserved(l, 0x09, 0)),
    ("5: 09h, step 5", |l| reserved(l, 0x09, 5)),
    ("5: 09h, step 255", |l| reserved(l, 0x09, 255)),
    ("5: 0Ah, step 0", |l| reserved(l, 0x0A, 0)),
    ("5: 0Ah, step 5", |l| reserved(l, 0x0A, 5)),
    ("5: 0Ah, step 255", |l| reserved(l, 0x0A, 255)),
    ("12h, step 0 accepted", |l| l.with(|e| steps(l, e, 0x12, 0))),
    ("12h, step 3, index above 3 accepted", |l| l.with(|e| steps(l, e, 0x12, 3) && l.index(e) > 3)),
    ("0Dh, step 0 accepted", |l| l.with(|e| steps(l, e, 0x0D, 0))),
    ("0Dh, step 3, index above 3 accepted", |l| l.with(|e| steps(l, e, 0x0D, 3) && l.index(e) > 3)),
    ("09h, step 1 accepted", |l| l.with(|e| steps(l, e, 0x09, 1))),
    ("09h, step 4, target above 1 accepted", |l| l.with(|e| steps(l, e, 0x09, 4) && l.index(e) > 1)),
    ("0Ah, step 1 accepted", |l| l.with(|e| steps(l, e, 0x0A, 1))),
    ("0Ah, step 4, target above 1 accepted", |l| l.with(|e| steps(l, e, 0x0A, 4) && l.index(e) > 1)),
    ("Min above Max accepted", |l| l.with(|e| l.range(e).is_some_and(|[min, max]| min > max))),
    ("Min equal to Max accepted", |l| l.with(|e| l.range(e).is_some_and(|[min, max]| min == max))),
    ("0Dh with two indexes accepted", |l| l.with(|e| other_cursor(l, e, |one, other| one != other))),
    ("0Dh twice with one index accepted", |l| l.with(|e| other_cursor(l, e, |one, other| one == other))),
    ("6: after a media-side 02h to 08h", |l| after_media(l, 0x02, 0x08)),
    ("6: after a media-side 09h", |l| after_media(l, 0x09, 0x09)),
    ("6: after a media-side 0Ah", |l| after_media(l, 0x0A, 0x0A)),
    ("6: after a media-side 0Bh", |l| after_media(l, 0x0B, 0x0B)),
    ("6: after a media-side 0Ch", |l| after_media(l, 0x0C, 0x0C)),
    ("6: after a media-side 0Dh", |l| after_media(l, 0x0D, 0x0D)),
    ("6: after a media-side 0Eh", |l| after_media(l, 0x0E, 0x0E)),
    ("6: after a media-side 0Fh or 10h", |l| after_media(l, 0x0F, 0x10)),
    ("host-side 09h to 0Eh after media side", |l| l.accepted() && numeric_after_media(l)),
    ("host side after an odd opaque entry", |l| l.accepted() && after_odd_opaque(l)),
    ("media side after media side", |l| l.accepted() && l.passed().iter().filter(|e| e.id() <= 0x08 && l.media(e)).count() > 1),
    ("an ID recurs, accepted", |l| l.accepted() && recurs(l)),
    ("all of 09h to 0Eh accepted", |l| l.accepted() && NUMERIC.into_iter().all(|id| l.passed().iter().any(|e| e.id() == id))),
    ("RW fields, none of 09h to 0Eh, accepted", |l| l.with(|e| e.string == RW && l.needed(e) > 0) && !l.with(numeric)),
];

fn good_count(l: &Look) -> bool {
    (1..=15).contains(&l.case.count)
}

/// Either string comes to a 17th entry.
fn has_17th(l: &Look) -> bool {
    l.has_17th_in(RW) || l.has_17th_in(RO)
}

/// The entry is a string's 16th and its last, and longer than its least Length.
fn ends_with_surplus(l: &Look, entry: &Seen) -> bool {
    l.before(entry) == MOST_ENTRIES - 1 && is_last(entry) && entry.length() > Some(l.least(entry))
}

fn is_last(entry: &Seen) -> bool {
    entry.length() == Some(entry.rest.len())
}

/// Refused for one byte that is left after this many entries of a string.
fn one_byte_after(l: &Look, number: usize, string: usize, entries: usize) -> bool {
    l.refused(number, |e| e.string == string && e.rest.len() == 1 && l.before(e) == entries)
}

fn numeric(entry: &Seen) -> bool {
    NUMERIC.contains(&entry.id())
}

fn steps(l: &Look, entry: &Seen, id: u8, step: u8) -> bool {
    entry.id() == id && l.step(entry) == Some(step)
}

/// Refused with 5 for this step of an ID.
fn reserved(l: &Look, id: u8, step: u8) -> bool {
    l.refused(5, |entry| steps(l, entry, id, step))
}

/// Refused with 6 after a first media-side entry of these IDs.
fn after_media(l: &Look, low: u8, high: u8) -> bool {
    l.refused(6, |_| l.first_media().is_some_and(|entry| (low..=high).contains(&entry.id())))
}

/// A host-side entry of note 1 directly after a media-side entry.
fn numeric_after_media(l: &Look) -> bool {
    l.passed().windows(2).any(|pair| l.media(&pair[0]) && numeric(&pair[1]) && !l.odd(&pair[1]))
}

/// The entry is a 0Dh, and the test holds for its index and another 0Dh's.
fn other_cursor(l: &Look, entry: &Seen, test: fn(u8, u8) -> bool) -> bool {
    let other = |other: &&Seen| other.id() == 0x0D && other.rest.len() != entry.rest.len();
    entry.id() == 0x0D && l.passed().iter().filter(other).any(|other| test(l.index(entry), l.index(other)))
}

/// A host-side 02h to 08h directly after an entry without fields whose byte after MemoryLength is its own and odd.
fn after_odd_opaque(l: &Look) -> bool {
    l.passed().windows(2).any(|pair| {
        let (opaque, host) = (&pair[0], &pair[1]);
        let odd = l.needed(opaque) == 0 && opaque.length() > Some(l.least(opaque)) && l.odd(opaque);
        odd && (0x02..=0x08).contains(&host.id()) && !l.odd(host)
    })
}

fn recurs(l: &Look) -> bool {
    let mut seen = [false; 256];
    l.passed().iter().any(|entry| std::mem::replace(&mut seen[usize::from(entry.id())], true))
}
