//! "Misreadings seen in class", and the reviewer's checklist.

mod common;
use common::*;
use second::*;

/// "Skipping an opaque entry without its space."
#[test]
fn opaque_takes_its_space() {
    let rw = [entry(0x13, 0, 7, &[1, 2, 3]), entry(0x01, 0, 0, &[]), entry(0x0F, 1, 8, &[0])].concat();
    let list = entries(2, &rw, &[]).unwrap();
    let first = EntryInfo { id: 0x13, start: 0, length: 7, offset: 0, memory: 7, in_ro: false };
    let second = EntryInfo { id: 0x01, start: 7, length: 4, offset: 7, memory: 0, in_ro: false };
    let third = EntryInfo { id: 0x0F, start: 11, length: 5, offset: 7, memory: 8, in_ro: false };
    assert_eq!(list, [first, second, third]);
    assert_eq!(place_of(2, &rw, &[], 0, 2, 0, 8), Ok((14, 0)));
    assert_eq!(owner_of(2, &rw, &[], 0, 6, 7), Ok(gap(1)));
    assert_eq!(owner_of(2, &rw, &[], 0, 7, 0), Ok(owned((2, 0, 1), 3)));
}

/// "Moving the map when an AppSel lacks a parameter: the map follows the
/// strings only."
#[test]
fn map_follows_the_strings_only() {
    let with = |mask| [entry(0x03, mask, 2, &[0]), entry(0x0F, 1, 8, &[0])].concat();
    for mask in 0..=255 {
        assert_eq!(entries(3, &with(mask), &[]), entries(3, &with(0), &[]));
        assert_eq!(place_of(3, &with(mask), &[], 2, 1, 0, 2), Ok((3, 0)));
    }
}

/// "Trusting code mask bits over reserved codes."
#[test]
fn reserved_codes_stay_reserved() {
    let rw = [entry(0x07, 1, 8, &[0, 0x80, 0xFF, 0xFF]), entry(0x08, 1, 4, &[0, 0xFF, 0xFF])].concat();
    let mut pair = Pair::fresh(2, &rw, &[]);
    for value in -1..=17 {
        let seven = matches!(value, 0..=7 | 11..=15);
        let eight = matches!(value, 0..=3 | 15);
        let said = |accepted| if accepted { Answer::Yes } else { refused(caller(12)) };
        assert_eq!(pair.write(0, 0, 1, 5, value), said(seven));
        assert_eq!(pair.write(0, 1, 0, 5, value), said(eight));
    }
}

/// "Refusing a byte write for its value: it is stored, and apply answers 14."
#[test]
fn byte_write_stores_any_value() {
    let mut pair = Pair::fresh(2, &entry(0x03, 1, 2, &[0]), &[]);
    assert_eq!(pair.byte_write(0, 1, 0b00_11_01_10), Answer::Yes);
    assert_eq!(pair.read(0, 0, 0, 7), Answer::Number(3));
    for lane in 1..=8 {
        pair.select(0, lane, 1);
    }
    assert_eq!(pair.apply(0, 0xFF), refused(plan(14, 7)));
    assert_eq!(pair.byte_read(2, 1), Answer::Number(0));
    assert_eq!(pair.apply(0, 0b1011_1111), Answer::Yes);
    assert_eq!(pair.byte_read(2, 1), Answer::Number(0b00_00_01_10));
    // An AppSel that the entry's mask lacks: the field isn't to be copied.
    pair.select(0, 7, 2);
    assert_eq!(pair.apply(0, 0xFF), Answer::Yes);
    assert_eq!(pair.read(2, 0, 0, 7), Answer::Number(0));
}

/// "Placing lane 1 in the high four bits."
#[test]
fn lane_1_is_low() {
    let mut pair = Pair::fresh(2, &entry(0x04, 1, 4, &[0, 0xFF, 0xFF]), &[]);
    assert_eq!(pair.write(0, 0, 0, 1, 9), Answer::Yes);
    assert_eq!(pair.bank[0], 9);
    assert_eq!(pair.write(0, 0, 0, 2, 6), Answer::Yes);
    assert_eq!(pair.bank[0], 0x69);
}

/// "An apply that copies its first lane and pretends for the rest"; two parts;
/// mask bits of other AppSels; the other staged set.
#[test]
fn apply_copies_every_lane_and_part() {
    let rw = [entry(0x07, 2, 8, &[0, 0, 0xFF, 0xFF]), entry(0x10, 4, 8, &[1])].concat();
    let mut pair = Pair::fresh(3, &rw, &[]);
    for lane in 1..=8 {
        let value = lane as i64 - 1;
        pair.write(1, 0, 0, lane, value);
        pair.write(1, 0, 1, lane, 7 - value);
        pair.write(1, 1, 0, lane, 200 + value);
        pair.select(1, lane, 2 + lane % 2);
    }
    assert_eq!(pair.apply(1, 0), Answer::Yes);
    assert!(pair.bank[512..768].iter().all(|&byte| byte == 0));
    assert_eq!(pair.apply(1, 0x7F), Answer::Yes);
    for lane in 1..=8 {
        let value = lane as i64 - 1;
        let (two, three) = (lane % 2 == 0 && lane < 8, lane % 2 == 1);
        assert_eq!(pair.read(2, 0, 0, lane), Answer::Number(if two { value } else { 0 }));
        assert_eq!(pair.read(2, 0, 1, lane), Answer::Number(if two { 7 - value } else { 0 }));
        assert_eq!(pair.read(2, 1, 0, lane), Answer::Number(if three { 200 + value } else { 0 }));
    }
}

/// Every accepted value of every ID, by the paper's table; 09h, 0Ah and 0Dh
/// stand with the numeric parameters.
#[test]
fn accepted_values() {
    type Case = (u8, u8, &'static [u8], fn(i64) -> bool);
    let cases: [Case; 12] = [
        (0x02, 1, &[0], |v| (0..=1).contains(&v)),
        (0x05, 1, &[0], |v| (0..=1).contains(&v)),
        (0x06, 1, &[0], |v| (0..=1).contains(&v)),
        (0x03, 2, &[0], |v| (0..=2).contains(&v)),
        (0x04, 4, &[0, 0xFF, 0xFF], |v| (0..=15).contains(&v)),
        (0x07, 8, &[0, 0, 0x48, 0x81], |v| [0, 7, 11, 14].contains(&v)),
        (0x08, 4, &[0, 0xC0, 0x1A], |v| [1, 3, 15].contains(&v)),
        (0x0B, 1, &[0], |v| (0..=1).contains(&v)),
        (0x0C, 1, &[0], |v| (0..=1).contains(&v)),
        (0x0E, 4, &[0, 0x84, 0x21], |v| [0, 5, 10, 15].contains(&v)),
        (0x0F, 8, &[0], |v| (0..=255).contains(&v)),
        (0x10, 8, &[0], |v| (0..=255).contains(&v)),
    ];
    for (id, memory, rest, accepted) in cases {
        let mut pair = Pair::fresh(1, &entry(id, 1, memory, rest), &[]);
        for value in (-300..=300).chain([i64::MIN, i64::MAX, 1 << 32, 65536]) {
            let said = if accepted(value) { Answer::Yes } else { refused(caller(12)) };
            assert_eq!(pair.write(0, 0, 0, 6, value), said, "{id} {value}");
            if accepted(value) {
                assert_eq!(pair.read(0, 0, 0, 6), Answer::Number(value));
            }
        }
    }
    for (id, memory, rest) in [(0x11, 16, &[0][..]), (0x12, 8, &[0, 0, 2][..])] {
        let mut pair = Pair::fresh(1, &[], &entry(id, 1, memory, rest));
        for value in (-300..=300).chain([i64::MIN, i64::MAX]) {
            let accepted = (-128..=127).contains(&value);
            let said = if accepted { Answer::Yes } else { refused(caller(12)) };
            assert_eq!(pair.publish(0, 0, 6, value), said);
            if accepted {
                assert_eq!(pair.read(2, 0, 0, 6), Answer::Number(value));
            }
        }
    }
}
