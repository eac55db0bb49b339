//! Refusals, several faults at once, and what stays untouched.

mod common;
use common::*;
use second::*;

/// An RW string of 02h, an opaque 13h of 3 bytes, 04h (0 to 12), 07h; an RO
/// string of 11h, an opaque FFh of 2 bytes, 12h. Entries 0 to 6.
fn strings() -> (Vec<u8>, Vec<u8>) {
    let rw = [
        entry(0x02, 0x03, 1, &[0]),
        entry(0x13, 0xFF, 3, &[]),
        entry(0x04, 0x01, 4, &[0, 0x1F, 0xFF]),
        entry(0x07, 0x07, 9, &[1, 0, 0xFF, 0xFF]),
    ];
    let ro = [
        entry(0x11, 0x01, 16, &[0]),
        entry(0xFF, 0x01, 2, &[]),
        entry(0x12, 0x01, 8, &[1, 0xF0, 2]),
    ];
    (rw.concat(), ro.concat())
}

#[test]
fn the_map_of_the_tests() {
    let (rw, ro) = strings();
    let loaded = Loaded { rw_entries: 4, ro_entries: 3, staged_length: 17, active_length: 43 };
    assert_eq!(load(3, &rw, &ro), Ok(loaded));
    let offsets: Vec<usize> = entries(3, &rw, &ro).unwrap().iter().map(|e| e.offset).collect();
    assert_eq!(offsets, [0, 1, 4, 8, 17, 33, 35]);
}

/// 1 to 7 one by one, each with all later faults beside it where it can have.
#[test]
fn within_an_entry_in_this_order() {
    let one = |rw: &[u8]| load(8, rw, &[]).map(|_| ());
    // 1: one byte left; Length exceeds the bytes left, 2 and more too
    assert_eq!(one(&[0x11]), Err(maker(1, 0)));
    assert_eq!(one(&[0x11, 3]), Err(maker(1, 0)));
    assert_eq!(one(&[0x11, 255, 0, 0, 0]), Err(maker(1, 0)));
    assert_eq!(one(&[0x02, 6, 1, 1, 0]), Err(maker(1, 0)));
    // 2 before 3: the least of its ID, whatever the string
    assert_eq!(one(&[0x12, 6, 1, 0, 0, 0]), Err(maker(2, 0)));
    assert_eq!(one(&[0x12, 2]), Err(maker(2, 0)));
    // 3 before 4 and 5
    assert_eq!(one(&[0x12, 7, 1, 0, 0, 0, 9]), Err(maker(3, 0)));
    assert_eq!(load(8, &[], &[0x02, 5, 1, 0, 0]), Err(maker(3, 0)));
    // 4 before 5
    assert_eq!(load(8, &[], &[0x12, 7, 1, 7, 0, 0, 9]), Err(maker(4, 0)));
    // 5 before 7
    let full = entry(0, 0, 255, &[]);
    assert_eq!(load(8, &full, &[0x12, 7, 1, 8, 0, 0, 4]), Err(maker(5, 1)));
    assert_eq!(load(8, &full, &[0x12, 7, 1, 8, 0, 0, 3]), Err(maker(7, 1)));
    // 4 before 6, 6 before 7
    let media = [full, entry(0x02, 0, 1, &[1])].concat();
    assert_eq!(one(&[media.clone(), entry(0x03, 0, 1, &[0])].concat()), Err(maker(4, 2)));
    assert_eq!(one(&[media.clone(), entry(0x03, 0, 2, &[0])].concat()), Err(maker(6, 2)));
    assert_eq!(one(&[media.clone(), entry(0x03, 0, 2, &[1])].concat()), Err(maker(7, 2)));
}

/// "The first entry that fails any check ends the load".
#[test]
fn the_first_entry_counts() {
    // Entry 0 fails 7 never, entry 1 fails 4, entry 2 fails 1.
    let rw = [entry(0, 0, 200, &[]), entry(0x0F, 0, 7, &[0]), vec![9]].concat();
    assert_eq!(load(1, &rw, &[0]), Err(maker(4, 1)));
    // A refusal at the end of RW stands before the RO string.
    assert_eq!(load(1, &[0, 4, 0, 0, 9], &[0x02, 5, 0, 0, 0]), Err(maker(1, 1)));
    // RO entries count on from the RW ones.
    assert_eq!(load(1, &[0, 4, 0, 0], &[0x11, 5, 0, 16, 0, 7, 0]), Err(maker(2, 2)));
}

/// The least Length of each ID, and which string it may stand in.
#[test]
fn least_length_and_string() {
    for id in 0..=255u8 {
        for (count, a) in [(1, 1), (8, 1), (9, 2), (15, 2)] {
            let least = a + match id {
                0x04 | 0x08 | 0x0E | 0x12 => 6,
                0x07 => 7,
                0x09 | 0x0A | 0x0D => 8,
                0x02 | 0x03 | 0x05 | 0x06 | 0x0B | 0x0C | 0x0F | 0x10 | 0x11 => 4,
                _ => 3,
            };
            let bytes = |length: usize| {
                let mut bytes = vec![0; length];
                bytes[..2].copy_from_slice(&[id, length as u8]);
                if length > 2 + a {
                    bytes[2 + a] = 16;
                }
                // Step 0 is reserved in 09h and 0Ah.
                if matches!(id, 0x09 | 0x0A) && length >= least {
                    bytes[7 + a] = 1;
                }
                bytes
            };
            let in_rw = !(0x11..=0x12).contains(&id);
            let in_ro = !(0x01..=0x10).contains(&id);
            let said = |right: bool| if right { Ok(16) } else { Err(maker(3, 0)) };
            for length in [least, least + 1, 119, 120] {
                let whole = bytes(length);
                assert_eq!(load(count, &whole, &[]).map(|l| l.active_length), said(in_rw));
                assert_eq!(load(count, &[], &whole).map(|l| l.active_length), said(in_ro));
                assert_eq!(load(count, &whole[..length - 1], &[]), Err(maker(1, 0)));
            }
            for length in 2..least {
                assert_eq!(load(count, &bytes(length), &[]), Err(maker(2, 0)));
                assert_eq!(load(count, &[], &bytes(length)), Err(maker(2, 0)));
            }
        }
    }
}

/// 6: the media-side entry may be any table entry of RW; opaque ones have no
/// flags; 09h to 10h may be host side at any place; the RO string has no 6.
#[test]
fn media_before_host() {
    let of = |id: u8, side: u8| match id {
        0x04 | 0x08 | 0x0E => entry(id, 0, 8, &[side, 0, 0]),
        0x07 => entry(id, 0, 8, &[side, 0, 0, 0]),
        0x09 | 0x0A | 0x0D => entry(id, 0, 8, &[side, 0, 0, 0, 1]),
        _ => entry(id, 0, 8, &[side]),
    };
    for first in 0x02..=0x10 {
        for second in 0x02..=0x10 {
            for (one, two) in [(0, 0), (0, 1), (1, 0), (1, 1), (0xFE, 0xFE), (0xFF, 0xFE)] {
                let rw = [of(first, one), entry(0, 0, 0, &[]), of(second, two)].concat();
                let wrong = one & 1 == 1 && two & 1 == 0 && second <= 0x08;
                let said = if wrong { Err(maker(6, 2)) } else { Ok(()) };
                assert_eq!(load(1, &rw, &[]).map(|_| ()), said);
            }
        }
        // Once media, no later host entry, another media or host 0Fh between.
        let rw = [of(0x0F, 1), of(0x10, 0), of(0x02, 1), of(first, 0)].concat();
        let said = if first <= 0x08 { Err(maker(6, 3)) } else { Ok(()) };
        assert_eq!(load(1, &rw, &[]).map(|_| ()), said);
    }
    for opaque in [0x00, 0x01, 0x13, 0x14, 0x77, 0xFF] {
        let rw = [entry(opaque, 0, 0, &[0xFF, 0xFF]), of(0x02, 0)].concat();
        assert!(load(1, &rw, &[]).is_ok());
    }
    let ro = [entry(0x11, 0, 16, &[1]), entry(0x11, 0, 16, &[0])].concat();
    assert!(load(1, &of(0x02, 1), &ro).is_ok());
}

/// 9 before 8 before 1 to 7 before 10.
#[test]
fn order_of_all_refusals() {
    let bad = [0x02];
    let long = [0u8; 121];
    let call = Call::Select { set: 9, lane: 9, app: 99 };
    let (rw, ro) = strings();
    for count in [0, 16, 17, 255, 256, usize::MAX] {
        let mut bank = [7u8; 10];
        assert_eq!(perform(count, &bad, &[], &mut bank, call), refused(caller(9)));
        assert_eq!(fresh(count, &rw, &ro, &mut bank), Err(caller(9)));
        assert_eq!(weight(count, &rw, &ro, &bank, 6, 1), Err(caller(9)));
        assert_eq!(load(count, &bad, &[]), Err(caller(9)));
        assert!(matches!(Table::fresh(count, &rw, &ro), Err(r) if r == caller(9)));
        assert_eq!(bank, [7; 10]);
    }
    for (rw, ro) in [(&long[..], &bad[..]), (&bad, &long), (&long, &long)] {
        let mut bank = [7u8; 783];
        assert_eq!(perform(3, rw, ro, &mut bank, call), refused(caller(9)));
        assert_eq!(fresh(3, rw, ro, &mut bank), Err(caller(9)));
        assert_eq!(load(3, rw, ro), Err(caller(9)));
        assert_eq!(entries(3, rw, ro), Err(caller(9)));
        assert_eq!(place(3, rw, ro, 3, 0, 0, 0), Err(caller(9)));
        assert_eq!(owner_of(3, rw, ro, 3, 0, 0), Err(caller(9)));
        assert_eq!(owner_at(3, rw, ro, 3, (0, 0), 0), Err(caller(9)));
        assert_eq!(entry_bytes(3, rw, ro, 0), Err(caller(9)));
        assert_eq!(weight(3, rw, ro, &bank, 6, 1), Err(caller(9)));
    }
    for size in [0, 1, 783] {
        let mut bank = vec![7u8; size];
        assert_eq!(perform(3, &bad, &[], &mut bank, call), refused(caller(8)));
        assert_eq!(fresh(3, &bad, &[], &mut bank), Err(caller(8)));
        assert_eq!(fresh(3, &rw, &ro, &mut bank), Err(caller(8)));
        assert_eq!(weight(3, &bad, &[], &bank, 99, 99), Err(caller(8)));
        assert!(bank.iter().all(|&byte| byte == 7));
    }
    let mut bank = [7u8; 784];
    assert_eq!(perform(3, &bad, &[], &mut bank, call), refused(maker(1, 0)));
    assert_eq!(fresh(3, &bad, &[], &mut bank), Err(maker(1, 0)));
    assert_eq!(weight(3, &rw, &[2, 2], &bank, 99, 99), Err(maker(2, 4)));
    assert_eq!(place(3, &bad, &[], 3, 0, 0, 0), Err(maker(1, 0)));
    assert_eq!(owner_of(3, &bad, &[], 3, 0, 0), Err(maker(1, 0)));
    assert_eq!(owner_at(3, &bad, &[], 3, (0, 0), 0), Err(maker(1, 0)));
    assert_eq!(entry_bytes(3, &rw, &bad, 0), Err(maker(1, 4)));
    assert_eq!(bank, [7; 784]);
}

#[test]
fn select_write_read() {
    let (rw, ro) = strings();
    let mut pair = Pair::fresh(3, &rw, &ro);
    let huge = usize::MAX;
    // select
    for (set, lane, app, number) in [
        (3, 9, 4, 10), (huge, 1, 1, 10), (2, 0, 1, 10), (2, 9, 4, 10), (2, 1, 4, 11), (2, 8, 1, 11),
        (0, huge, 1, 10), (0, 1, 4, 12), (1, 8, huge, 12),
    ] {
        assert_eq!(pair.select(set, lane, app), refused(caller(number)));
    }
    assert_eq!(pair.select(1, 8, 3), Answer::Yes);
    assert_eq!(pair.select(0, 1, 0), Answer::Yes);
    assert_eq!(pair.bank[783], 3);
    // write
    for (set, entry, part, lane, value, number) in [
        (3, 2, 0, 1, 0, 10), (0, 7, 0, 1, 0, 10), (0, huge, 0, 1, 0, 10), (0, 2, 1, 1, 0, 10),
        (0, 2, 0, 0, 0, 10), (0, 2, 0, 9, 99, 10), (0, 1, 0, 1, 0, 10), (2, 1, 0, 1, 0, 10),
        (0, 5, 0, 1, 0, 10), (0, 4, 2, 1, 0, 10), (2, 4, 2, 1, 0, 10), (0, 6, 1, 1, 0, 10),
        (2, 2, 0, 1, 99, 11), (2, 4, 0, 1, 0, 11), (0, 4, 1, 8, 999, 11), (1, 6, 0, 1, 0, 11),
        (0, 2, 0, 1, 13, 12), (0, 0, 0, 1, 2, 12), (0, 0, 0, 1, -1, 12), (1, 3, 1, 8, 10, 12),
        (1, 3, 1, 8, i64::MIN, 12), (1, 3, 1, 8, i64::MAX, 12),
    ] {
        assert_eq!(pair.write(set, entry, part, lane, value), refused(caller(number)));
    }
    // read and place, the same refusals
    for (set, entry, part, lane, number) in [
        (3, 2, 0, 1, 10), (0, 7, 0, 1, 10), (0, 1, 0, 1, 10), (2, 1, 0, 1, 10), (2, 5, 0, 1, 10),
        (0, 5, 0, 1, 10), (0, 6, 1, 1, 10), (0, 4, 0, 9, 10), (0, 4, 0, 1, 11), (1, 6, 0, 8, 11),
        (huge, huge, huge, huge, 10), (2, 6, 0, huge, 10), (2, 3, huge, 1, 10),
    ] {
        assert_eq!(pair.read(set, entry, part, lane), refused(caller(number)));
        assert_eq!(place(3, &rw, &ro, set, entry, part, lane), Err(caller(number)));
    }
    assert_eq!(place_of(3, &rw, &ro, 2, 4, 1, 8), Ok((17 + 15, 0)));
    assert_eq!(place_of(3, &rw, &ro, 1, 3, 1, 8), Ok((8 + 7, 4)));
    assert_eq!(pair.read(2, 6, 0, 8), Answer::Number(0));
}

#[test]
fn bytes_publish_weight() {
    let (rw, ro) = strings();
    let mut pair = Pair::fresh(3, &rw, &ro);
    let huge = usize::MAX;
    // "An offset is judged against its own set's length."
    for (set, offset, number) in [
        (0, 17, 10), (1, huge, 10), (2, 43, 10), (2, 42, 11), (2, 0, 11), (3, 0, 10), (huge, huge, 10),
    ] {
        assert_eq!(pair.byte_write(set, offset, 0xFF), refused(caller(number)));
    }
    for (set, offset) in [(0, 17), (1, 20), (2, 43), (2, huge), (3, 0)] {
        assert_eq!(pair.byte_read(set, offset), refused(caller(10)));
        assert_eq!(owner_of(3, &rw, &ro, set, offset, 0), Err(caller(10)));
    }
    assert_eq!(owner_of(3, &rw, &ro, 0, 0, 8), Err(caller(10)));
    assert_eq!(owner_of(3, &rw, &ro, 0, 0, huge), Err(caller(10)));
    assert_eq!(owner_of(3, &rw, &ro, 0, 16, 0), Ok(gap(4)));
    assert_eq!(owner_of(3, &rw, &ro, 2, 17, 7), Ok(owned((4, 0, 1), 5)));
    assert_eq!(owner_of(3, &rw, &ro, 2, 42, 3), Ok(owned((6, 0, 8), 7)));
    assert_eq!(owner_of(3, &rw, &ro, 2, 33, 0), Ok(gap(6)));
    assert_eq!(pair.byte_write(0, 16, 0xFF), Answer::Yes);
    assert_eq!(pair.byte_read(0, 16), Answer::Number(0));
    assert_eq!(pair.byte_write(1, 4, 0xED), Answer::Yes);
    assert_eq!(pair.read(1, 2, 0, 1), Answer::Number(13));
    assert_eq!(pair.read(1, 2, 0, 2), Answer::Number(14));
    // publish
    for (entry, part, lane, value, number) in [
        (7, 0, 1, 0, 10), (1, 0, 1, 0, 10), (5, 0, 1, 0, 10), (2, 1, 1, 0, 10), (2, 0, 0, 0, 10),
        (2, 0, 1, 0, 11), (3, 1, 8, 999, 11), (4, 2, 1, 0, 10), (4, 1, 9, 999, 10), (4, 1, 8, 128, 12),
        (6, 0, 1, -129, 12), (6, 1, 1, 0, 10), (huge, huge, huge, i64::MAX, 10),
    ] {
        assert_eq!(pair.publish(entry, part, lane, value), refused(caller(number)));
    }
    assert_eq!(pair.publish(6, 0, 2, -3), Answer::Yes);
    // weight
    assert_eq!(pair.weight(6, 2), Ok(-75));
    for (entry, lane) in [(4, 1), (5, 1), (0, 1), (7, 1), (6, 0), (6, 9), (huge, 1), (6, huge)] {
        assert_eq!(pair.weight(entry, lane), Err(caller(10)));
    }
    // entry call
    assert_eq!(entry_bytes(3, &rw, &ro, 2), Ok(&rw[9..16]));
    assert_eq!(entry_bytes(3, &rw, &ro, 5), Ok(&ro[5..9]));
    assert_eq!(entry_bytes(3, &rw, &ro, 7), Err(caller(10)));
    assert_eq!(entry_bytes(3, &rw, &ro, huge), Err(caller(10)));
}

/// 13 before 14, each with its lowest lane; nothing changes.
#[test]
fn apply_refusals() {
    let (rw, ro) = strings();
    let mut pair = Pair::fresh(3, &rw, &ro);
    // "An empty mask changes nothing and is accepted", on a staged set.
    assert_eq!(pair.apply(0, 0), Answer::Yes);
    assert_eq!(pair.apply(2, 0), refused(caller(11)));
    assert_eq!(pair.apply(3, 0), refused(caller(10)));
    assert_eq!(pair.apply(2, 1), refused(caller(11)));
    assert_eq!(pair.apply(0, 0b1010_0000), refused(plan(13, 6)));
    // Lane 2 would be 14, lane 5 has AppSel 0: 13, lane 5.
    pair.write(0, 0, 0, 1, 1);
    pair.byte_write(0, 4, 0xD0);
    for lane in [1, 2, 3, 4, 6, 7, 8] {
        pair.select(0, lane, 1);
    }
    assert_eq!(pair.apply(0, 0xFF), refused(plan(13, 5)));
    pair.select(0, 5, 1);
    pair.byte_write(0, 6, 0x0E);
    assert_eq!(pair.apply(0, 0xFF), refused(plan(14, 2)));
    assert_eq!(pair.apply(0, 0xFD), refused(plan(14, 5)));
    assert_eq!(pair.read(2, 0, 0, 1), Answer::Number(0));
    // AppSel 2 is not in the mask of the 04h entry.
    pair.select(0, 2, 2);
    pair.select(0, 5, 3);
    assert_eq!(pair.apply(0, 0xFF), Answer::Yes);
    assert_eq!(pair.read(2, 0, 0, 1), Answer::Number(1));
    assert_eq!(pair.read(2, 2, 0, 2), Answer::Number(0));
    // "Every content has a meaning": an AppSel above the count in the bank.
    for content in [4, 16, 17, 255] {
        let mut bank = [0u8; 784];
        bank[776..784].fill(1);
        bank[779] = content;
        let before = bank;
        let call = Call::Apply { set: 1, lanes: 0xFF };
        assert_eq!(perform(3, &rw, &ro, &mut bank, call), refused(plan(13, 4)));
        assert_eq!(bank, before);
    }
}

/// Code 8 to 10 in 07h and a code out of its mask are not copied either.
#[test]
fn apply_14_by_table_and_by_mask() {
    let rw = entry(0x07, 1, 8, &[0, 0, 0xFF, 0xFB]);
    for part in 0..2 {
        for code in 0..16u8 {
            let mut pair = Pair::fresh(1, &rw, &[]);
            pair.select(0, 4, 1);
            pair.byte_write(0, 4 * part + 1, code << 4);
            let said = match code {
                2 | 8..=10 => refused(plan(14, 4)),
                _ => Answer::Yes,
            };
            assert_eq!(pair.apply(0, 0b1000), said);
        }
    }
}

/// "fresh: clears the 784 bytes"; "Longer buffers are untouched beyond."
#[test]
fn longer_banks() {
    let (rw, ro) = strings();
    let mut bank = [0x5A; 1000];
    assert!(fresh(3, &rw, &ro, &mut bank).is_ok());
    assert!(bank[..784].iter().all(|&byte| byte == 0));
    assert!(bank[784..].iter().all(|&byte| byte == 0x5A));
    let call = Call::Select { set: 1, lane: 8, app: 3 };
    assert_eq!(perform(3, &rw, &ro, &mut bank, call), Answer::Yes);
    assert_eq!((bank[782], bank[783], bank[784]), (0, 3, 0x5A));
}

/// Bits above the count are ignored; two mask bytes stand high byte first.
#[test]
fn wide_masks() {
    let rw = entry2(0x02, 0x8101, 1, &[0]);
    let mut pair = Pair::fresh(9, &rw, &[]);
    pair.byte_write(0, 0, 0xFF);
    for (lane, app) in [(1, 1), (2, 9), (3, 2), (4, 8)] {
        pair.select(0, lane, app);
    }
    assert_eq!(pair.apply(0, 0x0F), Answer::Yes);
    assert_eq!(pair.byte_read(2, 0), Answer::Number(0b0011));
    let mut pair = Pair::fresh(15, &entry2(0x02, 0xC000, 1, &[0]), &[]);
    pair.byte_write(0, 0, 0xFF);
    pair.select(0, 1, 15);
    pair.select(0, 2, 14);
    assert_eq!(pair.apply(0, 3), Answer::Yes);
    assert_eq!(pair.byte_read(2, 0), Answer::Number(0b01));
    assert_eq!(pair.select(0, 1, 16), refused(caller(12)));
}
