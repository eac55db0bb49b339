//! Note 1, "The numeric parameters": 09h to 0Eh.

mod common;
use common::*;
use second::*;

const WITH_RANGE: [u8; 3] = [0x09, 0x0A, 0x0D];

/// 09h, 0Ah or 0Dh for AppSel 1 with a range: Min before Max in 09h and 0Ah,
/// Max before Min in 0Dh; step 1, which all three have.
fn ranged(id: u8, min: i8, max: i8) -> Vec<u8> {
    let (min, max) = (min as u8, max as u8);
    match id {
        0x0D => entry(id, 1, 8, &[0, 0, max, min, 1]),
        _ => entry(id, 1, 8, &[0, 0, min, max, 1]),
    }
}

fn yes_or(accepted: bool, refusal: Refusal) -> Answer {
    if accepted {
        Answer::Yes
    } else {
        refused(refusal)
    }
}

/// 2, 3 and 4: the least Length, the RW string alone, the bytes needed; 2
/// before 3, 3 before 4, 4 before 5.
#[test]
fn length_string_and_memory() {
    for (id, least, needed) in
        [(0x09, 8, 8), (0x0A, 8, 8), (0x0B, 4, 1), (0x0C, 4, 1), (0x0D, 8, 8), (0x0E, 6, 4)]
    {
        for (count, a) in [(8, 1), (9, 2)] {
            // Step 1 where there is one, at the end of the named bytes.
            let bytes = |length: usize, memory: u8, step: u8| {
                let mut bytes = vec![0; length];
                bytes[..2].copy_from_slice(&[id, length as u8]);
                bytes[2 + a] = memory;
                if least == 8 && length >= 8 + a {
                    bytes[7 + a] = step;
                }
                bytes
            };
            let rw = |bytes: &[u8]| load(count, bytes, &[]).map(|l| l.staged_length);
            let ro = |bytes: &[u8]| load(count, &[], bytes).map(|l| l.staged_length);
            let short = bytes(least + a - 1, 0, 0);
            assert_eq!(rw(&short), Err(maker(2, 0)));
            assert_eq!(ro(&short), Err(maker(2, 0)));
            assert_eq!(reader_step(count, &short, 0), (Step::Refused(2), 0));
            for length in [least + a, least + a + 3] {
                assert_eq!(ro(&bytes(length, 0, 9)), Err(maker(3, 0)));
                for memory in 0..needed {
                    assert_eq!(rw(&bytes(length, memory, 9)), Err(maker(4, 0)));
                }
                assert_eq!(rw(&bytes(length, needed, 1)), Ok(needed.into()));
                assert_eq!(rw(&bytes(length, needed + 1, 1)), Ok(usize::from(needed) + 1));
            }
        }
    }
}

/// 5, "a reserved step code": 00h and 05h to FFh in 09h and 0Ah, 04h to FFh in
/// 0Dh. The index, the target, Min and Max may hold anything.
#[test]
fn step_codes() {
    for id in WITH_RANGE {
        for byte in 0..=255 {
            let good = if id == 0x0D { byte <= 3 } else { (1..=4).contains(&byte) };
            let said = if good { Ok(8) } else { Err(maker(5, 0)) };
            let rw = entry(id, 1, 8, &[0, 0, 0, 0, byte]);
            assert_eq!(load(8, &rw, &[]).map(|l| l.active_length), said);
            let rw = entry2(id, 1, 8, &[0, 0, 0, 0, byte, 0xEE]);
            assert_eq!(load(9, &rw, &[]).map(|l| l.active_length), said);
            for at in 1..=3 {
                let mut rest = [0xFE, 0, 0, 0, 3];
                rest[at] = byte;
                assert!(load(8, &entry(id, 1, 8, &rest), &[]).is_ok());
            }
        }
        // 5 before 7
        let full = [entry(0, 0, 255, &[]), entry(0x0B, 0, 1, &[1])].concat();
        let rw = |step| [full.clone(), entry(id, 0, 8, &[0, 0, 0, 0, step])].concat();
        assert_eq!(load(8, &rw(5), &[]), Err(maker(5, 2)));
        assert_eq!(load(8, &rw(3), &[]), Err(maker(7, 2)));
    }
    // The other three have no step: what follows their named bytes is skipped.
    for (id, rest) in [(0x0B, &[0, 9, 9, 9, 9][..]), (0x0C, &[0, 9]), (0x0E, &[0, 0, 1, 9, 9])] {
        assert!(load(8, &entry(id, 1, 4, rest), &[]).is_ok());
    }
}

/// 6, "only as the earlier media-side entry".
#[test]
fn media_side() {
    let of = |id: u8, side: u8| match id {
        0x09 | 0x0A | 0x0D => entry(id, 1, 8, &[side, 0, 0, 0, 1]),
        0x04 | 0x08 | 0x0E => entry(id, 1, 4, &[side, 0, 0]),
        0x07 => entry(id, 1, 8, &[side, 0, 0, 0]),
        _ => entry(id, 1, 8, &[side]),
    };
    for id in 0x09..=0x0E {
        for base in 0x02..=0x08 {
            let said = |rw: [Vec<u8>; 2]| load(1, &rw.concat(), &[]).map(|l| l.rw_entries);
            assert_eq!(said([of(id, 1), of(base, 0)]), Err(maker(6, 1)));
            assert_eq!(said([of(id, 0xFF), of(base, 0xFE)]), Err(maker(6, 1)));
            assert_eq!(said([of(id, 0xFE), of(base, 0)]), Ok(2));
            assert_eq!(said([of(id, 1), of(base, 1)]), Ok(2));
            assert_eq!(said([of(base, 1), of(id, 0)]), Ok(2));
            assert_eq!(said([of(base, 0), of(id, 1)]), Ok(2));
        }
        for other in 0x09..=0x10 {
            assert!(load(1, &[of(other, 1), of(id, 0)].concat(), &[]).is_ok());
        }
    }
}

/// One part each, in the widths of the register tables.
#[test]
fn places() {
    let rw = [
        entry(0x00, 0, 3, &[]),
        ranged(0x09, 0, 0),
        entry(0x0B, 1, 2, &[0]),
        entry(0x0E, 1, 4, &[0, 0, 0]),
        ranged(0x0D, 0, 0),
        entry(0x0C, 1, 1, &[0]),
        ranged(0x0A, 0, 0),
    ]
    .concat();
    let offsets = [(1, 3, 8), (2, 11, 1), (3, 13, 4), (4, 17, 8), (5, 25, 1), (6, 26, 8)];
    for (entry, offset, w) in offsets {
        for set in 0..3 {
            for lane in 1..=8 {
                let b = (lane - 1) * w;
                let (byte, bit) = (offset + b / 8, b % 8);
                assert_eq!(place_of(1, &rw, &[], set, entry, 0, lane), Ok((byte, bit)));
                assert_eq!(place(1, &rw, &[], set, entry, 1, lane), Err(caller(10)));
                for high in bit..bit + w {
                    let said = owned((entry, 0, lane), entry + 1);
                    assert_eq!(owner_of(1, &rw, &[], set, byte, high), Ok(said));
                }
            }
        }
    }
    // Surplus MemoryLength is a gap.
    assert_eq!(owner_of(1, &rw, &[], 0, 12, 0), Ok(gap(3)));
}

/// Min to Max, both in; one number; no 0; Min above Max: none.
#[test]
fn ranges() {
    let ranges = [
        (-128, 127), (-127, 126), (-5, 9), (0, 0), (7, 7), (-1, -1), (-128, -128), (127, 127),
        (3, 20), (-20, -3), (1, 0), (9, -5), (127, -128), (-3, -20),
    ];
    for id in WITH_RANGE {
        for (min, max) in ranges {
            let mut pair = Pair::fresh(1, &ranged(id, min, max), &[]);
            pair.select(1, 3, 1);
            for value in (-300..=300).chain([i64::MIN, i64::MAX, 1 << 32, -1 << 32]) {
                let accepted = (i64::from(min)..=i64::from(max)).contains(&value);
                assert_eq!(pair.write(1, 0, 0, 3, value), yes_or(accepted, caller(12)));
                if accepted {
                    assert_eq!(pair.read(1, 0, 0, 3), Answer::Number(value));
                    assert_eq!(pair.byte_read(1, 2), Answer::Number(value & 0xFF));
                }
            }
            // Byte write stores any value, and apply judges it.
            for byte in 0..=255u8 {
                let value = i64::from(byte as i8);
                let accepted = (i64::from(min)..=i64::from(max)).contains(&value);
                assert_eq!(pair.byte_write(1, 2, byte), Answer::Yes);
                assert_eq!(pair.read(1, 0, 0, 3), Answer::Number(value));
                let before = pair.read(2, 0, 0, 3);
                assert_eq!(pair.apply(1, 0b100), yes_or(accepted, plan(14, 3)));
                let after = if accepted { Answer::Number(value) } else { before };
                assert_eq!(pair.read(2, 0, 0, 3), after);
            }
        }
    }
}

/// The order of Min and Max as bytes: the same entry read as 09h or 0Ah has a
/// range, read as 0Dh none, and the other way round.
#[test]
fn order_of_min_and_max() {
    for (id, rest, some) in [
        (0x09, [0, 0, 0xF8, 0x06, 2], true),
        (0x0A, [0, 0, 0xF8, 0x06, 2], true),
        (0x0D, [0, 0, 0xF8, 0x06, 2], false),
        (0x09, [0, 0, 0x06, 0xF8, 2], false),
        (0x0A, [0, 0, 0x06, 0xF8, 2], false),
        (0x0D, [0, 0, 0x06, 0xF8, 2], true),
    ] {
        let mut pair = Pair::fresh(2, &entry(id, 1, 8, &rest), &[]);
        for value in -128..=127 {
            let accepted = some && (-8..=6).contains(&value);
            assert_eq!(pair.write(0, 0, 0, 1, value), yes_or(accepted, caller(12)));
        }
        pair.select(0, 1, 1);
        assert_eq!(pair.apply(0, 1), yes_or(some, plan(14, 1)));
    }
}

/// The range doesn't move with the step, the target or the index, nor with two
/// mask bytes.
#[test]
fn ranges_are_unscaled() {
    for id in WITH_RANGE {
        for step in 1..=3 {
            for first in [0, 1, 2, 0x80, 0xFF] {
                let (low, high) = (0xF0, 0x10);
                let rest = match id {
                    0x0D => [0, first, high, low, step],
                    _ => [0, first, low, high, step],
                };
                let mut pair = Pair::fresh(9, &entry2(id, 0x100, 8, &rest), &[]);
                for value in [-17, -16, 0, 17, 16] {
                    let accepted = (-16..=16).contains(&value);
                    assert_eq!(pair.write(0, 0, 0, 8, value), yes_or(accepted, caller(12)));
                }
                pair.select(0, 8, 9);
                assert_eq!(pair.apply(0, 0x80), Answer::Yes);
                // "Apply copies their numbers unscaled."
                assert_eq!(pair.read(2, 0, 0, 8), Answer::Number(16));
            }
        }
    }
}

/// A range without 0: the 0 of a fresh bank isn't accepted at apply, unless
/// the entry's mask lacks the AppSel.
#[test]
fn fresh_zero_out_of_range() {
    for id in WITH_RANGE {
        let mut pair = Pair::fresh(2, &ranged(id, 3, 20), &[]);
        for lane in 1..=8 {
            pair.select(0, lane, 1);
        }
        pair.write(0, 0, 0, 1, 3);
        pair.write(0, 0, 0, 2, 20);
        assert_eq!(pair.apply(0, 0xFF), refused(plan(14, 3)));
        assert_eq!(pair.read(2, 0, 0, 1), Answer::Number(0));
        assert_eq!(pair.apply(0, 0b11), Answer::Yes);
        assert_eq!(pair.read(2, 0, 0, 2), Answer::Number(20));
        for lane in 3..=8 {
            pair.select(0, lane, 2);
        }
        assert_eq!(pair.apply(0, 0xFF), Answer::Yes);
        assert_eq!(pair.read(2, 0, 0, 3), Answer::Number(0));
    }
}

/// Negative numbers through every call, beside other fields.
#[test]
fn negative_numbers() {
    let rw = [entry(0x02, 1, 1, &[0]), ranged(0x09, -100, -2), ranged(0x0D, -128, 127)].concat();
    let mut pair = Pair::fresh(1, &rw, &[]);
    for lane in 1..=8 {
        let value = -2 - 14 * (lane as i64 - 1);
        assert_eq!(pair.write(0, 1, 0, lane, value), Answer::Yes);
        assert_eq!(pair.read(0, 1, 0, lane), Answer::Number(value));
        assert_eq!(pair.byte_read(0, lane), Answer::Number(256 + value));
        assert_eq!(pair.bank[lane], (256 + value) as u8);
        assert_eq!(pair.byte_write(0, 8 + lane, 0xFF - lane as u8), Answer::Yes);
        assert_eq!(pair.read(0, 2, 0, lane), Answer::Number(-1 - lane as i64));
        pair.select(0, lane, 1);
    }
    assert_eq!(pair.write(0, 2, 0, 1, -128), Answer::Yes);
    assert_eq!(pair.bank[9], 0x80);
    // The other staged set and, before apply, the active set hold 0.
    assert_eq!(pair.read(1, 1, 0, 8), Answer::Number(0));
    assert_eq!(pair.read(2, 1, 0, 8), Answer::Number(0));
    assert_eq!(pair.apply(0, 0b0111_1111), Answer::Yes);
    for lane in 1..=8 {
        let value = if lane < 8 { -2 - 14 * (lane as i64 - 1) } else { 0 };
        assert_eq!(pair.read(2, 1, 0, lane), Answer::Number(value));
        assert_eq!(pair.byte_read(2, lane), Answer::Number(value & 0xFF));
    }
    assert_eq!(pair.read(2, 2, 0, 1), Answer::Number(-128));
    assert_eq!(pair.read(2, 2, 0, 7), Answer::Number(-8));
    assert_eq!(pair.byte_read(2, 0), Answer::Number(0));
    // RW all of them: no publish, no write on set 2, no weight.
    assert_eq!(pair.publish(1, 0, 1, -2), refused(caller(11)));
    assert_eq!(pair.write(2, 1, 0, 1, -2), refused(caller(11)));
    assert_eq!(pair.weight(1, 1), Err(caller(10)));
    assert_eq!(pair.weight(2, 1), Err(caller(10)));
}

/// 0Bh, 0Ch: 0 and 1, 1 bit a lane. 0Eh: unsigned codes of 4 bits by its mask,
/// none of them reserved.
#[test]
fn precoding_and_fine_amplitude() {
    for id in [0x0B, 0x0C] {
        let mut pair = Pair::fresh(1, &entry(id, 1, 1, &[0]), &[]);
        assert_eq!(pair.write(0, 0, 0, 8, 1), Answer::Yes);
        assert_eq!(pair.write(0, 0, 0, 7, 2), refused(caller(12)));
        assert_eq!(pair.write(0, 0, 0, 7, -1), refused(caller(12)));
        assert_eq!(pair.byte_read(0, 0), Answer::Number(0x80));
    }
    for mask in [0xFFFF, 0x0002, 0x8000, 0x07F0, 0] {
        let rw = entry(0x0E, 1, 4, &[0, (mask >> 8) as u8, mask as u8]);
        let mut pair = Pair::fresh(1, &rw, &[]);
        pair.select(0, 2, 1);
        for value in -1..=17i64 {
            let accepted = (0..=15).contains(&value) && mask >> value & 1 == 1;
            assert_eq!(pair.write(0, 0, 0, 2, value), yes_or(accepted, caller(12)));
        }
        for code in 0..=15u8 {
            pair.byte_write(0, 0, code << 4);
            assert_eq!(pair.read(0, 0, 0, 2), Answer::Number(code.into()));
            assert_eq!(pair.apply(0, 0b10), yes_or(mask >> code & 1 == 1, plan(14, 2)));
        }
    }
}

/// "0Dh may stand several times with different cursor indexes"; each has its
/// own range, AppSels and numbers. The same index twice is no fault either.
#[test]
fn several_cursors() {
    let rw = [
        entry(0x0D, 3, 8, &[0, 0xFF, 10, 0xF6, 0]),
        entry(0x0D, 1, 8, &[0, 0x00, 100, 50, 3]),
        entry(0x0D, 2, 9, &[0, 0x01, 0, 0x80, 1]),
        entry(0x0D, 3, 8, &[1, 0xFF, 127, 0x80, 2]),
    ]
    .concat();
    let mut pair = Pair::fresh(2, &rw, &[]);
    let list = entries(2, &rw, &[]).unwrap();
    assert_eq!(list.iter().map(|e| e.offset).collect::<Vec<_>>(), [0, 8, 16, 25]);
    let ranges = [(-10, 10), (50, 100), (-128, 0), (-128, 127)];
    for (entry, (min, max)) in ranges.into_iter().enumerate() {
        for value in [min - 1, max + 1] {
            assert_eq!(pair.write(0, entry, 0, 5, value), refused(caller(12)));
        }
        assert_eq!(pair.write(0, entry, 0, 5, max), Answer::Yes);
        assert_eq!(pair.write(0, entry, 0, 5, min), Answer::Yes);
    }
    pair.select(0, 5, 1);
    assert_eq!(pair.apply(0, 0x10), Answer::Yes);
    for (entry, number) in [-10, 50, 0, -128].into_iter().enumerate() {
        assert_eq!(pair.read(2, entry, 0, 5), Answer::Number(number));
    }
    pair.select(0, 5, 2);
    pair.write(0, 0, 0, 5, 9);
    pair.byte_write(0, 12, 49);
    assert_eq!(pair.apply(0, 0x10), Answer::Yes);
    for (entry, number) in [9, 50, -128, -128].into_iter().enumerate() {
        assert_eq!(pair.read(2, entry, 0, 5), Answer::Number(number));
    }
    pair.select(0, 5, 1);
    assert_eq!(pair.apply(0, 0x10), refused(plan(14, 5)));
}

/// The map program shows them as any other entry.
#[test]
fn program() {
    let rw = [ranged(0x0D, 0, 0), entry(0x0B, 1, 1, &[1]), ranged(0x09, 0, 0)].concat();
    let mut input = vec![1, rw.len() as u8];
    input.extend(&rw);
    input.push(0);
    let wanted = "entry id offset length\n0 13 0 8\n1 11 8 1\n2 9 9 8\nend 17 17\n";
    assert_eq!(String::from_utf8(map_program(&input)).unwrap(), wanted);
    // The last byte of the last entry is its step.
    let at = input.len() - 2;
    input[at] = 0;
    assert_eq!(map_program(&input), b"refused 5\n");
}
