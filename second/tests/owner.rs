//! Note 12, "Finding an owner early": "the number of entries looked at".

mod common;
use common::*;
use second::*;

/// The numbers of entries looked at for the bytes of a set, first to last; they
/// are the same for all eight bits.
fn counts(count: usize, rw: &[u8], ro: &[u8], set: usize) -> Vec<usize> {
    let loaded = load(count, rw, ro).unwrap();
    let length = if set == 2 { loaded.active_length } else { loaded.staged_length };
    assert_eq!(owner_of(count, rw, ro, set, length, 0), Err(caller(10)));
    let of_byte = |offset: usize| {
        let of_bit = |bit| owner_of(count, rw, ro, set, offset, bit).unwrap().looked_at;
        let looked_at = of_bit(0);
        assert!((1..8).all(|bit| of_bit(bit) == looked_at), "byte {offset}");
        looked_at
    };
    (0..length).map(of_byte).collect()
}

/// Each number as often as its bytes.
fn runs(list: &[(usize, usize)]) -> Vec<usize> {
    list.iter().flat_map(|&(number, bytes)| vec![number; bytes]).collect()
}

/// "stop at the one whose space covers the byte": the first, one in the middle,
/// the last, at its first and last byte and in both parts.
#[test]
fn first_middle_last() {
    let rw = [
        entry(0x0F, 1, 8, &[0]),
        entry(0x02, 1, 1, &[0]),
        entry(0x07, 1, 8, &[0, 0, 0xFF, 0xFF]),
        entry(0x03, 1, 2, &[0]),
    ]
    .concat();
    for set in 0..3 {
        let said = |offset, bit| owner_of(4, &rw, &[], set, offset, bit);
        assert_eq!(said(0, 0), Ok(owned((0, 0, 1), 1)));
        assert_eq!(said(7, 7), Ok(owned((0, 0, 8), 1)));
        assert_eq!(said(8, 0), Ok(owned((1, 0, 1), 2)));
        assert_eq!(said(8, 7), Ok(owned((1, 0, 8), 2)));
        assert_eq!(said(9, 0), Ok(owned((2, 0, 1), 3)));
        assert_eq!(said(12, 7), Ok(owned((2, 0, 8), 3)));
        assert_eq!(said(13, 3), Ok(owned((2, 1, 1), 3)));
        assert_eq!(said(16, 4), Ok(owned((2, 1, 8), 3)));
        assert_eq!(said(17, 0), Ok(owned((3, 0, 1), 4)));
        assert_eq!(said(18, 7), Ok(owned((3, 0, 8), 4)));
        assert_eq!(counts(4, &rw, &[], set), runs(&[(1, 8), (2, 1), (3, 8), (4, 2)]));
    }
}

/// "An entry with MemoryLength 0 covers no byte but is counted when passed":
/// before, between and behind others, one and several in a row, in both strings.
#[test]
fn memory_length_0() {
    let rw = [
        reserved(0),
        entry(0x13, 1, 0, &[]),
        entry(0x02, 1, 1, &[0]),
        entry(0x01, 1, 0, &[]),
        entry(0x03, 1, 2, &[0]),
        reserved(0),
        entry(0xFF, 1, 0, &[9, 9]),
        entry(0x01, 1, 0, &[]),
        entry(0x05, 1, 1, &[0]),
        entry(0x77, 1, 0, &[]),
        reserved(0),
    ]
    .concat();
    let ro = [
        entry(0xFE, 1, 0, &[]),
        reserved(0),
        entry(0x12, 1, 8, &[0, 0, 0]),
        reserved(0),
        entry(0x11, 1, 16, &[0]),
        entry(0x13, 1, 0, &[]),
    ]
    .concat();
    let staged = [(3, 1), (5, 2), (9, 1)];
    for set in 0..2 {
        assert_eq!(counts(4, &rw, &[], set), runs(&staged));
        assert_eq!(counts(4, &rw, &ro, set), runs(&staged));
    }
    assert_eq!(counts(4, &rw, &[], 2), runs(&staged));
    assert_eq!(counts(4, &rw, &ro, 2), runs(&[&staged[..], &[(14, 8), (16, 16)]].concat()));
    assert_eq!(counts(4, &[], &ro, 2), runs(&[(3, 8), (5, 16)]));
    assert_eq!(owner_of(4, &rw, &ro, 1, 0, 2), Ok(owned((2, 0, 3), 3)));
    assert_eq!(owner_of(4, &rw, &ro, 2, 3, 7), Ok(owned((8, 0, 8), 9)));
    assert_eq!(owner_of(4, &rw, &ro, 2, 4, 0), Ok(owned((13, 0, 1), 14)));
    assert_eq!(owner_of(4, &rw, &ro, 2, 27, 0), Ok(owned((15, 1, 8), 16)));
}

/// `n` of them before, `m` behind; and strings of nothing else.
#[test]
fn many_of_memory_length_0() {
    for n in 0..16 {
        for m in 0..16 - n {
            let last = entry(0x0B, 1, 1, &[0]);
            let rw = [reserved(0).repeat(n), last, reserved(0).repeat(m)].concat();
            for set in 0..3 {
                assert_eq!(owner_of(1, &rw, &[], set, 0, 6), Ok(owned((n, 0, 7), n + 1)));
                assert_eq!(counts(1, &rw, &[], set), [n + 1]);
            }
        }
    }
    for n in 0..=16 {
        let none = reserved(0).repeat(n);
        // No byte, so nothing is looked at.
        for set in 0..3 {
            assert_eq!(owner_of(1, &none, &none, set, 0, 0), Err(caller(10)));
        }
        let ro = [reserved(0), entry(0x12, 1, 9, &[0, 0, 0]), reserved(0)].concat();
        assert_eq!(owner_of(1, &none, &ro, 0, 0, 0), Err(caller(10)));
        assert_eq!(counts(1, &none, &ro, 2), runs(&[(n + 2, 9)]));
        assert_eq!(owner_of(1, &none, &ro, 2, 7, 0), Ok(owned((n + 1, 0, 8), n + 2)));
        assert_eq!(owner_of(1, &none, &ro, 2, 8, 0), Ok(gap(n + 2)));
    }
}

/// "Entries are numbered from 0, RW first, RO after": in the RO string the RW
/// entries are counted, however many.
#[test]
fn ro_entries() {
    let ro = [entry(0x11, 1, 17, &[0]), reserved(2), entry(0x12, 1, 8, &[1, 0, 3])].concat();
    for n in 0..=LIMIT {
        let rw = space(4, n, false);
        let of_rw: Vec<(usize, usize)> = (1..=n).map(|number| (number, 1)).collect();
        let of_ro = [(n + 1, 17), (n + 2, 2), (n + 3, 8)];
        assert_eq!(counts(4, &rw, &ro, 0), runs(&of_rw));
        assert_eq!(counts(4, &rw, &ro, 2), runs(&[&of_rw[..], &of_ro].concat()));
        let said = |offset, bit| owner_of(4, &rw, &ro, 2, n + offset, bit);
        assert_eq!(said(0, 0), Ok(owned((n, 0, 1), n + 1)));
        assert_eq!(said(15, 7), Ok(owned((n, 1, 8), n + 1)));
        assert_eq!(said(16, 0), Ok(gap(n + 1)));
        assert_eq!(said(18, 7), Ok(gap(n + 2)));
        assert_eq!(said(19, 0), Ok(owned((n + 2, 0, 1), n + 3)));
        assert_eq!(said(27, 0), Err(caller(10)));
    }
}

/// A gap has a count as a field has: that of the entry whose space it is.
#[test]
fn gaps() {
    let rw = [
        reserved(2),
        entry(0x03, 1, 4, &[0]),
        entry(0x13, 1, 1, &[]),
        entry(0x07, 1, 9, &[0, 0, 0, 1]),
        entry(0x01, 1, 3, &[]),
        entry(0x0C, 1, 2, &[0]),
    ]
    .concat();
    let bytes = [(1, 2), (2, 4), (3, 1), (4, 9), (5, 3), (6, 2)];
    let gap_at = [0, 1, 4, 5, 6, 15, 16, 17, 18, 20];
    for set in 0..3 {
        assert!(counts(8, &[], &[], set).is_empty());
        assert_eq!(counts(8, &rw, &[], set), runs(&bytes));
        for (offset, looked_at) in runs(&bytes).into_iter().enumerate() {
            for bit in 0..8 {
                let said = owner_of(8, &rw, &[], set, offset, bit).unwrap();
                assert_eq!(said == gap(looked_at), gap_at.contains(&offset));
                let entry = said.field.map(|(entry, _, _)| entry + 1);
                assert_eq!(entry.unwrap_or(looked_at), looked_at);
            }
        }
    }
    // A set of gaps alone, up to the last byte that a set can have.
    let two = [reserved(255), reserved(0), reserved(1)].concat();
    assert_eq!(counts(1, &two, &[], 1), runs(&[(1, 255), (3, 1)]));
    assert_eq!(owner_of(1, &reserved(255), &reserved(1), 2, 255, 7), Ok(gap(2)));
}

/// Strings of one entry: 1 at every byte, in whichever string it stands.
#[test]
fn one_entry() {
    for (count, a) in [(8, 1), (9, 2)] {
        for id in 0..=255u8 {
            let (least, needed, ..) = columns(id);
            for memory in [needed, needed + 1, needed + 7] {
                let mut string = vec![0; least + a];
                (string[0], string[1], string[2 + a]) = (id, (least + a) as u8, memory as u8);
                // A step code that none of the IDs with a step reserves.
                string[least + a - 1] = if columns(id).2 > 0 { 1 } else { memory as u8 };
                let mut accepted = false;
                for (rw, ro) in [(&string[..], &[][..]), (&[], &string)] {
                    if load(count, rw, ro).is_ok() {
                        accepted = true;
                        assert_eq!(counts(count, rw, ro, 2), vec![1; memory]);
                        let staged = if ro.is_empty() { memory } else { 0 };
                        assert_eq!(counts(count, rw, ro, 0), vec![1; staged]);
                    }
                }
                assert!(accepted, "{string:02X?}");
            }
        }
    }
}

/// 16 entries in each string, one byte each: 1 to 16, then 17 to 32.
#[test]
fn full_strings() {
    for count in [1, 15] {
        let (rw, ro) = (space(count, 16, false), space(count, 16, true));
        assert_eq!(counts(count, &rw, &ro, 1), (1..=16).collect::<Vec<_>>());
        assert_eq!(counts(count, &rw, &ro, 2), (1..=32).collect::<Vec<_>>());
        assert_eq!(counts(count, &[], &ro, 2), (1..=16).collect::<Vec<_>>());
    }
}

/// "Once the strings are accepted": a fault behind the entry sought is refused
/// as before, at a byte that exists and at one that doesn't. A refusal carries
/// its number and the old extras.
#[test]
fn refusals_carry_no_count() {
    let asked = [(0, 0, 0), (1, 0, 7), (2, 0, 3), (2, 300, 0), (3, 0, 0), (0, 0, 8)];
    let said = |rw: &[u8], ro: &[u8], wanted: Refusal| {
        for (set, offset, bit) in asked {
            let refusal = owner_of(4, rw, ro, set, offset, bit).unwrap_err();
            // These three, and no more.
            let Refusal { number, entry, lane } = refusal;
            assert_eq!(Refusal { number, entry, lane }, wanted);
        }
    };
    for fault in faults() {
        for at in 1..LIMIT {
            let string = with_fault(&fault, at, 0);
            match fault.in_ro {
                true => said(&space(4, 3, false), &string, maker(fault.number, 3 + at)),
                false => said(&string, &space(4, 3, true), maker(fault.number, at)),
            }
        }
    }
    said(&space(4, 17, false), &[], maker(16, 16));
    said(&space(4, 3, false), &space(4, 17, true), maker(16, 19));
    said(&[0; 121], &[], caller(9));
    said(&space(4, 1, false), &[0; 121], caller(9));
    for count in [0, 16, usize::MAX] {
        assert_eq!(owner_of(count, &space(4, 1, false), &[], 0, 0, 0), Err(caller(9)));
    }
    // 10, at the edges of each set.
    let (rw, ro) = (space(4, 5, false), [space(4, 5, true), reserved(0)].concat());
    let huge = usize::MAX;
    for (set, offset, bit) in [
        (0, 5, 0), (1, 5, 7), (1, 9, 0), (2, 10, 0), (2, huge, 0), (0, huge / 8 + 1, 0), (3, 0, 0),
        (huge, 0, 0), (0, 4, 8), (2, 9, huge), (3, huge, 9),
    ] {
        assert_eq!(owner_of(4, &rw, &ro, set, offset, bit), Err(caller(10)));
    }
    assert_eq!(owner_of(4, &rw, &ro, 1, 4, 7), Ok(gap(5)));
    assert_eq!(owner_of(4, &rw, &ro, 2, 9, 7), Ok(gap(10)));
}

// ---------------------------------------------------------------------------
// On random maps
// ---------------------------------------------------------------------------

/// An accepted map: of the common sort, or of about 16 entries in each string,
/// many of them with MemoryLength 0.
fn any_map(random: &mut Random) -> (usize, Vec<u8>, Vec<u8>, Loaded) {
    if random.chance(2) {
        return random_map(random);
    }
    loop {
        let count = 1 + random.below(15);
        let rw = about_sixteen(random, count, false);
        let ro = about_sixteen(random, count, true);
        if let Ok(loaded) = load(count, &rw, &ro) {
            return (count, rw, ro, loaded);
        }
    }
}

/// The note's words one after the other, over the bytes of accepted strings:
/// through the entries in order, with a stop at the one that covers the byte.
fn naive(count: usize, strings: [&[u8]; 2], byte: usize, bit: usize) -> Owned {
    let a = 1 + usize::from(count > 8);
    let (mut looked_at, mut offset) = (0, 0);
    for mut rest in strings {
        while !rest.is_empty() {
            let (own, behind) = rest.split_at(usize::from(rest[1]));
            let (number, memory) = (looked_at, usize::from(own[2 + a]));
            looked_at += 1;
            if (offset..offset + memory).contains(&byte) {
                let (_, _, parts, w) = columns(own[0]);
                let at = byte - offset;
                let inside = at < parts * w;
                let field = inside.then(|| (number, at / w, (at % w * 8 + bit) / w + 1));
                return Owned { field, looked_at };
            }
            (offset, rest) = (offset + memory, behind);
        }
    }
    panic!("no entry covers byte {byte}");
}

/// Every bit of every set: as the naive reading has it, "equal to that entry's
/// number plus one"; sets 0 and 1 agree with set 2 on the bytes that they have.
#[test]
fn as_a_naive_reading() {
    let mut random = Random(12);
    let (mut fields, mut gaps, mut in_ro, mut first, mut last) = (0, 0, 0, 0, 0);
    let (mut passed_0, mut in_a_row, mut ahead_of_gap) = (0, 0, 0);
    for _ in 0..500 {
        let (count, rw, ro, loaded) = any_map(&mut random);
        let list = entries(count, &rw, &ro).unwrap();
        for offset in 0..loaded.active_length {
            for bit in 0..8 {
                let said = owner_of(count, &rw, &ro, 2, offset, bit).unwrap();
                let wanted = naive(count, [&rw, &ro], offset, bit);
                assert_eq!(said, wanted, "{count} {rw:02X?} {ro:02X?} {offset} {bit}");
                for set in 0..2 {
                    let staged = owner_of(count, &rw, &ro, set, offset, bit);
                    let has = offset < loaded.staged_length;
                    assert_eq!(staged, if has { Ok(said) } else { Err(caller(10)) });
                }
                if let Some((entry, _, _)) = said.field {
                    assert_eq!(said.looked_at, entry + 1);
                }
            }
            // The entry that covers the byte, and those passed.
            let said = owner_of(count, &rw, &ro, 2, offset, 0).unwrap();
            let (covering, passed) = list[..said.looked_at].split_last().unwrap();
            assert!((covering.offset..covering.offset + covering.memory).contains(&offset));
            assert!(passed.iter().all(|e| e.offset + e.memory <= offset));
            let zero = passed.iter().any(|e| e.memory == 0);
            fields += usize::from(said.field.is_some());
            gaps += usize::from(said.field.is_none());
            in_ro += usize::from(said.looked_at > loaded.rw_entries);
            first += usize::from(passed.is_empty());
            last += usize::from(said.looked_at == list.len());
            passed_0 += usize::from(zero);
            in_a_row += usize::from(passed.windows(2).any(|two| two.iter().all(|e| e.memory == 0)));
            ahead_of_gap += usize::from(zero && said.field.is_none());
        }
    }
    // The maps are worth something.
    let seen = [fields, gaps, in_ro, first, last, passed_0, in_a_row, ahead_of_gap];
    assert!(seen.iter().all(|&bytes| bytes > 500), "{seen:?}");
}

/// "it needn't read the map to its end": nothing behind the entry that covers
/// the byte matters to the answer, and without that entry the byte isn't there.
#[test]
fn cut_behind_the_entry() {
    let mut random = Random(13);
    for _ in 0..150 {
        let (count, rw, ro, loaded) = any_map(&mut random);
        let list = entries(count, &rw, &ro).unwrap();
        for offset in 0..loaded.active_length {
            let bit = random.below(8);
            let said = owner_of(count, &rw, &ro, 2, offset, bit).unwrap();
            let last = list[said.looked_at - 1];
            let cut = |at: usize, set: usize| match last.in_ro {
                true => owner_of(count, &rw, &ro[..at], set, offset, bit),
                false => owner_of(count, &rw[..at], &[], set, offset, bit),
            };
            for set in if last.in_ro { 2..3 } else { 0..3 } {
                assert_eq!(cut(last.start + last.length, set), Ok(said));
                assert_eq!(cut(last.start, set), Err(caller(10)));
            }
        }
    }
}

/// One more entry with MemoryLength 0, in each place of either string: from
/// there on all entries have the next number and counts are one more; before it
/// nothing moves.
#[test]
fn one_more_of_memory_length_0() {
    let mut random = Random(14);
    let mut added = 0;
    while added < 1500 {
        let (count, rw, ro, loaded) = any_map(&mut random);
        let more = if count > 8 { entry2(0x13, 0, 0, &[]) } else { entry(0x13, 0, 0, &[]) };
        let list = entries(count, &rw, &ro).unwrap();
        for in_ro in [false, true] {
            let string = if in_ro { &ro } else { &rw };
            let of_string = list.iter().filter(|e| e.in_ro == in_ro);
            let starts: Vec<usize> = of_string.map(|e| e.start).chain([string.len()]).collect();
            if starts.len() > LIMIT || string.len() + more.len() > 120 {
                continue;
            }
            let before = if in_ro { loaded.rw_entries } else { 0 };
            for (number, start) in (before..).zip(starts) {
                let longer = [&string[..start], &more, &string[start..]].concat();
                let (rw2, ro2) = if in_ro { (&rw, &longer) } else { (&longer, &ro) };
                added += 1;
                for offset in 0..loaded.active_length {
                    let (set, bit) = (random.below(3), random.below(8));
                    let wanted = owner_of(count, &rw, &ro, set, offset, bit).map(|old| {
                        let moved = usize::from(old.looked_at > number);
                        let field = old.field.map(|(of, part, lane)| (of + moved, part, lane));
                        Owned { field, looked_at: old.looked_at + moved }
                    });
                    assert_eq!(owner_of(count, rw2, ro2, set, offset, bit), wanted);
                }
            }
        }
    }
}
