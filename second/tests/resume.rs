//! Note 8, "One walk through the strings": a load "broken off after any entry
//! and taken up again".

mod common;
use common::*;
use second::*;
use std::collections::HashMap;

type Load = Result<Loaded, Refusal>;

/// What is kept after the entries of these bytes, which the load accepts: told
/// by the list of them, not by passes.
fn kept_after(count: usize, rw: &[u8], ro: &[u8]) -> Kept {
    let a = 1 + usize::from(count > 8);
    let list = entries(count, rw, ro).unwrap();
    let media = list.iter().any(|e| {
        let string = if e.in_ro { ro } else { rw };
        columns(e.id).2 > 0 && string[e.start + 3 + a] & 1 == 1
    });
    let of = |in_ro: bool| list.iter().filter(move |e| e.in_ro == in_ro);
    let sum = |in_ro: bool| of(in_ro).map(|e| e.memory).sum::<usize>();
    let in_ro = !ro.is_empty();
    Kept {
        ro: in_ro,
        media,
        entries: of(in_ro).count(),
        before: if in_ro { of(false).count() } else { 0 },
        sum: sum(false) + sum(true),
        staged: if in_ro { sum(false) } else { 0 },
    }
}

/// How far each string has been read: at the beginning, then after each entry
/// that the load passes.
fn breaks(count: usize, rw: &[u8], ro: &[u8]) -> Vec<(usize, usize)> {
    let passed = match load(count, rw, ro) {
        Ok(loaded) => loaded.rw_entries + loaded.ro_entries,
        Err(refusal) => refusal.entry.unwrap(),
    };
    let mut all = vec![(0, 0)];
    let (mut x, mut y) = (0, 0);
    for _ in 0..passed {
        match x < rw.len() {
            true => x = reader_step(count, rw, x).1,
            false => y = reader_step(count, ro, y).1,
        }
        all.push((x, y));
    }
    all
}

/// The load by passes alone, answered from what the last of them kept.
fn by_passes(count: usize, rw: &[u8], ro: &[u8], mut kept: Kept) -> Load {
    let (mut rw, mut ro) = (rw, ro);
    while let Some((next, length)) = pass(count, rw, ro, kept)? {
        match next.ro {
            false => rw = &rw[length..],
            true => ro = &ro[length..],
        }
        kept = next;
    }
    let all = kept.before.saturating_add(kept.entries);
    Ok(match kept.ro {
        true => Loaded {
            rw_entries: kept.before,
            ro_entries: kept.entries,
            staged_length: kept.staged,
            active_length: kept.sum,
        },
        false => Loaded {
            rw_entries: all,
            ro_entries: 0,
            staged_length: kept.sum,
            active_length: kept.sum,
        },
    })
}

/// Broken off after every entry: what is kept, the load taken up again, by
/// `resume` and by passes, and the next entry alone.
fn broken_off(count: usize, rw: &[u8], ro: &[u8]) -> Load {
    let whole = load(count, rw, ro);
    let breaks = breaks(count, rw, ro);
    let afters: Vec<Kept> =
        breaks.iter().map(|&(x, y)| kept_after(count, &rw[..x], &ro[..y])).collect();
    assert_eq!(afters[0], Kept::default());
    for (k, (&(x, y), &kept)) in breaks.iter().zip(&afters).enumerate() {
        let said = || format!("{count} {rw:02X?} {ro:02X?} after {k}: {kept:?}");
        let next = match breaks.get(k + 1) {
            Some(&(u, v)) => Ok(Some((afters[k + 1], u - x + v - y))),
            None => whole.map(|_| None),
        };
        // In the RO string no byte of the other is read.
        let junk = [0x5A; 120];
        let lent = [&rw[x..], rw, &junk[..], &[0x02]];
        for rest in &lent[..if kept.ro { 4 } else { 1 }] {
            assert_eq!(resume(count, rest, &ro[y..], kept), whole, "{}", said());
            assert_eq!(pass(count, rest, &ro[y..], kept), next, "{}", said());
        }
        assert_eq!(by_passes(count, &rw[x..], &ro[y..], kept), whole, "{}", said());
    }
    whole
}

/// In several sittings: after each, what is kept and a copy of the bytes not
/// yet read are all that is left.
fn in_sittings(random: &mut Random, count: usize, rw: &[u8], ro: &[u8]) -> Load {
    let (mut rw, mut ro, mut kept) = (rw.to_vec(), ro.to_vec(), Kept::default());
    while !random.chance(5) {
        for _ in 0..random.below(6) {
            let Some((next, length)) = pass(count, &rw, &ro, kept)? else {
                break;
            };
            match next.ro {
                false => drop(rw.drain(..length)),
                true => drop(ro.drain(..length)),
            }
            kept = next;
        }
        (rw, ro) = (rw.clone(), ro.clone());
    }
    resume(count, &rw, &ro, kept)
}

// ---------------------------------------------------------------------------
// By hand
// ---------------------------------------------------------------------------

/// The paper's example, its kept numbers written out, with an RO string.
#[test]
fn the_example() {
    let rw = [0x02, 0x05, 0x0B, 0x01, 0, 0, 0x05, 0, 0x02, 0, 0x05, 0x05, 0x0F, 0x01, 0];
    let ro = [0x11, 0x05, 0x01, 0x10, 0, 0x12, 0x08, 0x01, 0x09, 0, 0xFF, 0x03, 0xEE];
    let in_rw = |entries, sum| Kept { entries, sum, ..Kept::default() };
    let in_ro = |entries, sum| Kept { ro: true, entries, before: 3, sum, staged: 4, media: false };
    let passes = [
        (5, in_rw(1, 1)),
        (5, in_rw(2, 3)),
        (5, in_rw(3, 4)),
        (5, in_ro(1, 20)),
        (8, in_ro(2, 29)),
    ];
    let (mut x, mut y, mut kept) = (0, 0, Kept::default());
    let loaded = Loaded { rw_entries: 3, ro_entries: 2, staged_length: 4, active_length: 29 };
    for (length, next) in passes {
        assert_eq!(resume(4, &rw[x..], &ro[y..], kept), Ok(loaded));
        assert_eq!(pass(4, &rw[x..], &ro[y..], kept), Ok(Some((next, length))));
        (x, y) = if next.ro { (x, y + length) } else { (x + length, y) };
        kept = next;
    }
    assert_eq!((x, y), (rw.len(), ro.len()));
    assert_eq!(pass(4, &[], &[], kept), Ok(None));
    assert_eq!(resume(4, &[], &[], kept), Ok(loaded));
    assert_eq!(broken_off(4, &rw, &ro), Ok(loaded));
}

/// Strings with no byte, one or both.
#[test]
fn empty_strings() {
    let none = Loaded { rw_entries: 0, ro_entries: 0, staged_length: 0, active_length: 0 };
    for count in 1..=15 {
        assert_eq!(pass(count, &[], &[], Kept::default()), Ok(None));
        assert_eq!(broken_off(count, &[], &[]), Ok(none));
    }
    let space = entry(0x13, 0, 7, &[]);
    let (one, other) = (broken_off(1, &space, &[]).unwrap(), broken_off(1, &[], &space).unwrap());
    assert_eq!(one, Loaded { rw_entries: 1, staged_length: 7, active_length: 7, ..none });
    assert_eq!(other, Loaded { ro_entries: 1, active_length: 7, ..none });
    // The first entry of all may be an RO entry.
    let kept = Kept { ro: true, entries: 1, sum: 7, ..Kept::default() };
    assert_eq!(pass(1, &[], &space, Kept::default()), Ok(Some((kept, 4))));
    assert_eq!(pass(1, &[], &[9], Kept::default()), Err(maker(1, 0)));
}

/// A break exactly at the end of the RW string: the next entry is the RO
/// string's first, and RW rules hold no more.
#[test]
fn at_the_end_of_rw() {
    let rw = [entry(0x02, 1, 1, &[1]), entry(0x00, 1, 200, &[])].concat();
    let kept = Kept { media: true, entries: 2, sum: 201, ..Kept::default() };
    assert_eq!(kept_after(1, &rw, &[]), kept);
    let after = Kept { ro: true, entries: 1, before: 2, sum: 217, staged: 201, media: true };
    let good = entry(0x11, 1, 16, &[0]);
    assert_eq!(pass(1, &[], &good, kept), Ok(Some((after, 5))));
    for (bytes, number) in [
        (vec![0x11], 1),
        (vec![0x11, 6, 1, 16, 0], 1),
        (vec![0x11, 4, 1, 16], 2),
        (entry(0x02, 1, 1, &[0]), 3),
        (entry(0x02, 1, 1, &[1]), 3),
        (entry(0x11, 1, 15, &[0]), 4),
        (entry(0x12, 1, 8, &[0, 0, 4]), 5),
        (entry(0x11, 1, 56, &[0]), 7),
    ] {
        assert_eq!(pass(1, &[], &bytes, kept), Err(maker(number, 2)));
        assert_eq!(broken_off(1, &rw, &bytes), Err(maker(number, 2)));
        let later = [&good[..], &bytes].concat();
        assert_eq!(broken_off(1, &rw, &later), Err(maker(number, 3)));
    }
    // 16 RW entries and no byte more is no 17th.
    let full = Kept { entries: LIMIT, sum: 16, ..Kept::default() };
    assert_eq!(kept_after(1, &space(1, LIMIT, false), &[]), full);
    let after = Kept { ro: true, entries: 1, before: 16, sum: 32, staged: 16, media: false };
    assert_eq!(pass(1, &[], &good, full), Ok(Some((after, 5))));
    assert_eq!(pass(1, &[0], &good, full), Err(maker(16, 16)));
    assert_eq!(pass(1, &[], &[], full), Ok(None));
}

/// Both strings full; then a byte or an entry more in one of them.
#[test]
fn both_strings_full() {
    for count in [1, 8, 9, 15] {
        let (rw, ro) = (space(count, LIMIT, false), space(count, LIMIT, true));
        let full = Loaded { rw_entries: 16, ro_entries: 16, staged_length: 16, active_length: 32 };
        assert_eq!(broken_off(count, &rw, &ro), Ok(full));
        for more in [&[0x77][..], &[0, 0], &[0x11, 5, 1, 16, 0], &space(count, 1, true)] {
            let longer = [&rw[..], more].concat();
            assert_eq!(broken_off(count, &longer, &ro), Err(maker(16, 16)));
            let longer = [&ro[..], more].concat();
            assert_eq!(broken_off(count, &rw, &longer), Err(maker(16, 32)));
            assert_eq!(broken_off(count, &[], &longer), Err(maker(16, 16)));
        }
    }
}

/// Each of 16 and 1 to 7 as any entry of either string, behind RW strings of
/// any number of entries.
#[test]
fn every_refusal_at_every_place() {
    for fault in faults() {
        for at in 1..=LIMIT {
            let string = with_fault(&fault, at, 2);
            let number = if at == LIMIT { 16 } else { fault.number };
            if !fault.in_ro {
                for ro in [vec![], space(4, 3, true), vec![9], space(4, 17, true)] {
                    assert_eq!(broken_off(4, &string, &ro), Err(maker(number, at)));
                }
                continue;
            }
            for n in [0, 1, 5, LIMIT] {
                let rw = space(4, n, false);
                assert_eq!(broken_off(4, &rw, &string), Err(maker(number, n + at)));
            }
        }
    }
}

/// Every string of up to two entries of a palette, good ones and faulty ones.
#[test]
fn palette() {
    let rw_palette = [
        entry(0x02, 1, 1, &[0]),
        entry(0x02, 1, 1, &[1]),
        entry(0x04, 1, 4, &[0, 0, 0]),
        entry(0x07, 1, 8, &[1, 0, 0, 0]),
        entry(0x09, 1, 8, &[1, 0, 0, 0, 4]),
        entry(0x0A, 1, 8, &[0, 0, 0, 0, 5]),
        entry(0x0D, 1, 8, &[0, 0, 0, 0, 3]),
        entry(0x0F, 1, 7, &[0]),
        entry(0x10, 1, 8, &[1, 0xEE]),
        entry(0x01, 1, 0, &[0xFF]),
        entry(0x00, 1, 255, &[]),
        entry(0x13, 1, 2, &[0xFF]),
        entry(0x12, 1, 8, &[0, 0, 0]),
        vec![0x00, 2],
        vec![0x05],
    ];
    let ro_palette = [
        entry(0x11, 1, 16, &[1]),
        entry(0x12, 1, 8, &[0, 0, 3]),
        entry(0x12, 1, 8, &[1, 0, 4]),
        entry(0x11, 1, 15, &[0]),
        entry(0x00, 1, 240, &[]),
        entry(0xFF, 1, 1, &[1]),
        entry(0x02, 1, 1, &[0]),
        vec![0x13, 5, 0, 0],
        vec![0x13, 3, 0, 0],
    ];
    let strings = |palette: &[Vec<u8>]| -> Vec<Vec<u8>> {
        let pairs =
            palette.iter().flat_map(|one| palette.iter().map(move |two| [&one[..], two].concat()));
        [vec![]].into_iter().chain(palette.iter().cloned()).chain(pairs).collect()
    };
    for rw in strings(&rw_palette) {
        for ro in strings(&ro_palette) {
            let _ = broken_off(2, &rw, &ro);
            let _ = broken_off(11, &rw, &ro);
        }
    }
}

/// 9 by the count and by what is lent, before all else; the bytes already read
/// are not lent, so these don't count.
#[test]
fn check_9() {
    let (good, long) = (space(4, 30, false), vec![0; 121]);
    let in_rw = Kept { entries: 16, sum: 300, ..Kept::default() };
    let in_ro = Kept { ro: true, before: 16, ..in_rw };
    for kept in [Kept::default(), in_rw, in_ro] {
        for count in [0, 16, 17, usize::MAX] {
            for (rw, ro) in [(&[][..], &[][..]), (&good, &good), (&[1], &long)] {
                assert_eq!(pass(count, rw, ro, kept), Err(caller(9)));
                assert_eq!(resume(count, rw, ro, kept), Err(caller(9)));
            }
        }
        for (rw, ro) in [(&long, &good), (&good, &long), (&long, &long), (&long, &vec![])] {
            assert_eq!(pass(4, rw, ro, kept), Err(caller(9)));
            assert_eq!(resume(4, rw, ro, kept), Err(caller(9)));
        }
    }
    // A whole string over 120 is 9 and passes no entry; its rest alone isn't.
    let whole = [entry(0x00, 0, 1, &[]), entry(0x00, 0, 1, &[0; 116])].concat();
    assert_eq!(whole.len(), 124);
    assert_eq!(load(4, &whole, &[]), Err(caller(9)));
    assert_eq!(pass(4, &whole, &[], Kept::default()), Err(caller(9)));
    let kept = Kept { entries: 1, sum: 1, ..Kept::default() };
    assert_eq!(resume(4, &whole[4..], &[], kept).map(|loaded| loaded.active_length), Ok(2));
}

// ---------------------------------------------------------------------------
// Misreadings
// ---------------------------------------------------------------------------

type Misreading = (&'static str, fn(Kept) -> Kept);

/// What somebody might keep instead.
const MISREADINGS: [Misreading; 11] = [
    ("forgets the media side", |kept| Kept { media: false, ..kept }),
    ("takes any entry for media side", |kept| Kept { media: kept.entries > 0, ..kept }),
    ("restarts the entry numbers in RO", |kept| Kept { before: 0, ..kept }),
    ("counts the RW entries twice", |kept| Kept { entries: kept.entries + kept.before, ..kept }),
    ("restarts the entries at the break", |kept| Kept { entries: 0, ..kept }),
    ("moves the entries passed before the string", |kept| Kept {
        entries: 0,
        before: kept.before + kept.entries,
        ..kept
    }),
    ("loses the sum", |kept| Kept { sum: 0, ..kept }),
    ("restarts the sum in RO", |kept| Kept { sum: kept.sum - kept.staged, ..kept }),
    ("loses the staged length", |kept| Kept { staged: 0, ..kept }),
    ("takes the sum for the staged length", |kept| Kept { staged: kept.sum, ..kept }),
    ("forgets which string it is in", |kept| Kept { ro: false, ..kept }),
];

fn misread(name: &str, kept: Kept) -> Kept {
    MISREADINGS.iter().find(|(known, _)| *known == name).unwrap().1(kept)
}

/// The map broken off after `at` entries: the right answer, and the misreader's,
/// by `resume` and by passes.
fn told_apart(name: &str, rw: &[u8], ro: &[u8], at: usize, right: Load, wrong: Load) {
    assert_eq!(broken_off(4, rw, ro), right, "{name}");
    assert_ne!(right, wrong, "{name}");
    let (x, y) = breaks(4, rw, ro)[at];
    let kept = misread(name, kept_after(4, &rw[..x], &ro[..y]));
    assert_eq!(resume(4, &rw[x..], &ro[y..], kept), wrong, "{name}");
    assert_eq!(by_passes(4, &rw[x..], &ro[y..], kept), wrong, "{name}");
}

fn lengths(
    rw_entries: usize,
    ro_entries: usize,
    staged_length: usize,
    active_length: usize,
) -> Load {
    Ok(Loaded { rw_entries, ro_entries, staged_length, active_length })
}

#[test]
fn the_media_side_is_kept() {
    let host = entry(0x05, 1, 1, &[0]);
    for first in [
        entry(0x02, 1, 1, &[1]),
        entry(0x10, 1, 8, &[0xFF]),
        entry(0x0E, 1, 4, &[1, 0, 0]),
        entry(0x0A, 1, 8, &[1, 0, 0, 0, 1]),
    ] {
        let sum = usize::from(first[3]) + 1;
        let rw = [&first[..], &host].concat();
        let name = "forgets the media side";
        told_apart(name, &rw, &[], 1, Err(maker(6, 1)), lengths(2, 0, sum, sum));
        // Not the last entry's side alone: a host-side 0Fh and space between.
        let between = [entry(0x0F, 1, 8, &[0]), entry(0x13, 1, 0, &[0])].concat();
        let rw = [&first[..], &between, &host].concat();
        for at in 1..=3 {
            told_apart(name, &rw, &[], at, Err(maker(6, 3)), lengths(4, 0, sum + 8, sum + 8));
        }
    }
    // Flags of space aren't read, and a host-side entry is none.
    for first in [entry(0x01, 1, 1, &[0xFF]), entry(0x77, 1, 1, &[1]), entry(0x02, 1, 1, &[0xFE])] {
        let rw = [&first[..], &host].concat();
        let name = "takes any entry for media side";
        told_apart(name, &rw, &[], 1, lengths(2, 0, 2, 2), Err(maker(6, 1)));
    }
}

#[test]
fn the_entry_numbers_go_on() {
    let rw = [entry(0x02, 1, 1, &[0]), entry(0x00, 1, 2, &[]), entry(0x05, 1, 1, &[0])].concat();
    let ro = [entry(0x11, 1, 16, &[0]), entry(0x13, 1, 1, &[]), entry(0x02, 1, 1, &[0])].concat();
    let name = "restarts the entry numbers in RO";
    told_apart(name, &rw, &ro, 4, Err(maker(3, 5)), Err(maker(3, 2)));
    told_apart(name, &rw, &ro, 5, Err(maker(3, 5)), Err(maker(3, 2)));
    told_apart(name, &rw, &ro[..9], 4, lengths(3, 2, 4, 21), lengths(0, 2, 4, 21));
    let name = "restarts the entries at the break";
    told_apart(name, &rw, &ro, 1, Err(maker(3, 5)), Err(maker(3, 4)));
    told_apart(name, &rw, &ro, 3, Err(maker(3, 5)), Err(maker(3, 2)));
    told_apart(name, &rw, &ro, 5, Err(maker(3, 5)), Err(maker(3, 3)));
}

#[test]
fn the_limit_is_each_strings_own() {
    let (rw, ro) = (space(4, 16, false), space(4, 16, true));
    let name = "counts the RW entries twice";
    told_apart(name, &rw, &ro, 17, lengths(16, 16, 16, 32), Err(maker(16, 33)));
    let name = "moves the entries passed before the string";
    let rw17 = space(4, 17, false);
    told_apart(name, &rw17, &[], 1, Err(maker(16, 16)), lengths(17, 0, 17, 17));
    let ro17 = space(4, 17, true);
    told_apart(name, &rw, &ro17, 20, Err(maker(16, 32)), lengths(20, 13, 16, 33));
    // At the end of the RW string it is no misreading.
    let kept = misread(name, kept_after(4, &rw, &[]));
    assert_eq!(resume(4, &[], &ro17, kept), Err(maker(16, 32)));
}

#[test]
fn the_sum_is_kept() {
    let full = entry(0x00, 1, 255, &[]);
    let [one, two] = [1, 2].map(|memory| entry(0xFF, 1, memory, &[]));
    let name = "loses the sum";
    // In RW, over the end of it, and in RO; 256 is accepted.
    told_apart(name, &[&full[..], &two].concat(), &[], 1, Err(maker(7, 1)), lengths(2, 0, 2, 2));
    told_apart(name, &full, &two, 1, Err(maker(7, 1)), lengths(1, 1, 0, 2));
    told_apart(name, &[], &[&full[..], &two].concat(), 1, Err(maker(7, 1)), lengths(0, 2, 0, 2));
    told_apart(name, &full, &one, 1, lengths(1, 1, 255, 256), lengths(1, 1, 0, 1));
    told_apart(name, &full, &one, 2, lengths(1, 1, 255, 256), lengths(1, 1, 255, 0));
    let name = "restarts the sum in RO";
    let ro = [&one[..], &one].concat();
    told_apart(name, &full, &ro, 2, Err(maker(7, 2)), lengths(1, 2, 255, 2));
}

#[test]
fn the_staged_length_is_kept() {
    let rw = [entry(0x02, 1, 1, &[0]), entry(0x10, 1, 9, &[0])].concat();
    let ro = [entry(0x11, 1, 16, &[0]), entry(0x12, 1, 8, &[0, 0, 0])].concat();
    let right = lengths(2, 2, 10, 34);
    told_apart("loses the staged length", &rw, &ro, 3, right, lengths(2, 2, 0, 34));
    told_apart("loses the staged length", &rw, &ro, 4, right, lengths(2, 2, 0, 34));
    told_apart("takes the sum for the staged length", &rw, &ro, 3, right, lengths(2, 2, 26, 34));
    told_apart("takes the sum for the staged length", &rw, &ro, 4, right, lengths(2, 2, 34, 34));
}

#[test]
fn the_string_is_kept() {
    let rw = entry(0x00, 1, 3, &[]);
    let ro = [entry(0x13, 1, 1, &[]), entry(0x11, 1, 16, &[0])].concat();
    let name = "forgets which string it is in";
    told_apart(name, &rw, &ro, 2, lengths(1, 2, 3, 20), lengths(2, 1, 4, 20));
    // The rest lent in the RW string's place is then taken for its rest.
    let kept = misread(name, kept_after(4, &rw, &ro[..4]));
    assert_eq!(resume(4, &ro[4..], &[], kept), Err(maker(3, 2)));
}

/// The end of the RW string isn't the end, and an entry doesn't reach over it.
#[test]
fn the_strings_are_two() {
    let (rw, ro) = (entry(0x13, 1, 1, &[]), entry(0x13, 1, 2, &[]));
    let kept = kept_after(4, &rw, &[]);
    assert!(matches!(pass(4, &[], &ro, kept), Ok(Some((Kept { ro: true, .. }, 4)))));
    let over = [&rw[..], &[0x13, 8, 1, 1]].concat();
    assert_eq!(broken_off(4, &over, &ro), Err(maker(1, 1)));
    assert_eq!(pass(4, &over[4..], &ro, kept), Err(maker(1, 1)));
    let one = [&rw[..], &[0x13]].concat();
    assert_eq!(broken_off(4, &one, &[4, 1, 1]), Err(maker(1, 1)));
}

// ---------------------------------------------------------------------------
// Generated
// ---------------------------------------------------------------------------

/// Strings of the two random kinds; now and then much space first, so that 7
/// comes up late as well, or one byte made small, for 2 and 4.
fn strings(random: &mut Random, count: usize) -> [Vec<u8>; 2] {
    let full = random.chance(2);
    [false, true].map(|in_ro| {
        let mut string = match full {
            true => about_sixteen(random, count, in_ro),
            false => random_string(random, count, in_ro),
        };
        if random.chance(10) && string.len() <= 115 {
            let memory = 150 + random.below(106) as u8;
            let space = match count {
                1..=8 => entry(0x00, 0xFF, memory, &[]),
                _ => entry2(0x00, 0xFFFF, memory, &[]),
            };
            string = [space, string].concat();
        }
        if random.chance(8) && !string.is_empty() {
            let at = random.below(string.len());
            string[at] = random.below(8) as u8;
        }
        string
    })
}

/// Each of 16 and 1 to 7 in either string, broken off in either; accepted maps.
#[test]
fn generated() {
    let mut random = Random(80);
    // By refusal number, or 0 for an accepted map, the string of the last entry
    // looked at, and the string of the break.
    let mut seen: HashMap<(u32, bool, bool), usize> = HashMap::new();
    let mut apart: HashMap<&str, usize> = HashMap::new();
    for _ in 0..10000 {
        let count = 1 + random.below(15);
        let [rw, ro] = strings(&mut random, count);
        let whole = broken_off(count, &rw, &ro);
        let breaks = breaks(count, &rw, &ro);
        let last = *breaks.last().unwrap();
        let in_ro = last.0 == rw.len() && !ro.is_empty();
        let number = whole.err().map_or(0, |refusal| refusal.number);
        for &(x, y) in &breaks[1..] {
            *seen.entry((number, in_ro, y > 0)).or_default() += 1;
            let kept = kept_after(count, &rw[..x], &ro[..y]);
            for (name, misread) in MISREADINGS {
                let other = resume(count, &rw[x..], &ro[y..], misread(kept));
                *apart.entry(name).or_default() += usize::from(other != whole);
            }
        }
        for _ in 0..3 {
            assert_eq!(in_sittings(&mut random, count, &rw, &ro), whole);
        }
    }
    for number in (0..=7).chain([16]) {
        for (in_ro, broken_in_ro) in [(false, false), (true, false), (true, true)] {
            let times = seen.get(&(number, in_ro, broken_in_ro)).copied().unwrap_or(0);
            assert!(times > 50 || (number, in_ro) == (6, true), "{number} {in_ro} {seen:?}");
        }
    }
    for (name, _) in MISREADINGS {
        assert!(apart[name] > 100, "{apart:?}");
    }
}

/// Any bytes, and anything kept, also what no load comes to: passes to the end
/// say what `resume` says, and `pass` keeps to its own entry.
#[test]
fn anything_kept() {
    let mut random = Random(81);
    let mut accepted = 0;
    for _ in 0..40000 {
        let count = if random.chance(20) { random.below(20) } else { 1 + random.below(15) };
        let [rw, ro] = match random.chance(3) {
            true => [0, 0].map(|_| {
                let most = if random.chance(9) { 124 } else { 9 };
                let size = random.below(most);
                random.bytes(size)
            }),
            false => strings(&mut random, count.clamp(1, 15)),
        };
        let mut number = |usual: usize| match random.below(12) {
            0 => random.pick(&[usize::MAX, usize::MAX - 1, 1 << 32, 257, 256, 17, 16]),
            _ => random.below(usual),
        };
        let [entries, before, sum, staged] = [18, 18, 260, 260].map(&mut number);
        let (in_ro, media) = (random.chance(2), random.chance(2));
        let kept = Kept { ro: in_ro, media, entries, before, sum, staged };
        let resumed = resume(count, &rw, &ro, kept);
        assert_eq!(
            by_passes(count, &rw, &ro, kept),
            resumed,
            "{count} {rw:02X?} {ro:02X?} {kept:?}"
        );
        accepted += usize::from(resumed.is_ok());
        if let Err(refusal) = resumed {
            assert!(matches!(refusal.number, 1..=7 | 9 | 16));
            assert_eq!(refusal.entry.is_some(), refusal.number != 9);
        }
        if let Ok(Some((next, length))) = pass(count, &rw, &ro, kept) {
            let string = if next.ro { &ro } else { &rw };
            assert!(next.ro == (in_ro || rw.is_empty()) && length <= string.len());
            // Bytes after the entry, and the other string's, have no say.
            let own = &string[..length];
            let alone =
                if next.ro { pass(count, &[], own, kept) } else { pass(count, own, &[], kept) };
            assert_eq!(alone, Ok(Some((next, length))));
        }
    }
    assert!(accepted > 2000, "{accepted}");
}
