//! Randomized self-tests: the table against the packed bank, and what keeps
//! its content on a bank of any content.

mod common;
use common::*;
use second::*;
use std::collections::HashMap;

/// From a fresh bank, a list of calls: the same answers, the same bank.
#[test]
fn table_against_bank() {
    let mut random = Random(1);
    let mut seen: HashMap<u32, usize> = HashMap::new();
    let (mut applied, mut said_yes, mut numbers) = (0, 0, 0);
    for _ in 0..1500 {
        let (count, rw, ro, loaded) = random_map(&mut random);
        let size = 784 + random.below(3) * 17;
        let mut bank = random.bytes(size);
        let beyond = bank[784..].to_vec();
        assert_eq!(fresh(count, &rw, &ro, &mut bank), Ok(loaded));
        let mut table = Table::fresh(count, &rw, &ro).unwrap();
        for _ in 0..120 {
            let call = random_call(&mut random, count, &loaded);
            let answer = perform(count, &rw, &ro, &mut bank, call);
            assert_eq!(answer, table.perform(call), "{call:?} {count} {rw:02X?} {ro:02X?}");
            match answer {
                Answer::Yes => {
                    said_yes += 1;
                    applied += usize::from(matches!(call, Call::Apply { lanes, .. } if lanes != 0));
                }
                Answer::Number(_) => numbers += 1,
                Answer::Refused(refusal) => *seen.entry(refusal.number).or_default() += 1,
            }
        }
        assert!(bank[..784] == table.bank()[..], "{count} {rw:02X?} {ro:02X?}");
        assert_eq!(bank[784..], beyond);
    }
    // The lists are worth something: every refusal of 10 to 14 came up.
    for number in 10..=14 {
        assert!(seen.get(&number).copied().unwrap_or(0) > 100, "{number} {seen:?}");
    }
    assert!(applied > 1000 && said_yes > 20000 && numbers > 10000, "{applied} {said_yes} {numbers}");
}

/// On a bank of any content: a refusal changes nothing, an accepted call
/// changes named bits alone, and what it stored is what is read.
#[test]
fn other_bits_keep_their_content() {
    let mut random = Random(2);
    for _ in 0..600 {
        let (count, rw, ro, loaded) = random_map(&mut random);
        let size = 784 + random.below(40);
        let mut bank = random.bytes(size);
        for appsel in &mut bank[768..784] {
            if !random.chance(5) {
                *appsel = 1 + random.below(count) as u8;
            }
        }
        for _ in 0..40 {
            let call = random_call(&mut random, count, &loaded);
            let before = bank.clone();
            let answer = perform(count, &rw, &ro, &mut bank, call);
            let bit_of = |bytes: &[u8], at: usize| bytes[at / 8] >> (at % 8) & 1;
            // The bits that the call's line names.
            let named = |at: usize| -> bool {
                if matches!(answer, Answer::Refused(_)) || at >= 784 * 8 {
                    return false;
                }
                let (byte, bit) = (at / 8, at % 8);
                let of = |set: usize| match set == byte / 256 && byte < 768 {
                    true => owner_of(count, &rw, &ro, set, byte % 256, bit).ok()?.field,
                    false => None,
                };
                match call {
                    Call::Select { set, lane, .. } => byte == 768 + 8 * set + lane - 1,
                    Call::Write { set, entry, part, lane, .. } => of(set) == Some((entry, part, lane)),
                    Call::ByteWrite { set, offset, .. } => byte == 256 * set + offset,
                    Call::Publish { entry, part, lane, .. } => of(2) == Some((entry, part, lane)),
                    Call::Apply { lanes, .. } => of(2).is_some_and(|(entry, _, lane)| {
                        entry < loaded.rw_entries && lanes >> (lane - 1) & 1 == 1
                    }),
                    Call::Read { .. } | Call::ByteRead { .. } => false,
                }
            };
            for at in 0..bank.len() * 8 {
                if bit_of(&bank, at) != bit_of(&before, at) {
                    assert!(named(at), "{call:?} bit {at}");
                }
            }
            if let Answer::Refused(_) = answer {
                continue;
            }
            // What was stored is there.
            match call {
                Call::Write { set, entry, part, lane, value } => {
                    let read = Call::Read { set, entry, part, lane };
                    assert_eq!(perform(count, &rw, &ro, &mut bank, read), Answer::Number(value));
                }
                Call::Publish { entry, part, lane, value } => {
                    let read = Call::Read { set: 2, entry, part, lane };
                    assert_eq!(perform(count, &rw, &ro, &mut bank, read), Answer::Number(value));
                }
                Call::ByteWrite { set, offset, byte } => {
                    let stored = bank[256 * set + offset];
                    for bit in 0..8 {
                        let said = owner_of(count, &rw, &ro, set, offset, bit).unwrap();
                        let gap = said.field.is_none();
                        assert_eq!(stored >> bit & 1, if gap { 0 } else { byte >> bit & 1 });
                    }
                }
                Call::ByteRead { set, offset } => {
                    let mut shown = 0;
                    for bit in 0..8 {
                        if owner_of(count, &rw, &ro, set, offset, bit).unwrap().field.is_some() {
                            shown |= bank[256 * set + offset] & 1 << bit;
                        }
                    }
                    assert_eq!(answer, Answer::Number(shown.into()));
                }
                Call::Apply { set, lanes } => {
                    for (number, info) in entries(count, &rw, &ro).unwrap().iter().enumerate() {
                        for part in 0..2 {
                            for lane in 1..=8 {
                                let at = place_of(count, &rw, &ro, set, number, part, lane);
                                let Ok((byte, bit)) = at else {
                                    continue;
                                };
                                let app = before[768 + 8 * set + lane - 1];
                                let own = entry_bytes(count, &rw, &ro, number).unwrap();
                                let mask = if count > 8 { u16::from_be_bytes([own[2], own[3]]) } else { own[2].into() };
                                let chosen = lanes >> (lane - 1) & 1 == 1;
                                let copied = chosen && mask >> (app - 1) & 1 == 1;
                                let from = if copied { 256 * set } else { 512 };
                                let width = match info.id {
                                    2 | 5 | 6 | 0x0B | 0x0C => 1,
                                    3 => 2,
                                    4 | 7 | 8 | 0x0E => 4,
                                    _ => 8,
                                };
                                let bits = ((1u16 << width) - 1) as u8;
                                let was = before[from + byte] >> bit & bits;
                                assert_eq!(bank[512 + byte] >> bit & bits, was);
                            }
                        }
                    }
                }
                Call::Select { set, lane, app } => {
                    assert_eq!(usize::from(bank[768 + 8 * set + lane - 1]), app);
                }
                Call::Read { .. } => {}
            }
        }
    }
}

/// Place and owner are inverse, and owners lie as the paper's formula says.
#[test]
fn place_and_owner_agree() {
    let mut random = Random(3);
    for _ in 0..60 {
        let (count, rw, ro, loaded) = random_map(&mut random);
        let list = entries(count, &rw, &ro).unwrap();
        for set in 0..3 {
            let length = if set == 2 { loaded.active_length } else { loaded.staged_length };
            let mut owned = 0;
            for offset in 0..length {
                for bit in 0..8 {
                    let said = owner_of(count, &rw, &ro, set, offset, bit).unwrap();
                    if let Some((entry, part, lane)) = said.field {
                        let at = place(count, &rw, &ro, set, entry, part, lane).unwrap();
                        assert!(at.offset == offset && at.bit <= bit);
                        owned += 1;
                    }
                }
            }
            let mut fields = 0;
            for (number, info) in list.iter().enumerate() {
                if set < 2 && info.in_ro {
                    continue;
                }
                let (parts, w) = match info.id {
                    2 | 5 | 6 | 0x0B | 0x0C => (1, 1),
                    3 => (1, 2),
                    4 | 8 | 0x0E => (1, 4),
                    7 => (2, 4),
                    9 | 0x0A | 0x0D | 0x0F | 0x10 | 0x12 => (1, 8),
                    0x11 => (2, 8),
                    _ => (0, 0),
                };
                for part in 0..parts {
                    for lane in 1..=8 {
                        let b = (lane - 1) * w;
                        let wanted = (info.offset + part * w + b / 8, b % 8);
                        assert_eq!(place_of(count, &rw, &ro, set, number, part, lane), Ok(wanted));
                        fields += w;
                    }
                }
            }
            assert_eq!(owned, fields);
        }
    }
}

/// Any strings, any count, any bank, any numbers: nothing panics, a refusal
/// has the extras of its number, all calls give the same 1 to 9 and 16.
#[test]
fn anything_at_all() {
    let mut random = Random(4);
    let mut seen: HashMap<u32, usize> = HashMap::new();
    for _ in 0..30000 {
        let count = if random.chance(20) { random.next() as usize } else { random.below(17) };
        let mut strings: Vec<Vec<u8>> = Vec::new();
        for in_ro in [false, true] {
            strings.push(match random.below(8) {
                0 => {
                    let size = random.below(130);
                    random.bytes(size)
                }
                1 => vec![random.below(20) as u8; random.below(125)],
                _ => random_string(&mut random, count, in_ro),
            });
        }
        let (rw, ro) = (&strings[0], &strings[1]);
        let size = if random.chance(10) { random.below(800) } else { 784 };
        let mut bank = random.bytes(size);
        let before = bank.clone();
        let loaded = load(count, rw, ro);
        let known = loaded.unwrap_or(Loaded { rw_entries: 2, ro_entries: 2, staged_length: 9, active_length: 30 });
        let call = random_call(&mut random, count.clamp(1, 20), &known);
        let answer = perform(count, rw, ro, &mut bank, call);
        let early = match loaded {
            Err(refusal) if refusal.number == 9 => Some(refusal),
            _ if size < 784 => Some(caller(8)),
            Err(refusal) => Some(refusal),
            Ok(_) => None,
        };
        if let Some(refusal) = early {
            assert_eq!(answer, refused(refusal));
            assert_eq!(weight(count, rw, ro, &bank, random.below(9), random.below(9)), Err(refusal));
            assert_eq!(fresh(count, rw, ro, &mut bank), Err(refusal));
        }
        if let Err(refusal) = loaded {
            let n = random.next() as usize;
            assert_eq!(entries(count, rw, ro), Err(refusal));
            assert_eq!(place(count, rw, ro, n, n, n, n), Err(refusal));
            assert_eq!(owner_of(count, rw, ro, n, n, n), Err(refusal));
            assert_eq!(owner_at(count, rw, ro, n, (n, n), n), Err(refusal));
            assert_eq!(entry_bytes(count, rw, ro, n), Err(refusal));
            assert_eq!(Table::fresh(count, rw, ro).err(), Some(refusal));
        }
        if let Answer::Refused(refusal) = answer {
            assert_eq!(bank, before);
            assert_eq!(refusal.entry.is_some(), matches!(refusal.number, 1..=7 | 16));
            assert_eq!(refusal.lane.is_some(), matches!(refusal.number, 13 | 14));
            *seen.entry(refusal.number).or_default() += 1;
        }
        let position = if random.chance(9) { random.next() as usize } else { random.below(130) };
        let (step, after) = reader_step(count, rw, position);
        assert_eq!(after != position, matches!(step, Step::Entry { .. }));
        let input: Vec<u8> = [&[count as u8, rw.len() as u8][..], rw, &[ro.len() as u8], ro].concat();
        let out = String::from_utf8(map_program(&input)).unwrap();
        if count < 256 {
            match loaded {
                Err(refusal) => assert_eq!(out, format!("refused {}\n", refusal.number)),
                Ok(l) => assert_eq!(out.lines().count(), 2 + l.rw_entries + l.ro_entries),
            }
        }
    }
    for number in (1..=14).chain([16]) {
        assert!(seen.contains_key(&number), "{number} {seen:?}");
    }
}
