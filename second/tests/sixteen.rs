//! Note 7, "Sixteen entries": refusal 16.

mod common;
use common::*;
use second::*;
use std::collections::HashMap;

/// The input of the map program.
fn input(count: usize, rw: &[u8], ro: &[u8]) -> Vec<u8> {
    [&[count as u8, rw.len() as u8][..], rw, &[ro.len() as u8], ro].concat()
}

/// Every call that reads the strings gives `refusal`, whatever its arguments,
/// and the bank keeps its content.
fn all_refuse(count: usize, rw: &[u8], ro: &[u8], refusal: Refusal) {
    assert_eq!(load(count, rw, ro), Err(refusal));
    assert_eq!(entries(count, rw, ro), Err(refusal));
    assert_eq!(Table::fresh(count, rw, ro).err(), Some(refusal));
    let printed = format!("refused {}\n", refusal.number);
    assert_eq!(map_program(&input(count, rw, ro)), printed.as_bytes());
    let mut bank = vec![0x5A; 790];
    assert_eq!(fresh(count, rw, ro, &mut bank), Err(refusal));
    for n in [0, 1, 2, 9, 15, 16, 17, 40, usize::MAX] {
        assert_eq!(place(count, rw, ro, n, n, n, n), Err(refusal));
        assert_eq!(owner_of(count, rw, ro, n, n, n), Err(refusal));
        assert_eq!(owner_at(count, rw, ro, n, (n, n), n), Err(refusal));
        assert_eq!(entry_bytes(count, rw, ro, n), Err(refusal));
        assert_eq!(weight(count, rw, ro, &bank, n, n), Err(refusal));
        let value = n as i64;
        for call in [
            Call::Select { set: n, lane: n, app: n },
            Call::Write { set: n, entry: n, part: n, lane: n, value },
            Call::Read { set: n, entry: n, part: n, lane: n },
            Call::ByteWrite { set: n, offset: n, byte: 0xFF },
            Call::ByteRead { set: n, offset: n },
            Call::Publish { entry: n, part: n, lane: n, value },
            Call::Apply { set: n, lanes: n as u8 },
        ] {
            assert_eq!(perform(count, rw, ro, &mut bank, call), refused(refusal));
        }
    }
    assert_eq!(bank, [0x5A; 790]);
}

/// 0 to 18 entries and as many as 120 bytes hold, in either string and both.
#[test]
fn each_string_by_itself() {
    for (count, most) in [(1, 30), (8, 30), (9, 24), (15, 24)] {
        let sizes = [0, 1, 15, 16, 17, 18, most];
        for n in sizes {
            for m in sizes {
                let (rw, ro) = (space(count, n, false), space(count, m, true));
                if n > LIMIT {
                    all_refuse(count, &rw, &ro, maker(16, 16));
                } else if m > LIMIT {
                    all_refuse(count, &rw, &ro, maker(16, n + 16));
                } else {
                    let loaded =
                        Loaded { rw_entries: n, ro_entries: m, staged_length: n, active_length: n + m };
                    assert_eq!(load(count, &rw, &ro), Ok(loaded));
                    assert_eq!(entries(count, &rw, &ro).map(|list| list.len()), Ok(n + m));
                }
            }
        }
        assert_eq!(space(count, most, false).len(), 120);
    }
}

/// An entry number in the RO string counts on from the RW entries.
#[test]
fn entry_numbers() {
    for n in 0..=LIMIT {
        let rw = space(4, n, false);
        assert_eq!(load(4, &rw, &space(4, 17, true)), Err(maker(16, n + 16)));
        assert_eq!(load(4, &rw, &space(4, 30, true)), Err(maker(16, n + 16)));
        assert!(load(4, &rw, &space(4, 16, true)).is_ok());
    }
}

/// "given before the other checks of that entry": 16 against 1 to 7 of the
/// 17th entry, and 1 to 7 of an earlier entry against 16.
#[test]
fn against_1_to_7() {
    for fault in faults() {
        let said = |string: &[u8], number: u32, entry: usize| {
            if fault.in_ro {
                assert_eq!(load(4, &[], string), Err(maker(number, entry)));
                let rw = space(4, 16, false);
                assert_eq!(load(4, &rw, string), Err(maker(number, 16 + entry)));
            } else {
                for ro in [vec![], space(4, 30, true), vec![9]] {
                    assert_eq!(load(4, string, &ro), Err(maker(number, entry)));
                }
            }
        };
        for after in [0, 1, 4] {
            for at in 1..LIMIT {
                said(&with_fault(&fault, at, after), fault.number, at);
            }
            said(&with_fault(&fault, LIMIT, after), 16, 16);
            said(&with_fault(&fault, LIMIT + 1, after), 16, 16);
        }
        // 17 entries and more after the fault are not come to.
        if fault.bytes.len() + fault.before.len() + 17 * 4 <= 120 {
            said(&with_fault(&fault, 1, 17), fault.number, 1);
        }
        let string = with_fault(&fault, LIMIT, 0);
        match fault.in_ro {
            true => all_refuse(4, &[], &string, maker(16, 16)),
            false => all_refuse(4, &string, &[], maker(16, 16)),
        }
    }
}

/// "The first entry that fails any check ends the load": a fault of the RW
/// string stands before a 17th RO entry, a 17th RW entry before every RO fault.
#[test]
fn over_both_strings() {
    let (rw17, ro17) = (space(4, 17, false), space(4, 17, true));
    for fault in faults() {
        let string = with_fault(&fault, 2, 0);
        if fault.in_ro {
            assert_eq!(load(4, &rw17, &string), Err(maker(16, 16)));
            // The RO fault comes before the 17th RO entry.
            let string = with_fault(&fault, 2, 16);
            assert_eq!(load(4, &[], &string), Err(maker(fault.number, 2)));
        } else {
            assert_eq!(load(4, &string, &ro17), Err(maker(fault.number, 2)));
        }
    }
    assert_eq!(load(4, &rw17, &ro17), Err(maker(16, 16)));
}

/// Any byte left after 16 entries begins the 17th; none left is the end.
#[test]
fn bytes_after_sixteen() {
    for (count, a) in [(4, 1), (12, 2)] {
        let (rw, ro) = (space(count, 16, false), space(count, 16, true));
        assert!(load(count, &rw, &ro).is_ok());
        for stray in 0..=255u8 {
            for rest in [&[stray][..], &[stray, 0], &[stray, 1], &[stray, 2], &[stray, 255], &[stray; 3]] {
                let longer = [&rw[..], rest].concat();
                assert_eq!(load(count, &longer, &ro), Err(maker(16, 16)));
                let longer = [&ro[..], rest].concat();
                assert_eq!(load(count, &rw, &longer), Err(maker(16, 32)));
                assert_eq!(load(count, &[], &longer), Err(maker(16, 16)));
            }
            // With 15 entries it begins the 16th, and the old checks speak.
            let longer = [&space(count, 15, false)[..], &[stray]].concat();
            assert_eq!(load(count, &longer, &ro), Err(maker(1, 15)));
            let longer = [&space(count, 15, true)[..], &[stray, 0]].concat();
            assert_eq!(load(count, &rw, &longer), Err(maker(2, 31)));
        }
        all_refuse(count, &[&rw[..], &[0]].concat(), &ro, maker(16, 16));
        all_refuse(count, &rw, &[&ro[..], &[0]].concat(), maker(16, 32));
        // Skipped bytes of the 16th entry are no 17th.
        let mut longer = space(count, 15, false);
        longer.extend([0x00, 3 + a + 4]);
        longer.resize(longer.len() + usize::from(a) + 5, 0);
        assert_eq!(load(count, &longer, &[]).map(|l| l.rw_entries), Ok(16));
        longer.push(0);
        assert_eq!(load(count, &longer, &[]), Err(maker(16, 16)));
    }
}

/// 9, then 8, before 16; 10 to 14 after it.
#[test]
fn order_of_all_refusals() {
    let (rw, ro) = (space(4, 30, false), space(4, 30, true));
    let long = [&rw[..], &[0]].concat();
    let call = Call::Apply { set: 0, lanes: 0xFF };
    let mut bank = vec![7; 784];
    for count in [0, 16, 17, usize::MAX] {
        assert_eq!(load(count, &rw, &ro), Err(caller(9)));
        assert_eq!(perform(count, &rw, &ro, &mut bank[..9], call), refused(caller(9)));
    }
    for (rw, ro) in [(&long, &ro), (&rw, &long), (&long, &long)] {
        assert_eq!(load(4, rw, ro), Err(caller(9)));
        assert_eq!(fresh(4, rw, ro, &mut bank[..9]), Err(caller(9)));
        assert_eq!(map_program(&input(4, rw, ro)), b"refused 9\n");
    }
    for size in [0, 783] {
        let short = &mut bank[..size];
        assert_eq!(perform(4, &rw, &ro, short, call), refused(caller(8)));
        assert_eq!(fresh(4, &rw, &ro, short), Err(caller(8)));
        assert_eq!(weight(4, &rw, &ro, short, 99, 9), Err(caller(8)));
    }
    assert_eq!(bank, [7; 784]);
    // 10, 11, 12, 13 and 14 on 16 entries are 16 with one more.
    let mut rw = [entry(0x04, 1, 4, &[0, 0, 2]), space(4, 15, false)].concat();
    let mut bank = vec![0; 784];
    bank[768] = 1;
    for (call, refusal) in [
        (Call::Read { set: 0, entry: 16, part: 0, lane: 1 }, caller(10)),
        (Call::Select { set: 2, lane: 1, app: 1 }, caller(11)),
        (Call::Write { set: 0, entry: 0, part: 0, lane: 1, value: 0 }, caller(12)),
        (Call::Apply { set: 0, lanes: 3 }, plan(13, 2)),
        (Call::Apply { set: 0, lanes: 1 }, plan(14, 1)),
    ] {
        assert_eq!(perform(4, &rw, &[], &mut bank, call), refused(refusal));
        rw.push(0x77);
        assert_eq!(perform(4, &rw, &[], &mut bank, call), refused(maker(16, 16)));
        rw.pop();
    }
    all_refuse(4, &[&rw[..], &[0x77]].concat(), &[], maker(16, 16));
}

/// The reader "makes the checks 9, 1 and 2 alone": it goes on past 16 entries.
#[test]
fn reader_past_sixteen() {
    for (count, most, length) in [(4, 30, 4), (12, 24, 5)] {
        let string = space(count, most, false);
        let mut reader = Reader { string: &string, position: 0 };
        for n in 0..most {
            assert_eq!(reader.step(count), Step::Entry { start: n * length, length });
        }
        assert_eq!(reader.step(count), Step::End);
        assert_eq!(reader.position, 120);
    }
    let sixteen = space(4, 16, true);
    assert_eq!(reader_step(4, &sixteen, 64), (Step::End, 64));
    assert_eq!(reader_step(4, &[&sixteen[..], &[0]].concat(), 64), (Step::Refused(1), 64));
    assert_eq!(reader_step(4, &[&sixteen[..], &[0, 5, 0, 0]].concat(), 64), (Step::Refused(1), 64));
    assert_eq!(reader_step(4, &[&sixteen[..], &[0, 0]].concat(), 64), (Step::Refused(2), 64));
    for fault in faults() {
        let string = with_fault(&fault, LIMIT, 0);
        let start = string.len() - fault.bytes.len();
        let length = fault.bytes.len();
        let said = match fault.number {
            1 | 2 => (Step::Refused(fault.number), start),
            _ => (Step::Entry { start, length }, start + length),
        };
        assert_eq!(reader_step(4, &string, start), said);
    }
}

/// 32 lines of entries, or `refused 16` as the only line.
#[test]
fn program() {
    let (rw, ro) = (space(4, 16, false), space(4, 16, true));
    let mut wanted = String::from("entry id offset length\n");
    for n in 0..32 {
        let id = [[0, 0x13, 1], [0, 0x13, 0xFF]][n / 16][n % 16 % 3];
        wanted += &format!("{n} {id} {n} 1\n");
    }
    wanted += "end 16 32\n";
    assert_eq!(String::from_utf8(map_program(&input(4, &rw, &ro))).unwrap(), wanted);
    let (rw17, ro17) = (space(4, 17, false), space(4, 17, true));
    for (rw, ro) in [(&rw17, &ro), (&rw, &ro17), (&rw17, &ro17)] {
        let mut input = input(4, rw, ro);
        assert_eq!(map_program(&input), b"refused 16\n");
        // Short or long stays 9.
        assert_eq!(map_program(&input[..input.len() - 1]), b"refused 9\n");
        input.push(0);
        assert_eq!(map_program(&input), b"refused 9\n");
    }
}

/// The calls on 16 entries in each string, the last of each with fields.
#[test]
fn calls_on_a_full_map() {
    let rw = [space(4, 15, false), entry(0x07, 1, 8, &[0, 0, 0xFF, 0xFF])].concat();
    let ro = [space(4, 15, true), entry(0x12, 1, 8, &[0, 0, 3])].concat();
    let mut pair = Pair::fresh(4, &rw, &ro);
    assert_eq!(place_of(4, &rw, &ro, 1, 15, 1, 8), Ok((15 + 7, 4)));
    assert_eq!(place_of(4, &rw, &ro, 2, 31, 0, 8), Ok((23 + 15 + 7, 0)));
    assert_eq!(owner_of(4, &rw, &ro, 2, 45, 7), Ok(owned((31, 0, 8), 32)));
    assert_eq!(entry_bytes(4, &rw, &ro, 15), Ok(&rw[60..]));
    assert_eq!(entry_bytes(4, &rw, &ro, 31), Ok(&ro[60..]));
    assert_eq!(entry_bytes(4, &rw, &ro, 32), Err(caller(10)));
    assert_eq!(pair.write(1, 15, 1, 8, 13), Answer::Yes);
    assert_eq!(pair.select(1, 8, 1), Answer::Yes);
    assert_eq!(pair.apply(1, 0x80), Answer::Yes);
    assert_eq!(pair.read(2, 15, 1, 8), Answer::Number(13));
    assert_eq!(pair.publish(31, 0, 8, -3), Answer::Yes);
    assert_eq!(pair.weight(31, 8), Ok(-120));
    assert_eq!(pair.byte_read(2, 45), Answer::Number(0xFD));
    assert_eq!(pair.read(2, 32, 0, 1), refused(caller(10)));
}

// ---------------------------------------------------------------------------
// A walk without the limit
// ---------------------------------------------------------------------------

/// What a walk without the limit finds in two strings that pass 9.
struct Unlimited {
    /// The entries begun in each string, a faulty one too.
    begun: [usize; 2],
    entries: Vec<EntryInfo>,
    /// 1 to 7, of the entry after the last of `entries`.
    fault: Option<u32>,
}

fn unlimited(count: usize, rw: &[u8], ro: &[u8]) -> Unlimited {
    let a = 1 + usize::from(count > 8);
    let mut found = Unlimited { begun: [0; 2], entries: Vec::new(), fault: None };
    let (mut offset, mut after_media) = (0, false);
    for (in_ro, string) in [(false, rw), (true, ro)] {
        let mut start = 0;
        while start < string.len() {
            found.begun[usize::from(in_ro)] += 1;
            let own = &string[start..];
            if own.len() == 1 || usize::from(own[1]) > own.len() {
                found.fault = Some(1);
                return found;
            }
            let (id, length) = (own[0], usize::from(own[1]));
            let (least, needed, parts, _) = columns(id);
            if length < least + a {
                found.fault = Some(2);
                return found;
            }
            let memory = usize::from(own[2 + a]);
            let media = parts > 0 && own[3 + a] % 2 == 1;
            let step_bad = match id {
                0x09 | 0x0A => !(1..=4).contains(&own[7 + a]),
                0x0D => own[7 + a] > 3,
                0x12 => own[5 + a] > 3,
                _ => false,
            };
            let wrong_string = match in_ro {
                false => matches!(id, 0x11 | 0x12),
                true => matches!(id, 0x01..=0x10),
            };
            let conditions = [
                (3, wrong_string),
                (4, memory < needed),
                (5, step_bad),
                (6, matches!(id, 0x02..=0x08) && !media && after_media),
                (7, offset + memory > 256),
            ];
            found.fault = conditions.iter().find(|(_, holds)| *holds).map(|(number, _)| *number);
            if found.fault.is_some() {
                return found;
            }
            found.entries.push(EntryInfo { id, start, length, offset, memory, in_ro });
            after_media |= media && !in_ro;
            offset += memory;
            start += length;
        }
    }
    found
}

/// "Whoever lends two strings of at most 16 entries each sees the same answers
/// as before"; a 17th entry that the walk comes to is 16.
#[test]
fn as_an_unlimited_walk() {
    let mut random = Random(7);
    let mut seen: HashMap<(u32, bool), usize> = HashMap::new();
    let (mut full, mut past) = (0, 0);
    for _ in 0..60000 {
        let count = 1 + random.below(15);
        let rw = about_sixteen(&mut random, count, false);
        let ro = about_sixteen(&mut random, count, true);
        let found = unlimited(count, &rw, &ro);
        let [n, m] = found.begun;
        let said = if n > LIMIT {
            Err(maker(16, LIMIT))
        } else if m > LIMIT {
            Err(maker(16, n + LIMIT))
        } else if let Some(number) = found.fault {
            Err(maker(number, found.entries.len()))
        } else {
            Ok(found.entries.clone())
        };
        assert_eq!(entries(count, &rw, &ro), said, "{count} {rw:02X?} {ro:02X?}");
        match said {
            Err(refusal) => {
                let in_ro = n <= LIMIT && m > 0;
                *seen.entry((refusal.number, in_ro)).or_default() += 1;
                past += usize::from(refusal.number == 16 && found.fault.is_some());
                assert_eq!(load(count, &rw, &ro), Err(refusal));
            }
            Ok(list) => {
                full += usize::from(n == LIMIT && m == LIMIT);
                let sum = |in_rw: bool| -> usize {
                    list.iter().filter(|e| !in_rw || !e.in_ro).map(|e| e.memory).sum()
                };
                let loaded =
                    Loaded { rw_entries: n, ro_entries: m, staged_length: sum(true), active_length: sum(false) };
                assert_eq!(load(count, &rw, &ro), Ok(loaded));
            }
        }
    }
    // The strings are worth something: each of 1 to 7 and 16 came up in both
    // (6 in RW alone), and accepted maps of 16 and 16 entries.
    for (number, in_ro) in (1..=7).chain([16]).flat_map(|n| [(n, false), (n, true)]) {
        let times = seen.get(&(number, in_ro)).copied().unwrap_or(0);
        assert!(times > 10 || (number, in_ro) == (6, true), "{number} {in_ro} {seen:?}");
    }
    assert!(full > 500 && past > 500, "{full} {past}");
}

/// Place, owner, the entry call and lists of calls on accepted maps of that
/// size: as the unlimited walk has the entries, and the table as the bank.
#[test]
fn calls_as_an_unlimited_walk() {
    let mut random = Random(8);
    let mut maps = 0;
    while maps < 250 {
        let count = 1 + random.below(15);
        let rw = about_sixteen(&mut random, count, false);
        let ro = about_sixteen(&mut random, count, true);
        let found = unlimited(count, &rw, &ro);
        if found.fault.is_some() || found.begun.iter().any(|&n| !(12..=LIMIT).contains(&n)) {
            continue;
        }
        maps += 1;
        let loaded = load(count, &rw, &ro).unwrap();
        for (number, info) in found.entries.iter().enumerate() {
            let string = if info.in_ro { &ro } else { &rw };
            let own = &string[info.start..info.start + info.length];
            assert_eq!(entry_bytes(count, &rw, &ro, number), Ok(own));
            let (_, _, parts, w) = columns(info.id);
            for part in 0..parts {
                let lane = 1 + random.below(8);
                let b = (lane - 1) * w;
                let at = (info.offset + part * w + b / 8, b % 8);
                assert_eq!(place_of(count, &rw, &ro, 2, number, part, lane), Ok(at));
                let said = owned((number, part, lane), number + 1);
                assert_eq!(owner_of(count, &rw, &ro, 2, at.0, at.1), Ok(said));
            }
        }
        let mut pair = Pair::fresh(count, &rw, &ro);
        for _ in 0..60 {
            pair.call(random_call(&mut random, count, &loaded));
        }
    }
}
