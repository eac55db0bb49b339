#![allow(dead_code)]
//! Helpers of the tests: entries by their parts, refusals, a random source.

use second::*;

/// The bytes of an entry of a count 1 to 8 (A = 1): mask, MemoryLength, then
/// flags and extras as `rest`.
pub fn entry(id: u8, mask: u8, memory: u8, rest: &[u8]) -> Vec<u8> {
    let mut bytes = vec![id, 4 + rest.len() as u8, mask, memory];
    bytes.extend_from_slice(rest);
    bytes
}

/// The same of a count 9 to 15 (A = 2), mask high byte first.
pub fn entry2(id: u8, mask: u16, memory: u8, rest: &[u8]) -> Vec<u8> {
    let mut bytes = vec![id, 5 + rest.len() as u8, (mask >> 8) as u8, mask as u8, memory];
    bytes.extend_from_slice(rest);
    bytes
}

/// 00h of a count 1 to 8 that reserves `memory` bytes.
pub fn reserved(memory: u8) -> Vec<u8> {
    entry(0x00, 0, memory, &[])
}

pub fn caller(number: u32) -> Refusal {
    Refusal { number, entry: None, lane: None }
}

pub fn maker(number: u32, entry: usize) -> Refusal {
    Refusal { number, entry: Some(entry), lane: None }
}

pub fn plan(number: u32, lane: usize) -> Refusal {
    Refusal { number, entry: None, lane: Some(lane) }
}

pub fn refused(refusal: Refusal) -> Answer {
    Answer::Refused(refusal)
}

/// Place's offset and lowest bit.
pub fn place_of(
    count: usize,
    rw: &[u8],
    ro: &[u8],
    set: usize,
    entry: usize,
    part: usize,
    lane: usize,
) -> Result<(usize, usize), Refusal> {
    place(count, rw, ro, set, entry, part, lane).map(|at| (at.offset, at.bit))
}

/// Owner at an offset.
pub fn owner_of(
    count: usize,
    rw: &[u8],
    ro: &[u8],
    set: usize,
    offset: usize,
    bit: usize,
) -> Result<Owned, Refusal> {
    owner(count, rw, ro, set, Byte::Offset(offset), bit)
}

/// Owner at an address, page and byte.
pub fn owner_at(
    count: usize,
    rw: &[u8],
    ro: &[u8],
    set: usize,
    (page, byte): (usize, usize),
    bit: usize,
) -> Result<Owned, Refusal> {
    owner(count, rw, ro, set, Byte::Address { page, byte }, bit)
}

/// Owner's answer for a bit of a field (entry, part, lane).
pub fn owned(field: (usize, usize, usize), looked_at: usize) -> Owned {
    Owned { field: Some(field), looked_at }
}

/// Owner's answer for a gap.
pub fn gap(looked_at: usize) -> Owned {
    Owned { field: None, looked_at }
}

/// A module under test: the same calls to the packed bank and to the table,
/// which must answer alike and show the same bank after each call.
pub struct Pair {
    pub count: usize,
    pub rw: Vec<u8>,
    pub ro: Vec<u8>,
    pub bank: Vec<u8>,
    pub table: Table,
}

impl Pair {
    pub fn fresh(count: usize, rw: &[u8], ro: &[u8]) -> Pair {
        let mut bank = vec![0xA5; 784];
        fresh(count, rw, ro, &mut bank).unwrap();
        let table = Table::fresh(count, rw, ro).unwrap();
        Pair { count, rw: rw.to_vec(), ro: ro.to_vec(), bank, table }
    }

    pub fn call(&mut self, call: Call) -> Answer {
        let answer = perform(self.count, &self.rw, &self.ro, &mut self.bank, call);
        assert_eq!(answer, self.table.perform(call), "{call:?}");
        assert!(self.bank[..] == self.table.bank()[..], "{call:?}");
        answer
    }

    pub fn select(&mut self, set: usize, lane: usize, app: usize) -> Answer {
        self.call(Call::Select { set, lane, app })
    }

    pub fn write(&mut self, set: usize, entry: usize, part: usize, lane: usize, value: i64) -> Answer {
        self.call(Call::Write { set, entry, part, lane, value })
    }

    pub fn read(&mut self, set: usize, entry: usize, part: usize, lane: usize) -> Answer {
        self.call(Call::Read { set, entry, part, lane })
    }

    pub fn byte_write(&mut self, set: usize, offset: usize, byte: u8) -> Answer {
        self.call(Call::ByteWrite { set, offset, byte })
    }

    pub fn byte_read(&mut self, set: usize, offset: usize) -> Answer {
        self.call(Call::ByteRead { set, offset })
    }

    pub fn publish(&mut self, entry: usize, part: usize, lane: usize, value: i64) -> Answer {
        self.call(Call::Publish { entry, part, lane, value })
    }

    pub fn apply(&mut self, set: usize, lanes: u8) -> Answer {
        self.call(Call::Apply { set, lanes })
    }

    pub fn weight(&self, entry: usize, lane: usize) -> Result<i64, Refusal> {
        weight(self.count, &self.rw, &self.ro, &self.bank, entry, lane)
    }
}

/// A random source (splitmix64).
pub struct Random(pub u64);

impl Random {
    pub fn next(&mut self) -> u64 {
        self.0 = self.0.wrapping_add(0x9E37_79B9_7F4A_7C15);
        let mut z = self.0;
        z = (z ^ (z >> 30)).wrapping_mul(0xBF58_476D_1CE4_E5B9);
        z = (z ^ (z >> 27)).wrapping_mul(0x94D0_49BB_1331_11EB);
        z ^ (z >> 31)
    }

    /// A number below `n`.
    pub fn below(&mut self, n: usize) -> usize {
        (self.next() % n as u64) as usize
    }

    pub fn byte(&mut self) -> u8 {
        self.next() as u8
    }

    pub fn chance(&mut self, one_in: usize) -> bool {
        self.below(one_in) == 0
    }

    pub fn pick<T: Copy>(&mut self, list: &[T]) -> T {
        list[self.below(list.len())]
    }

    pub fn bytes(&mut self, n: usize) -> Vec<u8> {
        (0..n).map(|_| self.byte()).collect()
    }
}

/// An entry that is mostly good for its string, by the paper's table with the
/// lines of note 1.
pub fn random_entry(random: &mut Random, count: usize, in_ro: bool) -> Vec<u8> {
    let rw_ids = [
        0x02, 0x03, 0x04, 0x05, 0x06, 0x07, 0x08, 0x09, 0x0A, 0x0B, 0x0C, 0x0D, 0x0E, 0x0F, 0x10,
        0x00, 0x01, 0x77,
    ];
    let ro_ids = [0x11, 0x12, 0x11, 0x12, 0x00, 0x13, 0xFF];
    let id: u8 = if random.chance(60) {
        random.byte()
    } else if in_ro {
        random.pick(&ro_ids)
    } else {
        random.pick(&rw_ids)
    };
    let (needed, extras): (u8, usize) = match id {
        0x02 | 0x05 | 0x06 | 0x0B | 0x0C => (1, 0),
        0x03 => (2, 0),
        0x04 | 0x08 | 0x0E => (4, 2),
        0x07 => (8, 3),
        0x09 | 0x0A | 0x0D => (8, 4),
        0x0F | 0x10 => (8, 0),
        0x11 => (16, 0),
        0x12 => (8, 2),
        _ => (0, 0),
    };
    let table = matches!(id, 0x02..=0x12);
    let memory = match random.below(12) {
        0 => random.byte(),
        1..=3 => needed + random.below(4) as u8,
        _ if !table => random.below(6) as u8,
        _ => needed,
    };
    let mut bytes = vec![id, 0];
    bytes.extend((0..if count <= 8 { 1 } else { 2 }).map(|_| random.byte() | random.byte()));
    bytes.push(memory);
    if table {
        // Mostly host side first, as 6 asks.
        let one_in = match id {
            0x0F.. => 1,
            0x09.. => 6,
            _ => 15,
        };
        let side = if random.chance(one_in) { random.byte() & 1 } else { 0 };
        bytes.push(random.byte() & 0xFE | side);
        bytes.extend((0..extras).map(|_| random.byte() | random.byte()));
        if matches!(id, 0x09 | 0x0A | 0x0D) && !random.chance(8) {
            // Mostly a range with 0 in it: Min, then Max; in 0Dh the other way.
            let at = bytes.len() - 3;
            let range = [0x80 | random.byte(), 0x7F & random.byte()];
            bytes[at] = range[usize::from(id == 0x0D)];
            bytes[at + 1] = range[usize::from(id != 0x0D)];
        }
        if matches!(id, 0x09 | 0x0A | 0x0D | 0x12) && !random.chance(30) {
            let lowest = u8::from(id < 0x0D);
            *bytes.last_mut().unwrap() = lowest + random.below(4) as u8;
        }
    }
    bytes.extend((0..random.pick(&[0, 0, 0, 1, 3])).map(|_| 0xEE));
    bytes[1] = bytes.len() as u8;
    if random.chance(80) {
        bytes[1] = random.byte();
    }
    bytes
}

/// A string of such entries, at most 120 bytes.
pub fn random_string(random: &mut Random, count: usize, in_ro: bool) -> Vec<u8> {
    let wanted = random.below(if in_ro { 5 } else { 9 });
    let mut string = Vec::new();
    for _ in 0..wanted {
        let next = random_entry(random, count, in_ro);
        if string.len() + next.len() <= 120 {
            string.extend(next);
        }
    }
    string
}

/// A random map that is accepted.
pub fn random_map(random: &mut Random) -> (usize, Vec<u8>, Vec<u8>, Loaded) {
    loop {
        let count = 1 + random.below(15);
        let rw = random_string(random, count, false);
        let ro = random_string(random, count, true);
        if let Ok(loaded) = load(count, &rw, &ro) {
            return (count, rw, ro, loaded);
        }
    }
}

/// A random call, mostly inside the map, sometimes far out.
pub fn random_call(random: &mut Random, count: usize, loaded: &Loaded) -> Call {
    let huge = [usize::MAX, usize::MAX / 8, 1 << 32, 256, 2048];
    let number = |random: &mut Random, from: usize, below: usize| match random.below(40) {
        0 => random.pick(&huge),
        1 => below,
        2 => from.wrapping_sub(1),
        _ => from + random.below((below - from).max(1)),
    };
    let set = if random.chance(12) { number(random, 0, 3) } else { random.below(2) };
    let any_set = number(random, 0, 3);
    let entry = number(random, 0, loaded.rw_entries + loaded.ro_entries);
    let rw_entry = if random.chance(10) { entry } else { random.below(loaded.rw_entries.max(1)) };
    let ro_entry = if random.chance(10) {
        entry
    } else {
        loaded.rw_entries + random.below(loaded.ro_entries.max(1))
    };
    let part = if random.chance(4) { number(random, 0, 2) } else { 0 };
    let lane = number(random, 1, 9);
    let value = match random.below(10) {
        0 => random.pick(&[i64::MIN, i64::MAX, -1, 256, -129, 128, -128, 127, 16]),
        1 => random.below(256) as i64,
        2 => -(random.below(130) as i64),
        _ => random.below(16) as i64,
    };
    let offset = number(random, 0, if any_set == 2 { loaded.active_length } else { loaded.staged_length });
    match random.below(10) {
        0 | 1 => Call::Select { set, lane, app: if random.chance(12) { number(random, 0, count + 1) } else { 1 + random.below(count) } },
        2 | 3 => Call::Write { set, entry: rw_entry, part, lane, value },
        4 => Call::Read { set: any_set, entry, part, lane },
        5 => Call::ByteWrite { set, offset, byte: if random.chance(3) { random.byte() } else { random.byte() & 0x33 } },
        6 => Call::ByteRead { set: any_set, offset },
        7 => Call::Publish { entry: ro_entry, part, lane, value },
        _ => Call::Apply { set, lanes: if random.chance(4) { random.byte() } else { 1 << random.below(8) } },
    }
}

/// The limit of note 7 for each string.
pub const LIMIT: usize = 16;

/// `n` entries of least Length, 00h and opaque ones, MemoryLength 1; 01h stands
/// in the RW string alone.
pub fn space(count: usize, n: usize, in_ro: bool) -> Vec<u8> {
    let ids = [0x00, 0x13, if in_ro { 0xFF } else { 0x01 }];
    let one = |k: usize| match count {
        1..=8 => entry(ids[k % 3], 1, 1, &[]),
        _ => entry2(ids[k % 3], 1, 1, &[]),
    };
    (0..n).flat_map(one).collect()
}

/// A fault as the entry after `before`, in a string of its own side.
pub struct Fault {
    pub number: u32,
    pub in_ro: bool,
    /// An entry that makes the fault possible; empty: space as any other.
    pub before: Vec<u8>,
    pub bytes: Vec<u8>,
}

/// Each of 1 to 7 in either string; no 6 in the RO string.
pub fn faults() -> Vec<Fault> {
    let mut list = Vec::new();
    let mut fault = |number: u32, in_ro: bool, before: &[u8], bytes: Vec<u8>| {
        list.push(Fault { number, in_ro, before: before.to_vec(), bytes });
    };
    for in_ro in [false, true] {
        fault(1, in_ro, &[], vec![0x00, 255, 1, 1]);
        fault(1, in_ro, &[], vec![0x13, 121]);
        fault(2, in_ro, &[], vec![0x00, 0]);
        fault(2, in_ro, &[], vec![0xFF, 1]);
        fault(2, in_ro, &[], vec![0x12, 6, 1, 8, 0, 0]);
        fault(7, in_ro, &entry(0x00, 1, 200, &[]), entry(0x13, 1, 255, &[]));
    }
    fault(3, false, &[], entry(0x11, 1, 16, &[0]));
    fault(3, true, &[], entry(0x02, 1, 1, &[0]));
    fault(4, false, &[], entry(0x0F, 1, 7, &[0]));
    fault(4, true, &[], entry(0x11, 1, 15, &[0]));
    fault(5, false, &[], entry(0x09, 1, 8, &[0, 0, 0, 0, 0]));
    fault(5, true, &[], entry(0x12, 1, 8, &[0, 0, 4]));
    fault(6, false, &entry(0x10, 1, 8, &[1]), entry(0x02, 1, 1, &[0]));
    list
}

/// A string of `at` entries, the fault's own `before` first, then the fault,
/// then `after` entries.
pub fn with_fault(fault: &Fault, at: usize, after: usize) -> Vec<u8> {
    let leading = match fault.before.is_empty() {
        true => space(4, at, fault.in_ro),
        false => [fault.before.clone(), space(4, at - 1, fault.in_ro)].concat(),
    };
    [leading, fault.bytes.clone(), space(4, after, fault.in_ro)].concat()
}

/// The table's columns of an ID: least Length without A, bytes needed, parts
/// and width; opaque IDs have no parts.
pub fn columns(id: u8) -> (usize, usize, usize, usize) {
    match id {
        0x02 | 0x05 | 0x06 | 0x0B | 0x0C => (4, 1, 1, 1),
        0x03 => (4, 2, 1, 2),
        0x04 | 0x08 | 0x0E => (6, 4, 1, 4),
        0x07 => (7, 8, 2, 4),
        0x09 | 0x0A | 0x0D => (8, 8, 1, 8),
        0x0F | 0x10 => (4, 8, 1, 8),
        0x11 => (4, 16, 2, 8),
        0x12 => (6, 8, 1, 8),
        _ => (3, 0, 0, 0),
    }
}

/// About 16 short entries, mostly good, sometimes with bytes after them.
pub fn about_sixteen(random: &mut Random, count: usize, in_ro: bool) -> Vec<u8> {
    let a = 1 + usize::from(count > 8);
    let wanted = match random.below(4) {
        0 => random.below(31),
        1 => LIMIT,
        _ => 13 + random.below(7),
    };
    let mut string = Vec::new();
    for _ in 0..wanted {
        let next = if random.chance(40) {
            let other_string = random.chance(4);
            random_entry(random, count, in_ro != other_string)
        } else {
            let id = match (in_ro, random.below(3)) {
                (false, 0) => random.pick(&[0x00, 0x01, 0x13, 0xFF]),
                (false, _) => random.pick(&[0x02, 0x03, 0x05, 0x06, 0x0B, 0x0C]),
                (true, 0) if random.chance(4) => random.pick(&[0x11, 0x12]),
                (true, _) => random.pick(&[0x00, 0x13, 0xFE]),
            };
            let (least, needed, ..) = columns(id);
            let mut bytes = vec![0; least + a + usize::from(random.chance(12))];
            bytes[0] = id;
            bytes[1] = bytes.len() as u8;
            bytes[1 + a] = random.byte();
            bytes[2 + a] = (needed + random.below(2)) as u8;
            bytes
        };
        if string.len() + next.len() <= 120 {
            string.extend(next);
        }
    }
    if random.chance(4) {
        let size = random.below(4).min(120 - string.len());
        string.extend(random.bytes(size));
    }
    string
}
