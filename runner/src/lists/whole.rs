//! Calls on a bank with every value of an argument: bytes, weights, codes, numbers, and the lanes and faults of an apply.

use second::Call::{Apply, ByteRead, ByteWrite, Publish, Read, Select, Write};

use super::aim::Aim;
use crate::calls::bank::{self, Bank, Call};
use crate::case::Case;
use crate::engine;
use crate::fixed;
use crate::report::Report;
use crate::shape::{mask_bytes, parts};
use crate::strings::RW;

pub fn compare(report: &mut Report) {
    compare_bytes(report);
    compare_values(report);
    compare_codes(report);
    compare_numbers(report);
    compare_lanes(report);
}

/// Compares byte write and byte read for every byte value at every offset of both staged sets, byte read of the active set
/// as well, and weight for every number, step and lane.
fn compare_bytes(report: &mut Report) {
    let [rw, ro] = fixed::WHOLE.map(fixed::hex);
    let case = Case { count: 4, rw: &rw, ro: &ro };
    let aim = Aim::new(&case);
    let bank = &mut Bank::ones();
    for byte in 0..=0xFF {
        for set in 0..2 {
            for offset in 0..aim.loaded.staged_length {
                bank::compare(report, &case, bank, Call::Listed(ByteWrite { set, offset, byte }));
                bank::compare(report, &case, bank, Call::Listed(ByteRead { set, offset }));
            }
        }
        for &entry in &aim.weights {
            for lane in 1..=8 {
                let value = i64::from(byte as i8);
                bank::compare(report, &case, bank, Call::Listed(Publish { entry, part: 0, lane, value }));
                bank::compare(report, &case, bank, Call::Weight { entry, lane });
            }
        }
        for offset in 0..aim.loaded.active_length {
            bank::compare(report, &case, bank, Call::Listed(ByteRead { set: 2, offset }));
        }
    }
}

/// Compares write for values past both ends of 8 bits, of every ID of the RW table.
fn compare_values(report: &mut Report) {
    let [rw, ro] = fixed::WHOLE.map(fixed::hex);
    let case = Case { count: 4, rw: &rw, ro: &ro };
    let aim = Aim::new(&case);
    let bank = &mut Bank::ones();
    for value in -130..=260 {
        for (&entry, lane) in aim.fields[RW].iter().zip((1..=8).cycle()) {
            for part in 0..parts(aim.ids[entry]) {
                bank::compare(report, &case, bank, Call::Listed(Write { set: lane % 2, entry, part, lane, value }));
            }
        }
    }
}

/// Compares write for every value from -1 to 16, of the IDs with a code mask, for every mask of one bit, of none and of all.
fn compare_codes(report: &mut Report) {
    let bank = &mut Bank::ones();
    for mask in (0..16).map(|bit| 1u16 << bit).chain([0, 0xFFFF]) {
        let [high, low] = mask.to_be_bytes();
        let one_part = |id| [id, 7, 15, 4, 0, high, low];
        let rw = [&one_part(0x04)[..], &[0x07, 8, 15, 8, 0, 0, high, low], &one_part(0x08), &one_part(0x0E)].concat();
        let case = Case { count: 4, rw: &rw, ro: &[] };
        for entry in 0..4 {
            for part in 0..2 {
                for value in -1..=16 {
                    let lane = 1 + (value & 7) as usize;
                    let call = Write { set: entry % 2, entry, part, lane, value };
                    bank::compare(report, &case, bank, Call::Listed(call));
                }
            }
        }
    }
}

/// Min and Max: whole, all but the ends, across 0, from 0 on, of one number, without 0, and Min above Max.
#[rustfmt::skip]
const RANGES: [[i8; 2]; 12] = [
    [-128, 127], [-127, 126], [-8, 6], [0, 60], [0, 0], [-128, -128], [127, 127], [-30, -3], [50, 100],
    [6, -8], [1, 0], [127, -128],
];

/// Compares calls on a field of 09h, 0Ah and 0Dh for each of these ranges.
fn compare_numbers(report: &mut Report) {
    for id in [0x09, 0x0A, 0x0D] {
        for (number, range) in RANGES.into_iter().enumerate() {
            let [min, max] = range.map(|end| end as u8);
            let [first, second] = if id == 0x0D { [max, min] } else { [min, max] };
            for (set, count) in [(0, 4), (1, 9)] {
                let rw = entry(count, id, 0xFFFF, &[8, 0, 0xFF, first, second, 2]);
                compare_field(report, &Case { count, rw: &rw, ro: &[] }, set, 1 + number % 8);
            }
        }
    }
}

/// Compares write for values past both ends of 8 bits, and every byte with its apply; each with what is then read.
fn compare_field(report: &mut Report, case: &Case, set: usize, lane: usize) {
    let (bank, offset) = (&mut Bank::ones(), lane - 1);
    let mut said_yes = |call| bank::compare(report, case, bank, call).is_some_and(|agreed| agreed.refusal == 0);
    said_yes(Call::Fresh);
    said_yes(Call::Listed(Select { set, lane, app: 1 }));
    for value in -130..=260 {
        if said_yes(Call::Listed(Write { set, entry: 0, part: 0, lane, value })) {
            said_yes(Call::Listed(Read { set, entry: 0, part: 0, lane }));
            said_yes(Call::Listed(ByteRead { set, offset }));
        }
    }
    for byte in 0..=0xFF {
        said_yes(Call::Listed(ByteWrite { set, offset, byte }));
        said_yes(Call::Listed(Read { set, entry: 0, part: 0, lane }));
        said_yes(Call::Listed(Apply { set, lanes: 1 << offset }));
        said_yes(Call::Listed(Read { set: 2, entry: 0, part: 0, lane }));
    }
}

/// RW entries of every ID and a gap: ID, application mask, then the bytes from MemoryLength on. 03h, 0Dh and the 16th, 0Eh,
/// are for every AppSel.
const ENTRIES: [(u8, u16, &[u8]); 16] = [
    (0x02, 0x0F0F, &[1, 0]),
    (0x03, 0xFFFF, &[2, 0]),
    (0x04, 0x5555, &[4, 0, 0x1F, 0xFF]),
    (0x05, 0xAAAA, &[1, 0]),
    (0x06, 0x3333, &[2, 0]),
    (0x07, 0xCCCC, &[8, 0, 0, 0xF8, 0x7F]),
    (0x00, 0xFFFF, &[2]),
    (0x08, 0x6666, &[4, 0, 0x80, 0x0F]),
    (0x0F, 0x9999, &[8, 0]),
    (0x10, 0x00FF, &[9, 0]),
    (0x09, 0xF00F, &[8, 0, 0, 0xF8, 0x06, 1]),
    (0x0A, 0x0FF0, &[8, 0, 1, 0x80, 0x7F, 4]),
    (0x0B, 0x5A5A, &[1, 0]),
    (0x0C, 0xA5A5, &[2, 0]),
    (0x0D, 0xFFFF, &[8, 0, 0xFF, 0xFD, 0xE2, 0]),
    (0x0E, 0xFFFF, &[4, 0, 0x03, 0xFF]),
];

/// Entries of `ENTRIES` for every AppSel, and a number that each doesn't accept: 03h, 0Dh and 0Eh.
const FAULTS: [(usize, u8); 3] = [(1, 3), (14, 0xFE), (15, 10)];

/// An entry, with its bytes from MemoryLength on.
fn entry(count: usize, id: u8, mask: u16, rest: &[u8]) -> Vec<u8> {
    let mask = &mask.to_be_bytes()[2 - mask_bytes(count)..];
    [&[id, (2 + mask.len() + rest.len()) as u8], mask, rest].concat()
}

/// Compares apply with every mask of lanes, with no fault, with 13 in each lane, with 14 in each lane and with both, for both
/// sizes of an application mask; 14 for a code, and for a number outside Min and Max.
fn compare_lanes(report: &mut Report) {
    for (set, count) in [(0, 7), (1, 12)] {
        let rw: Vec<u8> = ENTRIES.iter().flat_map(|&(id, mask, rest)| entry(count, id, mask, rest)).collect();
        let case = Case { count, rw: &rw, ro: &[] };
        let plan = plan(report, &case, set);
        for lacking in 0..=8 {
            let mut bank = plan.clone();
            if lacking > 0 {
                bank::compare(report, &case, &mut bank, Call::Listed(Select { set, lane: lacking, app: 0 }));
            }
            compare_masks(report, &case, &bank, set);
            for (bad, (entry, number)) in (1..=8).flat_map(|lane| FAULTS.map(|fault| (lane, fault))) {
                let mut bank = bank.clone();
                let at = engine::place(count, &rw, &[], set, entry, 0, bad);
                let call = ByteWrite { set, offset: at.offset, byte: number << at.bit };
                bank::compare(report, &case, &mut bank, Call::Listed(call));
                compare_masks(report, &case, &bank, set);
            }
        }
    }
}

/// Compares apply with every mask of lanes.
fn compare_masks(report: &mut Report, case: &Case, bank: &Bank, set: usize) {
    for lanes in 0..=0xFF {
        bank::compare(report, case, &mut bank.clone(), Call::Listed(Apply { set, lanes }));
    }
}

/// A bank of ones whose staged set has an AppSel in each lane and in each field an accepted value, most often not of ones.
fn plan(report: &mut Report, case: &Case, set: usize) -> Bank {
    let mut bank = Bank::ones();
    let aim = Aim::new(case);
    for lane in 1..=8 {
        let app = 1 + (5 * lane) % case.count;
        bank::compare(report, case, &mut bank, Call::Listed(Select { set, lane, app }));
        for target in &aim.targets {
            for part in 0..target.parts {
                let value = target.values[(3 * lane + part) % target.values.len()];
                bank::compare(
                    report,
                    case,
                    &mut bank,
                    Call::Listed(Write { set, entry: target.entry, part, lane, value }),
                );
            }
        }
    }
    bank
}
