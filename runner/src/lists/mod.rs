//! Random lists of calls, each on one map and one bank: accepted and refused maps, fresh and foreign banks.

mod aim;
mod applies;
mod numeric;
mod sixteen;
pub mod whole;

use second::Call::{Apply, ByteRead, ByteWrite, Publish, Write};

use crate::any_map;
use crate::calls::bank::{self, Bank, Call};
use crate::case::Case;
use crate::engine;
use crate::fixed;
use crate::random::Random;
use crate::refusals::{only, ACCEPTED, LANES, VALUE};
use crate::report::Report;
use crate::shape::{NUMERIC, TABLE};
use crate::tally::Row;
use crate::valid;
use aim::Aim;

/// Lists that are compared.
const LISTS: u64 = 12_000;

/// The most calls of a list, and of one whose every call is refused.
const LONGEST: usize = 200;
const REFUSED: usize = 40;

/// Values accepted and not, by the ID that they were for.
static VALUES_BY_ID: [Row; 17] = [
    Row::new("write: 02h", VALUE),
    Row::new("write: 03h", VALUE),
    Row::new("write: 04h", VALUE),
    Row::new("write: 05h", VALUE),
    Row::new("write: 06h", VALUE),
    Row::new("write: 07h", VALUE),
    Row::new("write: 08h", VALUE),
    Row::new("write: 09h", VALUE),
    Row::new("write: 0Ah", VALUE),
    Row::new("write: 0Bh", VALUE),
    Row::new("write: 0Ch", VALUE),
    Row::new("write: 0Dh", VALUE),
    Row::new("write: 0Eh", VALUE),
    Row::new("write: 0Fh", VALUE),
    Row::new("write: 10h", VALUE),
    Row::new("publish: 11h", VALUE),
    Row::new("publish: 12h", VALUE),
];

/// Accepted byte calls, by what the byte holds: every byte is a gap whole or not at all.
static BYTES_BY_KIND: [Row; 4] = [
    Row::new("byte write: fields", ACCEPTED),
    Row::new("byte write: gap", ACCEPTED),
    Row::new("byte read: fields", ACCEPTED),
    Row::new("byte read: gap", ACCEPTED),
];

/// Accepted weights, by the step of their entry.
static WEIGHTS_BY_STEP: [Row; 4] = [
    Row::new("weight: step 0", ACCEPTED),
    Row::new("weight: step 1", ACCEPTED),
    Row::new("weight: step 2", ACCEPTED),
    Row::new("weight: step 3", ACCEPTED),
];

/// Weights of the other entries with a step.
static WEIGHTS_OF_OTHERS: Row = Row::new("weight: 09h, 0Ah, 0Dh", only(&[10]));

/// Lists on accepted maps with RW fields, by what is among them: none of 09h to 0Eh, one of them, 0Dh more than once.
static LISTS_BY_MAP: [Row; 3] = [
    Row { floor: LISTS / 8, ..Row::new("list: no 09h to 0Eh", ACCEPTED) },
    Row { floor: LISTS / 8, ..Row::new("list: 09h to 0Eh", ACCEPTED) },
    Row { floor: LISTS / 40, ..Row::new("list: several 0Dh", ACCEPTED) },
];

/// The rows that lists are counted in, beside those of the calls.
pub fn rows() -> Vec<&'static Row> {
    let rows = VALUES_BY_ID.iter().chain(&BYTES_BY_KIND).chain(&WEIGHTS_BY_STEP).chain([&WEIGHTS_OF_OTHERS]);
    rows.chain(&LISTS_BY_MAP).chain(numeric::rows()).chain(sixteen::rows()).chain(applies::rows()).collect()
}

pub fn compare(report: &mut Report) {
    let fixed = fixed::settings();
    for seed in 0..LISTS {
        let random = Random::new(seed);
        let map = match random.below(16) {
            0 => fixed[random.below(fixed.len())].map.clone(),
            1..=6 => any_map(&random),
            _ => valid::valid(&random).flat(),
        };
        compare_list(report, &map.case(), &random);
    }
}

/// Compares the calls of one list, up to the first on which the programs differ.
fn compare_list(report: &mut Report, case: &Case, random: &Random) {
    let mut bank = Bank::new(random);
    let aim = Aim::new(case);
    let accepted = aim.accepted && bank.accepted();
    let fresh_first = (!random.once_in(4)).then_some(Call::Fresh);
    let drawn = aim.calls(random, random.within(1, if accepted { LONGEST } else { REFUSED }));
    for call in fresh_first.into_iter().chain(drawn) {
        let Some(agreed) = bank::compare(report, case, &mut bank, call) else {
            return;
        };
        if let Call::Listed(listed) = call {
            numeric::count(report, case, &aim, listed, &agreed);
        }
        sixteen::count(report, &aim, call, &agreed);
        match (call, agreed.refusal) {
            (Call::Listed(Write { entry, .. } | Publish { entry, .. }), refusal) if VALUE.has(refusal) => {
                let row = TABLE.concat().iter().position(|&id| id == aim.ids[entry]);
                report.calls.count(&VALUES_BY_ID[row.expect("an ID of the table")], refusal);
            }
            (Call::Listed(ByteWrite { set, offset, .. }), 0) => {
                report.calls.count(&BYTES_BY_KIND[gap(case, set, offset)], 0);
            }
            (Call::Listed(ByteRead { set, offset }), 0) => {
                report.calls.count(&BYTES_BY_KIND[2 + gap(case, set, offset)], 0);
            }
            (Call::Listed(Apply { set, lanes }), refusal) if LANES.has(refusal) => {
                applies::count(report, case, &aim, set, lanes, &agreed);
            }
            (Call::Weight { entry, .. }, 0) => report.calls.count(&WEIGHTS_BY_STEP[aim.step(case, entry)], 0),
            (Call::Weight { entry, lane: 1..=8 }, refusal) if accepted && aim.range(entry).is_some() => {
                report.calls.count(&WEIGHTS_OF_OTHERS, refusal);
            }
            _ => {}
        }
    }
    bank::compare_end(report, case, &bank, &aim.fields.concat());
    count_list(report, &aim);
}

/// Counts a list that was followed to its end.
fn count_list(report: &mut Report, aim: &Aim) {
    if !aim.targets.is_empty() {
        let has_numeric = aim.ids.iter().any(|id| NUMERIC.contains(id));
        report.calls.count(&LISTS_BY_MAP[usize::from(has_numeric)], 0);
        if aim.ids.iter().filter(|&&id| id == 0x0D).count() > 1 {
            report.calls.count(&LISTS_BY_MAP[2], 0);
        }
    }
    sixteen::count_list(report, aim);
}

/// 1 if the byte at an offset of a set is a gap, 0 if it holds fields.
fn gap(case: &Case, set: usize, offset: usize) -> usize {
    engine::owner(case.count, case.rw, case.ro, set, offset, 0).gap
}
