//! What the lists reached at the limit of 16 entries, counted so that a generator that misses its aim fails the run.

use second::Call::{Publish, Read, Write};

use super::aim::Aim;
use super::LISTS;
use crate::calls::bank::{Agreed, Call};
use crate::engine::Loaded;
use crate::refusals::{only, ACCEPTED, VALUE};
use crate::report::Report;
use crate::strings::MOST_ENTRIES;
use crate::tally::Row;

/// The last RW entry that there can be, and the last of all.
const LAST_RW: usize = MOST_ENTRIES - 1;
const LAST_RO: usize = 2 * MOST_ENTRIES - 1;

/// A row, and what an accepted map or a call must be to be counted there.
type Reached<T> = (Row, fn(&T) -> bool);

/// Lists on accepted maps, by their entries.
static LISTS_ON: [Reached<Loaded>; 5] = [
    (lists("list: 15 RW entries", 40), |map| map.rw_count == MOST_ENTRIES - 1),
    (lists("list: 15 RO entries", 40), |map| map.ro_count == MOST_ENTRIES - 1),
    (lists("list: 16 RW entries", 40), |map| map.rw_count == MOST_ENTRIES),
    (lists("list: 16 RO entries", 40), |map| map.ro_count == MOST_ENTRIES),
    (lists("list: 16 and 16 entries", 80), |map| [map.rw_count, map.ro_count] == [MOST_ENTRIES; 2]),
];

/// A row that one list in so many must be counted in.
const fn lists(name: &'static str, share: u64) -> Row {
    Row { floor: LISTS / share, ..Row::new(name, ACCEPTED) }
}

/// Calls on a last entry that are accepted, or refused for their value.
static CALLS_ON_LAST: [Reached<Call>; 4] = [
    (Row::new("write: entry 15", VALUE), |call| matches!(call, Call::Listed(Write { entry: LAST_RW, .. }))),
    (Row::new("read: entry 31", ACCEPTED), |call| matches!(call, Call::Listed(Read { entry: LAST_RO, .. }))),
    (Row::new("publish: entry 31", VALUE), |call| matches!(call, Call::Listed(Publish { entry: LAST_RO, .. }))),
    (Row::new("weight: entry 31", ACCEPTED), |call| matches!(call, Call::Weight { entry: LAST_RO, .. })),
];

/// Calls on a bank that is too short, with strings that the load refuses with 16.
static SHORT_BANK: Row = Row::new("8 before 16", only(&[8]));

pub fn rows() -> impl Iterator<Item = &'static Row> {
    let (lists, calls) = (LISTS_ON.iter().map(|(row, _)| row), CALLS_ON_LAST.iter().map(|(row, _)| row));
    lists.chain(calls).chain([&SHORT_BANK])
}

/// Counts a call.
pub fn count(report: &mut Report, aim: &Aim, call: Call, agreed: &Agreed) {
    for (row, test) in &CALLS_ON_LAST {
        if test(&call) && row.numbers.has(agreed.refusal) {
            report.calls.count(row, agreed.refusal);
        }
    }
    if agreed.refusal == 8 && aim.loaded.refusal == 16 {
        report.calls.count(&SHORT_BANK, 8);
    }
}

/// Counts a list that was followed to its end. A refused map has no entries.
pub fn count_list(report: &mut Report, aim: &Aim) {
    for (row, test) in &LISTS_ON {
        if test(&aim.loaded) {
            report.calls.count(row, 0);
        }
    }
}
