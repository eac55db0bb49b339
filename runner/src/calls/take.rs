//! What a reader takes: from 0 to the end of each string, and at any position with any count.

use crate::case::{Case, Hex};
use crate::engine::{self, Loaded, Taken};
use crate::random::Random;
use crate::refusals::{self, ACCEPTED};
use crate::report::Report;
use crate::strings::{MOST_ENTRIES, RO, RW};
use crate::tally::Row;

pub static CALL: Row = Row::new("take", refusals::TAKE);

/// What an accepted take gives.
pub static ENTRY: Row = Row::new("take: entry", ACCEPTED);
pub static END: Row = Row::new("take: end", ACCEPTED);

/// Takes that are no end, after 16 from 0 on.
pub static LATE: Row = Row::new("take: after 16 entries", refusals::TAKE.without(9));

/// Counts on both sides of the limits of check 9 and of A.
const COUNTS: [usize; 7] = [0, 1, 8, 9, 15, 16, usize::MAX];

/// Positions past every string.
const FAR: [usize; 4] = [121, 256, 1 << 32, usize::MAX];

fn entry(start: usize, length: usize) -> Taken {
    Taken { start, length, position: start + length, ..Taken::default() }
}

fn end(position: usize) -> Taken {
    Taken { end: 1, position, ..Taken::default() }
}

fn of_second(count: usize, string: &[u8], position: usize) -> Taken {
    let (taken, position) = second::reader_step(count, string, position);
    match taken {
        second::Step::Entry { start, length } => Taken { start, length, position, ..Taken::default() },
        second::Step::Refused(number) => Taken { refusal: number as usize, position, ..Taken::default() },
        second::Step::End => end(position),
    }
}

/// Compares one take, also with an answer that is known. The answer, if all agree.
fn compare_take(
    report: &mut Report,
    count: usize,
    string: &[u8],
    position: usize,
    known: Option<(&str, Taken)>,
) -> Option<Taken> {
    let taken = engine::take(count, string, position);
    let mut others = vec![("second", of_second(count, string, position))];
    others.extend(known);
    let shown = format_args!("count {count} string {} position {position}", Hex(string));
    let agree = report.compare(&CALL, &shown, &taken, &others);
    if taken.refusal == 0 {
        report.calls.count(if taken.end == 1 { &END } else { &ENTRY }, 0);
    }
    agree.then_some(taken)
}

/// Takes from a string from 0 on, as long as entries come.
fn compare_takes(report: &mut Report, count: usize, string: &[u8]) {
    let (mut position, mut entries) = (0, 0);
    while let Some(taken) = compare_take(report, count, string, position, None).filter(|taken| taken.end == 0) {
        if entries >= MOST_ENTRIES {
            report.calls.count(&LATE, taken.refusal);
        }
        if taken.refusal != 0 {
            break;
        }
        position = taken.position;
        entries += 1;
    }
}

/// Takes from a string that the load accepts: its entries in order, then the end.
fn compare_entries(report: &mut Report, count: usize, string: &[u8], entries: &[second::EntryInfo]) {
    let mut position = 0;
    for info in entries {
        let known = entry(info.start, info.length);
        compare_take(report, count, string, position, Some(("the load's entry", known)));
        position = known.position;
    }
    compare_take(report, count, string, position, Some(("the end", end(string.len()))));
}

/// Compares what is taken from both strings from 0 on.
fn compare_strings(report: &mut Report, case: &Case, loaded: &Loaded) {
    let entries = second::entries(case.count, case.rw, case.ro).unwrap_or_default();
    for string in [RW, RO] {
        if loaded.refusal == 0 {
            let own: Vec<_> = entries.iter().filter(|info| info.in_ro == (string == RO)).copied().collect();
            compare_entries(report, case.count, case.string(string), &own);
        } else {
            compare_takes(report, case.count, case.string(string));
        }
    }
}

/// Compares what is taken from both strings from 0 on, and one at a random position with a count in range or not.
pub fn compare(report: &mut Report, case: &Case, loaded: &Loaded, random: &Random) {
    compare_strings(report, case, loaded);
    let string = case.string(random.below(2));
    let count = if random.once_in(4) { random.about(16) } else { case.count };
    compare_take(report, count, string, random.about(string.len()), None);
}

/// Compares what is taken from both strings from 0 on, and at every position, just past the end and far past it.
pub fn compare_all(report: &mut Report, case: &Case, loaded: &Loaded) {
    compare_strings(report, case, loaded);
    for string in [case.rw, case.ro] {
        for position in (0..string.len() + 2).chain(FAR) {
            for count in COUNTS.into_iter().chain([case.count]) {
                compare_take(report, count, string, position, None);
            }
        }
    }
}
