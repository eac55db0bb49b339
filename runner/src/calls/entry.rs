//! The entry call: where each entry stands, and the bytes that start and length name.

use crate::case::{Case, Hex};
use crate::engine::{self, Loaded, Located};
use crate::peer;
use crate::refusals;
use crate::report::{Answer, Report};
use crate::strings::MOST_ENTRIES;
use crate::tally::Row;
use std::fmt;

pub static CALL: Row = Row::new("entry", refusals::ENTRY);

/// Entry numbers that no map has.
const FAR: [usize; 8] = [2 * MOST_ENTRIES, 2 * MOST_ENTRIES + 1, 120, 255, 256, 1 << 16, 1 << 32, usize::MAX];

/// An answer and the part of a lent string that it names: none where the part leaves the string.
#[derive(PartialEq)]
struct Part<'a> {
    located: Located,
    bytes: Option<&'a [u8]>,
}

impl<'a> Part<'a> {
    fn new(case: &Case<'a>, located: Located) -> Part<'a> {
        let end = located.start.checked_add(located.length);
        let string = case.string(located.string);
        Part { located, bytes: end.and_then(|end| string.get(located.start..end)) }
    }
}

impl fmt::Debug for Part<'_> {
    fn fmt(&self, f: &mut fmt::Formatter) -> fmt::Result {
        match self.bytes {
            Some(bytes) => write!(f, "{:?} bytes {}", self.located, Hex(bytes)),
            None => write!(f, "{:?} outside the string", self.located),
        }
    }
}

impl Answer for Part<'_> {
    fn refusal(&self) -> usize {
        self.located.refusal
    }
}

fn of_second<'a>(case: &Case<'a>, entries: &[second::EntryInfo], entry: usize) -> Part<'a> {
    match second::entry_bytes(case.count, case.rw, case.ro, entry) {
        Ok(bytes) => {
            let info = entries[entry];
            let located = Located {
                refusal: 0,
                at: 0,
                string: usize::from(info.in_ro),
                start: info.start,
                length: info.length,
                offset: info.offset,
            };
            Part { located, bytes: Some(bytes) }
        }
        Err(refusal) => Part { located: refusal.into(), bytes: Some(&[]) },
    }
}

/// Compares the entry call for every entry of the map, and for numbers just and far out of range.
pub fn compare(report: &mut Report, case: &Case, loaded: &Loaded) {
    let entries = second::entries(case.count, case.rw, case.ro).unwrap_or_default();
    let near = match loaded.refusal {
        0 => 0..loaded.entries() + 2,
        _ => loaded.at.saturating_sub(1)..loaded.at + 2,
    };
    let far = FAR[(case.rw.len() + case.ro.len()) % FAR.len()];
    for entry in near.chain([far]) {
        let engine = Part::new(case, engine::entry(case.count, case.rw, case.ro, entry));
        let peer = Part::new(case, peer::entry(case.count, case.rw, case.ro, entry));
        let others = [("second", of_second(case, &entries, entry)), ("peer", peer)];
        report.compare(&CALL, &format_args!("{case} entry {entry}"), &engine, &others);
    }
}
