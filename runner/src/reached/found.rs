//! The entries that owner looked at for a byte, and those behind: where the entry that covers it stands, and where entries
//! of MemoryLength 0 do, which are called empty.

use super::look::{Look, Seen};
use crate::strings::{MOST_ENTRIES, RO, RW};
use std::ops::Range;

/// A byte of an accepted map: the entries that were passed, the one that covers the byte, and those behind it.
pub struct Found<'a> {
    look: &'a Look<'a>,
    offset: usize,
    passed: &'a [Seen<'a>],
    covering: &'a Seen<'a>,
    behind: &'a [Seen<'a>],
}

impl<'a> Found<'a> {
    pub fn new(look: &'a Look<'a>, offset: usize, looked_at: usize) -> Found<'a> {
        let (looked_at, behind) = look.passed().split_at(looked_at);
        let (covering, passed) = looked_at.split_last().expect("an entry that covers the byte");
        Found { look, offset, passed, covering, behind }
    }

    fn is_in(&self, string: usize) -> bool {
        self.covering.string == string
    }

    fn is_empty(&self, entry: &Seen) -> bool {
        self.look.memory(entry) == Some(0)
    }

    /// There are such entries, and all of them are empty.
    fn all_empty(&self, entries: &[Seen]) -> bool {
        !entries.is_empty() && entries.iter().all(|entry| self.is_empty(entry))
    }

    /// An empty entry of this string was passed.
    fn is_past_empty(&self, string: usize) -> bool {
        self.passed.iter().any(|entry| entry.string == string && self.is_empty(entry))
    }

    /// The entries of the RW string that were passed.
    fn rw_passed(&self) -> &[Seen<'a>] {
        let number = self.passed.iter().take_while(|entry| entry.string == RW).count();
        &self.passed[..number]
    }

    /// An empty entry was passed after one that isn't.
    fn is_past_both(&self) -> bool {
        self.passed.iter().skip_while(|entry| self.is_empty(entry)).any(|entry| self.is_empty(entry))
    }

    /// So many entries directly before the one that covers the byte are empty.
    fn follows_empty(&self, number: usize) -> bool {
        self.passed.iter().rev().take_while(|entry| self.is_empty(entry)).count() >= number
    }

    /// The entry directly behind is empty.
    fn precedes_empty(&self) -> bool {
        self.behind.first().is_some_and(|entry| self.is_empty(entry))
    }

    /// The space of the entry that covers the byte.
    fn space(&self) -> Range<usize> {
        self.look.space(self.passed.len())
    }

    fn is_first_byte(&self) -> bool {
        self.offset == self.space().start
    }

    fn is_last_byte(&self) -> bool {
        self.offset + 1 == self.space().end
    }
}

/// A name, which follows `field` or `gap`, and whether a byte was found so.
type Limit = (&'static str, fn(&Found) -> bool);

#[rustfmt::skip]
pub const FOUND: [Limit; 18] = [
    ("in the first of several entries", |f| f.passed.is_empty() && !f.behind.is_empty()),
    ("between other entries", |f| !f.passed.is_empty() && !f.behind.is_empty()),
    ("in the last of several entries", |f| !f.passed.is_empty() && f.behind.is_empty()),
    ("in the last RW entry, RO behind it", |f| f.is_in(RW) && f.behind.first().is_some_and(|e| e.string == RO)),
    ("in the first RO entry after RW", |f| f.is_in(RO) && f.passed.last().is_some_and(|e| e.string == RW)),
    ("in a later RO entry after RW", |f| !f.rw_passed().is_empty() && f.passed.last().is_some_and(|e| e.string == RO)),
    ("in RO after no RW entry", |f| f.is_in(RO) && f.rw_passed().is_empty()),
    ("in entry 31", |f| f.passed.len() == 2 * MOST_ENTRIES - 1),
    ("after empty entries alone", |f| f.all_empty(f.passed)),
    ("after an empty entry behind another", |f| f.is_past_both()),
    ("after three empty entries in a row", |f| f.follows_empty(3)),
    ("in RO after an empty RW entry", |f| f.is_in(RO) && f.is_past_empty(RW)),
    ("in RO after an empty RO entry", |f| f.is_past_empty(RO)),
    ("in RO after empty RW entries alone", |f| f.is_in(RO) && f.all_empty(f.rw_passed())),
    ("in the first byte after an empty entry", |f| f.is_first_byte() && f.follows_empty(1)),
    ("in the last byte before an empty entry", |f| f.is_last_byte() && f.precedes_empty()),
    ("before the first empty entry", |f| f.precedes_empty() && !f.is_past_empty(RW) && !f.is_past_empty(RO)),
    ("before empty entries alone", |f| f.all_empty(f.behind)),
];
