//! A second, independent rendering of the paper "The versatile control set:
//! maps, banks and applied settings", with notes 1, 2, 7, 8 and 12 of its change
//! requests, "The numeric parameters", "Register addresses", "Sixteen entries",
//! "One walk through the strings" and "Finding an owner early". Words in quotes
//! are the paper's, or a note's or the agreement's where these are named.
//!
//! Method: both strings are read in one pass into a list of entries, or the
//! refusal (`map`). A load broken off is taken up again with one entry that
//! stands for all that were passed; its next entry alone is judged by the
//! numbers kept (`kept`). The map is then expanded into one owner for every bit
//! of a set, and a bank into a dictionary of numbers (`bank`). Every question is
//! answered from these; the entries that owner looks at are counted on the list
//! by where they begin. Register addresses are written out as a list with a line
//! for each byte of a set (`addresses`): place reads the line of a field's byte,
//! owner looks for the line that has the address. The plain table (`table`)
//! judges calls and places fields by its own rendering of the same words, so that
//! the two can be run against each other.

#![forbid(unsafe_code)]

mod addresses;
mod bank;
mod judge;
mod kept;
mod map;
mod program;
mod questions;
mod reader;
mod table;

pub use bank::{fresh, perform, weight};
pub use kept::{pass, resume};
pub use program::map_program;
pub use questions::{entries, entry_bytes, load, owner, place};
pub use reader::{reader_step, Reader};
pub use table::Table;

/// "A refusal gives its number and the extras above": the entry number with 1
/// to 7 and 16, the lowest such lane with 13 and 14, nothing with 8 to 12.
#[derive(Clone, Copy, Debug, PartialEq, Eq)]
pub struct Refusal {
    pub number: u32,
    pub entry: Option<usize>,
    pub lane: Option<usize>,
}

impl Refusal {
    /// 8 to 12, "the caller": no extras.
    pub(crate) fn caller(number: u32) -> Refusal {
        Refusal { number, entry: None, lane: None }
    }

    /// 1 to 7 and 16, "the module's maker": "its entry number is answered too".
    pub(crate) fn maker(number: u32, entry: usize) -> Refusal {
        Refusal { number, entry: Some(entry), lane: None }
    }

    /// 13 and 14, "the host's plan, at apply, with the lowest such lane".
    pub(crate) fn plan(number: u32, lane: usize) -> Refusal {
        Refusal { number, entry: None, lane: Some(lane) }
    }
}

/// "answers both entry counts and both lengths".
#[derive(Clone, Copy, Debug, PartialEq, Eq)]
pub struct Loaded {
    pub rw_entries: usize,
    pub ro_entries: usize,
    pub staged_length: usize,
    pub active_length: usize,
}

/// What a load keeps after an entry. Note 8: "a fixed few numbers and flags, no
/// byte of a string". The default is the beginning of a load.
#[derive(Clone, Copy, Debug, Default, PartialEq, Eq)]
pub struct Kept {
    /// The load is in the RO string: the last entry passed was one of it.
    pub ro: bool,
    /// A media-side table entry has been passed.
    pub media: bool,
    /// The entries passed of that string.
    pub entries: usize,
    /// The entries before that string: 0 in the RW string.
    pub before: usize,
    /// The sum of the MemoryLengths so far.
    pub sum: usize,
    /// The staged length: known in the RO string, 0 in the RW string.
    pub staged: usize,
}

/// One accepted entry. `start` counts from the first byte of its own string,
/// `length` is the Length byte, `memory` the MemoryLength.
#[derive(Clone, Copy, Debug, PartialEq, Eq)]
pub struct EntryInfo {
    pub id: u8,
    pub start: usize,
    pub length: usize,
    pub offset: usize,
    pub memory: usize,
    pub in_ro: bool,
}

/// Place's answer. Note 2: "page, byte and lowest bit beside the offset"; page 0
/// and byte 0 where the offset "has no address".
#[derive(Clone, Copy, Debug, PartialEq, Eq)]
pub struct Placed {
    /// The byte in the set.
    pub offset: usize,
    pub page: usize,
    /// The byte of the page.
    pub byte: usize,
    pub bit: usize,
}

/// The byte of a set that owner is asked about. Note 2: "Owner accepts either
/// form".
#[derive(Clone, Copy, Debug, PartialEq, Eq)]
pub enum Byte {
    Offset(usize),
    Address { page: usize, byte: usize },
}

/// Owner's answer: "entry, part and lane, or gap". Note 12: "The answer also
/// carries the number of entries looked at", with a gap too.
#[derive(Clone, Copy, Debug, PartialEq, Eq)]
pub struct Owned {
    /// Entry, part and lane; None is a gap.
    pub field: Option<(usize, usize, usize)>,
    pub looked_at: usize,
}

/// The calls of the paper's list, fresh apart. Lanes count from 1.
#[derive(Clone, Copy, Debug, PartialEq, Eq)]
pub enum Call {
    Select { set: usize, lane: usize, app: usize },
    Write { set: usize, entry: usize, part: usize, lane: usize, value: i64 },
    Read { set: usize, entry: usize, part: usize, lane: usize },
    ByteWrite { set: usize, offset: usize, byte: u8 },
    ByteRead { set: usize, offset: usize },
    Publish { entry: usize, part: usize, lane: usize, value: i64 },
    Apply { set: usize, lanes: u8 },
}

/// "An accepted call without another answer says yes."
#[derive(Clone, Copy, Debug, PartialEq, Eq)]
pub enum Answer {
    Yes,
    Number(i64),
    Refused(Refusal),
}

/// The reader's step: "gives the next entry's start and length, a refusal, or
/// the end".
#[derive(Clone, Copy, Debug, PartialEq, Eq)]
pub enum Step {
    Entry { start: usize, length: usize },
    Refused(u32),
    End,
}
