//! States that a load was taken up from: those of a load, with other bytes, and any.

use crate::calls::resume::{Origin, Rest};
use crate::engine::{Loaded, Passed, State};
use crate::shape::mask_bytes;
use crate::strings::{LARGEST, LONGEST, MOST_ENTRIES, RO, RW};

/// A state and the bytes after it, and what pass and resume answered.
pub struct TakenUp<'a> {
    pub origin: Origin,
    pub rest: &'a Rest<'a>,
    pub passed: &'a Passed,
    pub loaded: &'a Loaded,
}

impl TakenUp<'_> {
    fn state(&self) -> State {
        self.rest.state
    }

    fn is_broken_off(&self) -> bool {
        self.origin == Origin::Load && self.rest.state != State::default()
    }

    fn is_any(&self) -> bool {
        self.origin == Origin::Any
    }

    fn entries(&self) -> usize {
        self.rest.state.entries.into()
    }

    fn accepted(&self) -> bool {
        self.loaded.refusal == 0
    }

    /// An entry was passed.
    fn past(&self) -> bool {
        self.passed.length > 0
    }

    /// No byte is left.
    fn at_end(&self) -> bool {
        self.passed.end == 1
    }

    /// Refused with this number, by the entry that pass judges.
    fn at_once(&self, number: usize) -> bool {
        self.passed.refusal == number
    }

    fn nine_by_count(&self) -> bool {
        let [rw, ro] = self.lengths();
        self.loaded.refusal == 9 && rw <= LONGEST && ro <= LONGEST
    }

    /// Refused with 9 for the length of this string alone.
    fn nine_by(&self, string: usize) -> bool {
        let lengths = self.lengths();
        let good = (1..=15).contains(&self.rest.case.count) && lengths[1 - string] <= LONGEST;
        self.loaded.refusal == 9 && good && lengths[string] > LONGEST
    }

    fn lengths(&self) -> [usize; 2] {
        [self.rest.case.rw.len(), self.rest.case.ro.len()]
    }

    /// The entry that pass judges has MemoryLength 0.
    fn has_no_memory(&self) -> bool {
        self.rest.bytes().get(2 + mask_bytes(self.rest.case.count)) == Some(&0)
    }

    /// In RW, with bytes of it left.
    fn in_rw(&self) -> bool {
        self.rest.string() == RW
    }

    /// At the end of RW.
    fn leaves_rw(&self) -> bool {
        !self.rest.in_ro() && !self.in_rw()
    }
}

/// A name, and whether a state was so.
type Limit = (&'static str, fn(&TakenUp) -> bool);

#[rustfmt::skip]
pub const STATES: [Limit; 36] = [
    ("9: broken off, count", |t| t.is_broken_off() && t.nine_by_count()),
    ("9: broken off in RW, RW string", |t| t.is_broken_off() && !t.rest.in_ro() && t.nine_by(RW)),
    ("9: broken off in RW, RO string", |t| t.is_broken_off() && !t.rest.in_ro() && t.nine_by(RO)),
    ("9: broken off in RO, RW string", |t| t.is_broken_off() && t.rest.in_ro() && t.nine_by(RW)),
    ("9: broken off in RO, RO string", |t| t.is_broken_off() && t.rest.in_ro() && t.nine_by(RO)),
    ("broken off, other bytes accepted", |t| t.is_broken_off() && t.accepted() && t.past()),
    ("broken off, other bytes: 16", |t| t.is_broken_off() && t.loaded.refusal == 16),
    ("broken off, other bytes: 6 at once", |t| t.is_broken_off() && t.at_once(6)),
    ("broken off, other bytes: 7 at once", |t| t.is_broken_off() && t.at_once(7)),
    ("any state: 9, count", |t| t.is_any() && t.nine_by_count()),
    ("any state: 9, RW string, in RW", |t| t.is_any() && !t.rest.in_ro() && t.nine_by(RW)),
    ("any state: 9, RW string, in RO", |t| t.is_any() && t.rest.in_ro() && t.nine_by(RW)),
    ("any state: 9, RO string", |t| t.is_any() && t.nine_by(RO)),
    ("string 1, RW bytes not read", |t| t.state().string == 1 && t.past() && !t.rest.case.rw.is_empty()),
    ("string 2 to 255, RW bytes not read", |t| t.state().string > 1 && t.past() && !t.rest.case.rw.is_empty()),
    ("string 2 to 255, end, RW bytes not read", |t| t.state().string > 1 && t.at_end() && !t.rest.case.rw.is_empty()),
    ("string 2 to 255, refused", |t| t.state().string > 1 && t.passed.refusal > 0 && t.passed.refusal != 9),
    ("media 2 to 255, 6", |t| t.state().media > 1 && t.at_once(6)),
    ("media 2 to 255, past an entry", |t| t.state().media > 1 && t.past()),
    ("16: 16 entries", |t| t.entries() == MOST_ENTRIES && t.at_once(16)),
    ("16: 17 entries", |t| t.entries() == MOST_ENTRIES + 1 && t.at_once(16)),
    ("16: 255 entries", |t| t.entries() == 255 && t.at_once(16)),
    ("15 entries, past one", |t| t.entries() == MOST_ENTRIES - 1 && t.in_rw() && t.past()),
    ("above 16 entries, then RO", |t| t.entries() > MOST_ENTRIES && t.leaves_rw() && t.past()),
    ("above 16 entries, no byte left", |t| t.entries() > MOST_ENTRIES && t.rest.in_ro() && t.at_end()),
    ("entry number above 255", |t| t.loaded.at > 255),
    ("RW, entries before it: refused", |t| t.in_rw() && t.state().before > 0 && t.passed.refusal > 0),
    ("RW, entries before it: past an entry", |t| t.in_rw() && t.state().before > 0 && t.past()),
    ("RW's end, entries before it: past an entry", |t| t.leaves_rw() && t.state().before > 0 && t.past()),
    ("RW's end, staged length: past an entry", |t| t.leaves_rw() && t.state().staged_length > 0 && t.past()),
    ("RW, staged length: past an entry", |t| t.in_rw() && t.state().staged_length > 0 && t.past()),
    ("sum 256, past an entry", |t| usize::from(t.state().sum) == LARGEST && t.past()),
    ("7: sum 257, MemoryLength 0", |t| usize::from(t.state().sum) == LARGEST + 1 && t.at_once(7) && t.has_no_memory()),
    ("7: sum 65535", |t| t.state().sum == u16::MAX && t.at_once(7)),
    ("sum above 256, no byte left", |t| t.at_end() && t.loaded.active_length > LARGEST),
    ("staged length above 256, no byte left", |t| t.rest.in_ro() && t.at_end() && t.loaded.staged_length > LARGEST),
];
