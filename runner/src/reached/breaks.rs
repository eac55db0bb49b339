//! Where loads were broken off, by what came of them, and at what limits.

use super::look::{Look, Seen};
use crate::calls::resume::Rest;
use crate::refusals::{ACCEPTED, LOAD};
use crate::strings::{LARGEST, MOST_ENTRIES, RO, RW};
use crate::tally::{Row, Tally};

/// A load, and what was left of it at the break.
pub struct Break<'a> {
    pub look: &'a Look<'a>,
    pub rest: &'a Rest<'a>,
}

static START: Row = Row::new("before the first entry", LOAD.without(9));
static IN_RW: Row = Row::new("in RW, RW refused", LOAD.without(9).without(0));
static PAST_RW: Row = Row::new("in RW, RW accepted", LOAD.without(9).without(6));
static RW_END: Row = Row::new("at the end of RW", LOAD.without(9).without(6));
static IN_RO: Row = Row::new("in RO", LOAD.without(9).without(6));
static ALL_READ: Row = Row::new("after the last entry", ACCEPTED);

pub fn tally() -> Tally {
    Tally::new("load broken off", &[&START, &IN_RW, &PAST_RW, &RW_END, &IN_RO, &ALL_READ])
}

pub fn count(tally: &mut Tally, b: &Break) {
    let refusal = b.look.answer.refusal;
    let row = match b.rest.in_ro() {
        _ if refusal == 9 => return,
        _ if b.is_start() => &START,
        _ if !b.has_more() => &ALL_READ,
        _ if b.is_at_rw_end() => &RW_END,
        true => &IN_RO,
        false if b.look.stops(|stop| stop.string == RW) => &IN_RW,
        false => &PAST_RW,
    };
    tally.count(row, refusal);
}

impl Break<'_> {
    fn is_start(&self) -> bool {
        self.rest.state == Default::default()
    }

    /// In this string, with so many entries of it before the break.
    fn is_after(&self, string: usize, entries: usize) -> bool {
        self.rest.in_ro() == (string == RO) && usize::from(self.rest.state.entries) == entries
    }

    /// Broken off after an entry, and refused with this number at a later one, for which the test holds.
    fn refused(&self, number: usize, test: impl Fn(&Seen) -> bool) -> bool {
        !self.is_start() && self.look.refused(number, test)
    }

    /// After 16 RW and 16 RO entries.
    fn is_after_all(&self) -> bool {
        self.is_after(RO, MOST_ENTRIES) && usize::from(self.rest.state.before) == MOST_ENTRIES
    }

    /// After the last RW entry, before any RO entry.
    fn is_at_rw_end(&self) -> bool {
        !self.rest.in_ro() && self.rest.case.rw.is_empty() && !self.is_start()
    }

    /// A byte is left.
    fn has_more(&self) -> bool {
        !self.rest.bytes().is_empty()
    }

    /// Broken off in RO after RW entries.
    fn counts_on(&self) -> bool {
        self.rest.in_ro() && self.rest.state.before > 0
    }

    /// The sum of the MemoryLengths after the break, with this entry's.
    fn sum_after(&self, entry: &Seen) -> usize {
        self.look.sum_with(entry) - usize::from(self.rest.state.sum)
    }
}

/// A name, and whether a break was so.
type Limit = (&'static str, fn(&Break) -> bool);

#[rustfmt::skip]
pub const BREAKS: [Limit; 25] = [
    ("broken off, one mask byte", |b| !b.is_start() && b.look.a == 1),
    ("broken off, two mask bytes", |b| !b.is_start() && b.look.a == 2),
    ("6: media side before the break", |b| b.refused(6, |_| b.rest.state.media == 1)),
    ("6: at the break, media side before it", |b| b.refused(6, |e| b.rest.state.media == 1 && b.rest.bytes().len() == e.rest.len())),
    ("6: media side after the break", |b| b.refused(6, |_| b.rest.state.media == 0)),
    ("7: only by the sum before the break", |b| b.refused(7, |e| b.sum_after(e) <= LARGEST)),
    ("7: by one byte before the break", |b| b.refused(7, |e| b.sum_after(e) <= LARGEST && b.look.sum_with(e) == LARGEST + 1)),
    ("7: in RO, only by the sum of RW", |b| b.is_at_rw_end() && b.refused(7, |e| b.sum_after(e) <= LARGEST)),
    ("sum of 256 before the break, entries left", |b| b.look.accepted() && b.has_more() && usize::from(b.rest.state.sum) == LARGEST),
    ("16: in RW, after 16", |b| b.refused(16, |e| e.string == RW && b.is_after(RW, MOST_ENTRIES))),
    ("16: in RO, after 16", |b| b.refused(16, |_| b.is_after(RO, MOST_ENTRIES))),
    ("16: in RO, after 16 and 16", |b| b.refused(16, |_| b.is_after_all())),
    ("16: in RW, after 15", |b| b.refused(16, |e| e.string == RW && b.is_after(RW, MOST_ENTRIES - 1))),
    ("16: in RO, broken off in RW", |b| b.refused(16, |e| e.string == RO && b.rest.string() == RW)),
    ("16th RW entry accepted", |b| b.look.accepted() && b.is_after(RW, MOST_ENTRIES - 1) && !b.is_at_rw_end()),
    ("16th RO entry accepted", |b| b.look.accepted() && b.is_after(RO, MOST_ENTRIES - 1) && b.has_more()),
    ("16 RW entries, then RO accepted", |b| b.look.accepted() && b.is_after(RW, MOST_ENTRIES) && b.has_more()),
    ("16 and 16 entries, no byte left", |b| b.look.accepted() && b.is_after_all()),
    ("1: one byte left at the break", |b| b.refused(1, |_| b.rest.bytes().len() == 1)),
    ("in RO after RW entries, refused", |b| b.counts_on() && b.look.stop().is_some()),
    ("in RO after RW entries, accepted", |b| b.counts_on() && b.look.accepted()),
    ("in RO after no RW entry", |b| b.rest.in_ro() && b.rest.state.before == 0),
    ("in RO, staged length 1 to 255", |b| b.rest.in_ro() && (1..b.rest.state.sum.min(256)).contains(&b.rest.state.staged_length)),
    ("in RO, media side in RW", |b| b.counts_on() && b.look.first_media().is_some()),
    ("in RO, media side there alone", |b| b.rest.in_ro() && b.rest.state.media == 1 && b.look.first_media().is_none()),
];
