//! The load broken off and taken up again: pass and resume, from the states that a load comes to and from any other.

use std::fmt;

use super::load;
use crate::any_map;
use crate::case::Case;
use crate::damaged::refuse_caller;
use crate::engine::{self, Loaded, Passed, State};
use crate::peer;
use crate::random::Random;
use crate::reached::Look;
use crate::refusals::{self, ACCEPTED};
use crate::report::Report;
use crate::strings::{Flat, LARGEST, MOST_ENTRIES, RO, RW};
use crate::tally::Row;

pub static PASS: Row = Row::new("pass", refusals::LOAD);
pub static RESUME: Row = Row::new("resume", refusals::LOAD);

/// What an accepted pass gives.
pub static ENTRY: Row = Row::new("pass: entry", ACCEPTED);
pub static END: Row = Row::new("pass: end", ACCEPTED);

/// From any state.
pub static ANY_PASS: Row = Row::new("pass: any state", refusals::LOAD);
pub static ANY_RESUME: Row = Row::new("resume: any state", refusals::LOAD);

/// Where a state comes from: from a load, or from anywhere.
#[derive(Clone, Copy, PartialEq)]
pub enum Origin {
    Load,
    Any,
}

/// What is left of a load: the bytes not yet read, and the state after those that are.
#[derive(Clone, Copy)]
pub struct Rest<'a> {
    pub case: Case<'a>,
    pub state: State,
}

impl fmt::Display for Rest<'_> {
    fn fmt(&self, f: &mut fmt::Formatter) -> fmt::Result {
        write!(f, "{} {:?}", self.case, self.state)
    }
}

impl<'a> Rest<'a> {
    /// The whole load.
    pub fn new(case: Case<'a>) -> Rest<'a> {
        Rest { case, state: State::default() }
    }

    pub fn in_ro(&self) -> bool {
        self.state.string != 0
    }

    /// The string of the next entry.
    pub fn string(&self) -> usize {
        if self.in_ro() || self.case.rw.is_empty() {
            RO
        } else {
            RW
        }
    }

    /// The bytes of that string from the entry's first on.
    pub fn bytes(&self) -> &'a [u8] {
        self.case.string(self.string())
    }

    /// Whether the second program is asked. In the RW string no entry of a load stands before it; a state that says otherwise
    /// means nothing in the documents.
    fn is_of_second(&self) -> bool {
        self.in_ro() || self.state.before == 0
    }

    fn with(&self, rw: &'a [u8], ro: &'a [u8]) -> Rest<'a> {
        Rest { case: Case { count: self.case.count, rw, ro }, state: self.state }
    }

    /// What is left after an entry that was passed.
    pub fn past(&self, passed: &Passed) -> Rest<'a> {
        let left = self.bytes().get(passed.length..).unwrap_or_default();
        let rest = if self.string() == RW { self.with(left, self.case.ro) } else { self.with(self.case.rw, left) };
        Rest { state: passed.state, ..rest }
    }

    /// The entry's own bytes, and no others.
    fn own(&self, passed: &Passed) -> Rest<'a> {
        let own = self.bytes().get(..passed.length).unwrap_or_default();
        if self.string() == RW {
            self.with(own, &[])
        } else {
            self.with(&[], own)
        }
    }

    fn pass(&self) -> Passed {
        engine::pass(self.case.count, self.case.rw, self.case.ro, self.state)
    }

    fn resume(&self) -> Loaded {
        engine::resume(self.case.count, self.case.rw, self.case.ro, self.state)
    }

    /// What resume answers according to pass, which goes on by one entry at most.
    fn by_pass(&self, passed: &Passed) -> Loaded {
        let State { string, entries, before, sum, staged_length, .. } = self.state;
        let accepted = |rw_count: u8, ro_count: u8, staged_length: u16| Loaded {
            refusal: 0,
            at: 0,
            rw_count: rw_count.into(),
            ro_count: ro_count.into(),
            staged_length: staged_length.into(),
            active_length: sum.into(),
        };
        match (passed.refusal, passed.end, string) {
            (0, 0, _) => self.past(passed).resume(),
            (0, _, 0) => accepted(entries, 0, sum),
            (0, _, _) => accepted(before, entries, staged_length),
            (refusal, _, _) => Loaded::refused(refusal, passed.at),
        }
    }
}

pub fn end() -> Passed {
    Passed { end: 1, ..Passed::default() }
}

/// A state as the second program keeps it.
fn kept(state: State) -> second::Kept {
    second::Kept {
        ro: state.string != 0,
        media: state.media != 0,
        entries: state.entries.into(),
        before: state.before.into(),
        sum: state.sum.into(),
        staged: state.staged_length.into(),
    }
}

fn pass_of_second(rest: &Rest) -> Passed {
    let Case { count, rw, ro } = rest.case;
    match second::pass(count, rw, ro, kept(rest.state)) {
        Ok(Some((after, length))) => {
            let byte = |number: usize| u8::try_from(number).expect("a count of entries");
            let pair = |number: usize| u16::try_from(number).expect("a sum of MemoryLengths");
            let state = State {
                string: after.ro.into(),
                media: after.media.into(),
                entries: byte(after.entries),
                before: byte(after.before),
                sum: pair(after.sum),
                staged_length: pair(after.staged),
            };
            Passed { length, state, ..Passed::default() }
        }
        Ok(None) => end(),
        Err(refusal) => refusal.into(),
    }
}

fn resume_of_second(rest: &Rest) -> Loaded {
    load::as_engine(second::resume(rest.case.count, rest.case.rw, rest.case.ro, kept(rest.state)))
}

/// Compares one pass, also with answers that are known. The answer, if all agree.
pub fn compare_pass(report: &mut Report, origin: Origin, rest: &Rest, known: &[(&str, Passed)]) -> Option<Passed> {
    let Case { count, rw, ro } = rest.case;
    let passed = rest.pass();
    let mut others = vec![("peer", peer::pass(count, rw, ro, rest.state))];
    others.extend(rest.is_of_second().then(|| ("second", pass_of_second(rest))));
    others.extend_from_slice(known);
    let row = if origin == Origin::Load { &PASS } else { &ANY_PASS };
    let agree = report.compare(row, rest, &passed, &others);
    if passed.refusal == 0 {
        report.calls.count(if passed.end == 1 { &END } else { &ENTRY }, 0);
    }
    agree.then_some(passed)
}

/// Compares one resume, likewise.
pub fn compare_resume(report: &mut Report, origin: Origin, rest: &Rest, known: &[(&str, Loaded)]) -> Option<Loaded> {
    let Case { count, rw, ro } = rest.case;
    let loaded = rest.resume();
    let mut others = vec![("peer", peer::resume(count, rw, ro, rest.state))];
    others.extend(rest.is_of_second().then(|| ("second", resume_of_second(rest))));
    others.extend_from_slice(known);
    let row = if origin == Origin::Load { &RESUME } else { &ANY_RESUME };
    report.compare(row, rest, &loaded, &others).then_some(loaded)
}

/// Compares a load broken off before each of its entries and at its end: resume with the load's own answer, pass with what the
/// entries say.
pub fn compare(report: &mut Report, case: &Case, loaded: &Loaded) {
    let look = Look::new(*case, *loaded);
    let mut rest = Rest::new(*case);
    for entries in 0..=loaded.entries() {
        let known = look.pass_after(entries);
        let resumed = compare_resume(report, Origin::Load, &rest, &[("load", *loaded)]);
        let passed = compare_pass(report, Origin::Load, &rest, &[("entries", known)]);
        let (Some(_), Some(passed)) = (resumed, passed) else { return };
        report.reached.broken_off(&look, &rest);
        compare_unread(report, case, &rest, &passed, loaded);
        if entries < loaded.entries() {
            rest = rest.past(&passed);
        }
    }
}

/// Compares a pass that is lent its entry's own bytes alone and, in the RO string, pass and resume that are lent the RW string.
fn compare_unread(report: &mut Report, case: &Case, rest: &Rest, passed: &Passed, loaded: &Loaded) {
    if passed.length > 0 {
        let own = rest.own(passed);
        report.compare(&PASS, &own, &own.pass(), &[("with the bytes behind it", *passed)]);
    }
    if rest.in_ro() {
        let whole = rest.with(case.rw, rest.case.ro);
        report.compare(&PASS, &whole, &whole.pass(), &[("without the RW string", *passed)]);
        report.compare(&RESUME, &whole, &whole.resume(), &[("without the RW string", *loaded)]);
    }
}

/// Compares a load that goes on with other bytes than its own, or in a way that the caller is refused for; and one from any
/// state, from any place of the strings on.
pub fn compare_others(report: &mut Report, case: &Case, loaded: &Loaded, random: &Random) {
    let mut rest = Rest::new(*case);
    for _ in 0..random.below(loaded.entries() + 1) {
        rest = rest.past(&rest.pass());
    }
    let mut flat = any_map(random);
    compare_rest(report, Origin::Load, &Rest { case: flat.case(), ..rest });
    if random.once_in(4) {
        flat = Flat { count: case.count, strings: [rest.case.rw.to_vec(), rest.case.ro.to_vec()] };
        refuse_caller(random, &mut flat);
        compare_rest(report, Origin::Load, &Rest { case: flat.case(), ..rest });
    }
    let from = |string: &[u8]| if random.once_in(2) { 0 } else { random.below(string.len() + 1) };
    let any = rest.with(&case.rw[from(case.rw)..], &case.ro[from(case.ro)..]);
    compare_rest(report, Origin::Any, &Rest { state: any_state(random), ..any });
}

/// Compares pass and resume, which must agree with each other too.
fn compare_rest(report: &mut Report, origin: Origin, rest: &Rest) {
    if let Some(passed) = compare_pass(report, origin, rest, &[]) {
        let known = [("resume after pass", rest.by_pass(&passed))];
        if let Some(loaded) = compare_resume(report, origin, rest, &known) {
            report.reached.taken_up(origin, rest, &passed, &loaded);
        }
    }
}

/// Any numbers, most often about their limits.
pub fn any_state(random: &Random) -> State {
    let most = MOST_ENTRIES as u8;
    let few = random.below(MOST_ENTRIES) as u8;
    let sum = || {
        let near = LARGEST + 2 - random.below(40);
        let far = random.pick(&[LARGEST + 1, 2 * LARGEST, usize::from(u16::MAX), random.below(1 << 16)]);
        random.pick(&[0, random.below(LARGEST), random.below(LARGEST), near, near, far]) as u16
    };
    State {
        sum: sum(),
        staged_length: sum(),
        string: random.pick(&[0, 0, 0, 1, 1, 2, 0xFF, random.byte()]),
        media: random.pick(&[0, 0, 0, 1, 2, 0xFF, random.byte()]),
        entries: random.pick(&[0, few, few, few, most - 1, most, most + 1, 0xFF, random.byte()]),
        before: random.pick(&[0, 0, few, most, 0xFF, random.byte()]),
    }
}
