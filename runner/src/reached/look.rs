//! A look at a load and its answer: the entries that were passed, and the entry that ended it.

use crate::calls::resume;
use crate::case::Case;
use crate::engine::{Loaded, Passed, State};
use crate::refusals::{named, Named};
use crate::shape::{self, mask_bytes, shape, TABLE};
use crate::strings::{LARGEST, MOST_ENTRIES, RO, RW};
use std::ops::Range;

/// An entry: its string, and the bytes from its ID to the string's end.
#[derive(Clone, Copy)]
pub struct Seen<'a> {
    pub string: usize,
    pub rest: &'a [u8],
}

impl Seen<'_> {
    pub fn id(&self) -> u8 {
        self.rest[0]
    }

    /// Length, if there is a second byte.
    pub fn length(&self) -> Option<usize> {
        self.rest.get(1).map(|&length| usize::from(length))
    }
}

pub struct Look<'a> {
    pub case: Case<'a>,
    pub answer: Loaded,
    pub a: usize,
    passed: Vec<Seen<'a>>,
    stop: Option<Seen<'a>>,
}

impl<'a> Look<'a> {
    pub fn new(case: Case<'a>, answer: Loaded) -> Look<'a> {
        let mut look = Look { case, answer, a: mask_bytes(case.count), passed: Vec::new(), stop: None };
        if !look.accepted() && named(answer.refusal) != Named::Entry {
            return look;
        }
        for string in [RW, RO] {
            let mut rest = case.string(string);
            while !rest.is_empty() && look.stop.is_none() {
                let seen = Seen { string, rest };
                if answer.refusal != 0 && look.passed.len() == answer.at {
                    look.stop = Some(seen);
                } else {
                    look.passed.push(seen);
                    rest = &rest[usize::from(rest[1])..];
                }
            }
        }
        look
    }

    pub fn accepted(&self) -> bool {
        self.answer.refusal == 0
    }

    /// Every entry of an accepted map, or those before the stop.
    pub fn passed(&self) -> &[Seen<'a>] {
        &self.passed
    }

    /// The entry that refused the load.
    pub fn stop(&self) -> Option<Seen<'a>> {
        self.stop
    }

    /// Refused at an entry for which the test holds.
    pub fn stops(&self, test: impl Fn(&Seen) -> bool) -> bool {
        self.stop.is_some_and(|stop| test(&stop))
    }

    /// Refused with this number, at an entry for which the test holds.
    pub fn refused(&self, number: usize, test: impl Fn(&Seen) -> bool) -> bool {
        self.answer.refusal == number && self.stops(test)
    }

    /// Accepted, with an entry for which the test holds.
    pub fn with(&self, test: impl Fn(&Seen) -> bool) -> bool {
        self.accepted() && self.passed.iter().any(test)
    }

    /// Refused with 9, and the test holds.
    pub fn nine(&self, test: bool) -> bool {
        self.answer.refusal == 9 && test
    }

    pub fn least(&self, entry: &Seen) -> usize {
        shape(entry.id()).least + self.a
    }

    pub fn needed(&self, entry: &Seen) -> usize {
        shape(entry.id()).needed.into()
    }

    /// MemoryLength, if the byte is there.
    pub fn memory(&self, entry: &Seen) -> Option<usize> {
        entry.rest.get(2 + self.a).map(|&memory| usize::from(memory))
    }

    /// The byte after MemoryLength is odd: for an ID of the table, media side.
    pub fn odd(&self, entry: &Seen) -> bool {
        entry.rest.get(3 + self.a).is_some_and(|flags| flags & 1 == 1)
    }

    /// An entry of the table, media side.
    pub fn media(&self, entry: &Seen) -> bool {
        self.needed(entry) > 0 && self.odd(entry)
    }

    /// The step byte of an entry that has one, if it is there.
    pub fn step(&self, entry: &Seen) -> Option<u8> {
        shape::step(entry.id()).and_then(|(at, _)| entry.rest.get(at + self.a).copied())
    }

    /// Min and Max of an entry that has them, if they are there.
    pub fn range(&self, entry: &Seen) -> Option<[i8; 2]> {
        let [min, max] = shape::range(entry.id())?.map(|at| entry.rest.get(at + self.a));
        Some([*min? as i8, *max? as i8])
    }

    /// The byte after PropertyFlags: of an entry with a step, the index or EqualizerTarget.
    pub fn index(&self, entry: &Seen) -> u8 {
        entry.rest[4 + self.a]
    }

    /// The entries of its string that were passed before an entry.
    pub fn before(&self, entry: &Seen) -> usize {
        let is_before = |e: &&Seen| e.string == entry.string && e.rest.len() > entry.rest.len();
        self.passed.iter().filter(is_before).count()
    }

    /// The entries of a string by their Lengths alone, up to one that fails check 1 or 2.
    pub fn entries(&self, string: usize) -> usize {
        let mut seen = Seen { string, rest: self.case.string(string) };
        let mut entries = 0;
        while let Some(length) = seen.length().filter(|length| (self.least(&seen)..=seen.rest.len()).contains(length)) {
            seen.rest = &seen.rest[length..];
            entries += 1;
        }
        entries
    }

    /// A string comes to a 17th entry, looked at by its Lengths alone.
    pub fn has_17th_in(&self, string: usize) -> bool {
        self.entries(string) > MOST_ENTRIES
    }

    /// The offsets of a passed entry's space, and of all its fields.
    pub fn space(&self, entry: usize) -> Range<usize> {
        let memory = |entry: &Seen| self.memory(entry).unwrap_or(0);
        let start = self.passed[..entry].iter().map(memory).sum();
        start..start + memory(&self.passed[entry])
    }

    pub fn fields(&self, entry: usize) -> Range<usize> {
        let start = self.space(entry).start;
        start..start + self.needed(&self.passed[entry])
    }

    /// The sum of the MemoryLengths that were passed, with this entry's.
    pub fn sum_with(&self, entry: &Seen) -> usize {
        let before: usize = self.passed.iter().filter_map(|entry| self.memory(entry)).sum();
        before + self.memory(entry).unwrap_or(0)
    }

    /// The first media-side table entry of the RW string that was passed.
    pub fn first_media(&self) -> Option<&Seen<'a>> {
        let media = |e: &&Seen| e.string == RW && TABLE[RW].contains(&e.id()) && self.odd(e);
        self.passed.iter().find(media)
    }

    /// What pass answers after so many entries, as the entries themselves say it.
    pub fn pass_after(&self, entries: usize) -> Passed {
        match self.passed.get(entries).and_then(Seen::length) {
            Some(length) => Passed { length, state: self.state_after(entries + 1), ..Passed::default() },
            None if self.accepted() => resume::end(),
            None => Passed::refused(self.answer.refusal, self.answer.at),
        }
    }

    /// What a load keeps after so many entries.
    fn state_after(&self, entries: usize) -> State {
        let passed = &self.passed[..entries];
        let in_ro = passed.last().is_some_and(|entry| entry.string == RO);
        let of = |string: usize| passed.iter().filter(move |entry| entry.string == string);
        let count = |string: usize| of(string).count() as u8;
        let sum = |string: usize| of(string).filter_map(|entry| self.memory(entry)).sum::<usize>() as u16;
        State {
            string: in_ro.into(),
            media: passed.iter().any(|entry| self.media(entry)).into(),
            entries: count(usize::from(in_ro)),
            before: if in_ro { count(RW) } else { 0 },
            sum: sum(RW) + sum(RO),
            staged_length: if in_ro { sum(RW) } else { 0 },
        }
    }

    /// A check of an entry, looked at by itself, fails at this one.
    pub fn fails(&self, number: usize, entry: &Seen) -> bool {
        match number {
            16 => self.before(entry) >= MOST_ENTRIES,
            1 => entry.length().is_none_or(|length| length > entry.rest.len()),
            2 => entry.length().is_some_and(|length| length < self.least(entry)),
            3 => match entry.id() {
                0x01..=0x10 => entry.string == RO,
                0x11 | 0x12 => entry.string == RW,
                _ => false,
            },
            4 => self.memory(entry).is_some_and(|memory| memory < self.needed(entry)),
            5 => match (shape::step(entry.id()), self.step(entry)) {
                (Some((_, first)), Some(step)) => step.wrapping_sub(first) > 3,
                _ => false,
            },
            6 => (0x02..=0x08).contains(&entry.id()) && !self.odd(entry) && self.first_media().is_some(),
            7 => self.sum_with(entry) > LARGEST,
            _ => unreachable!("{number} is no check of an entry"),
        }
    }
}
