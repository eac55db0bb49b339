//! The refusals of documents 01 and 02: what each names, which of them each call can answer, and how often each must be
//! seen. 0 stands for an accepted call.

/// The highest number, and one below it that no call answers.
pub const LAST: usize = 16;
const UNUSED: usize = 15;

/// How often each number that can occur must be seen, in each row of a table.
pub const FLOOR: u64 = 50;

/// How many lists after an accepted fresh must be followed to their end, against the plain table.
pub const LISTS_TO_THE_END: u64 = 5_000;

/// The checks of an entry, in their order: each names the entry.
const ENTRY_CHECKS: [usize; 8] = [16, 1, 2, 3, 4, 5, 6, 7];

/// The checks of a chosen lane, in their order: each names the lane.
const LANE_CHECKS: [usize; 2] = [13, 14];

pub const ACCEPTED: Numbers = only(&[0]);

// What each call can answer.
pub const LOAD: Numbers = ACCEPTED.and(&[9]).and(&ENTRY_CHECKS);
pub const ENTRY: Numbers = LOAD.and(&[10]);
pub const PLACE: Numbers = LOAD.and(&[10, 11]);
pub const OWNER: Numbers = LOAD.and(&[10]);
pub const TAKE: Numbers = ACCEPTED.and(&[9, 1, 2]);
pub const FRESH: Numbers = LOAD.and(&[8]);
pub const SELECT: Numbers = FRESH.and(&[10, 11, 12]);
pub const WRITE: Numbers = FRESH.and(&[10, 11, 12]);
pub const READ: Numbers = FRESH.and(&[10, 11]);
pub const PUBLISH: Numbers = FRESH.and(&[10, 11, 12]);
pub const BYTE_WRITE: Numbers = FRESH.and(&[10, 11]);
pub const BYTE_READ: Numbers = FRESH.and(&[10]);
pub const APPLY: Numbers = FRESH.and(&[10, 11]).and(&LANE_CHECKS);
pub const PERFORM: Numbers = any(&[SELECT, WRITE, READ, BYTE_WRITE, BYTE_READ, PUBLISH, APPLY]);
pub const UNKNOWN_KIND: Numbers = FRESH.without(0).and(&[10]);
pub const WEIGHT: Numbers = FRESH.and(&[10]);

// What the last checks of a call can answer: whether a field is there, whether its value is accepted, the chosen lanes, a
// field to be copied.
pub const FIELD: Numbers = ACCEPTED.and(&[10, 11]);
pub const VALUE: Numbers = ACCEPTED.and(&[12]);
pub const LANES: Numbers = ACCEPTED.and(&LANE_CHECKS);
pub const COPIED: Numbers = ACCEPTED.and(&[14]);

// What an entry can be refused with whatever its ID: in either string, in one that it belongs to, in the other.
const ANY_ENTRY: Numbers = only(&[16, 1, 2]);
pub const IN_PLACE: Numbers = ANY_ENTRY.and(&[7]);
pub const MISPLACED: Numbers = ANY_ENTRY.and(&[3]);

/// A set of numbers.
#[derive(Clone, Copy)]
pub struct Numbers(u32);

pub const fn only(numbers: &[usize]) -> Numbers {
    Numbers(0).and(numbers)
}

const fn any(mut sets: &[Numbers]) -> Numbers {
    let mut all = 0;
    while let [first, rest @ ..] = sets {
        all |= first.0;
        sets = rest;
    }
    Numbers(all)
}

/// The checks of an entry that come after one of them.
pub const fn checks_after(number: usize) -> Numbers {
    let mut later: &[usize] = &ENTRY_CHECKS;
    while let [first, rest @ ..] = later {
        later = rest;
        if *first == number {
            break;
        }
    }
    only(later)
}

impl Numbers {
    pub const fn and(mut self, mut numbers: &[usize]) -> Numbers {
        while let [first, rest @ ..] = numbers {
            assert!(*first <= LAST && *first != UNUSED);
            self.0 |= 1 << *first;
            numbers = rest;
        }
        self
    }

    pub const fn without(self, number: usize) -> Numbers {
        Numbers(self.0 & !(1 << number))
    }

    pub fn has(self, number: usize) -> bool {
        number <= LAST && self.0 >> number & 1 == 1
    }

    pub fn iter(self) -> impl Iterator<Item = usize> {
        (0..=LAST).filter(move |&number| self.has(number))
    }
}

/// What a refusal names.
#[derive(Clone, Copy, PartialEq)]
pub enum Named {
    Nothing,
    Entry,
    Lane,
}

pub fn named(number: usize) -> Named {
    if ENTRY_CHECKS.contains(&number) {
        Named::Entry
    } else if LANE_CHECKS.contains(&number) {
        Named::Lane
    } else {
        Named::Nothing
    }
}
