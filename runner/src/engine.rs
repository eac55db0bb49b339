//! The engine by its Rust interface, include/vcs.rs, and what the runner adds to its answers.

#[path = "../../include/vcs.rs"]
mod vcs;

pub use vcs::{Answer as Answered, Call as FlatCall, *};

use crate::refusals::{named, Named};
use crate::report::Answer;
use crate::strings::MOST_ENTRIES;

// The limit that include/vcs.rs gives is the one that the generators aim at.
const _: () = assert!(ENTRY_LIMIT == MOST_ENTRIES);

/// The AppSels of both staged sets, in a bank that has them.
pub fn app_sels(bank: &mut [u8]) -> &mut [u8] {
    &mut bank[app_sel_at(0, 1)..=app_sel_at(1, 8)]
}

/// Checks that sets and AppSels stand in a bank where include/vcs.rs says: an 02h byte by byte read, an AppSel by select.
pub fn check_layout() {
    let rw = [0x02, 5, 0x01, 1, 0];
    for set in 0..3 {
        let mut bank = [0; BANK_SIZE];
        bank[set_start(set)] = 0xA5;
        assert_eq!(byte_read(1, &rw, &[], &bank, set, 0).number, 0xA5, "the start of set {set}");
    }
    for (set, lane) in (0..2).flat_map(|set| (1..=8).map(move |lane| (set, lane))) {
        let mut bank = [0; BANK_SIZE];
        select(1, &rw, &[], &mut bank, set, lane, 1);
        let stored = bank.iter().position(|&byte| byte == 1);
        assert_eq!(stored, Some(app_sel_at(set, lane)), "the AppSel of set {set}, lane {lane}");
    }
}

impl Loaded {
    /// The entries of an accepted map, or those before the entry that refused it.
    pub fn entries(&self) -> usize {
        self.rw_count + self.ro_count + self.at
    }

    /// The length of a staged set, else of the active set.
    pub fn length(&self, set: usize) -> usize {
        if set < 2 {
            self.staged_length
        } else {
            self.active_length
        }
    }
}

macro_rules! refused {
    ($($answer:ident)*) => {$(
        impl $answer {
            /// A refusal with the entry or lane that it names, or 0; every other member is 0.
            pub fn refused(refusal: usize, at: usize) -> $answer {
                $answer { refusal, at, ..$answer::default() }
            }
        }

        impl From<second::Refusal> for $answer {
            fn from(refusal: second::Refusal) -> $answer {
                let (number, at) = reason(refusal);
                $answer::refused(number, at)
            }
        }
    )*};
}

refused! { Loaded Passed Located Placed Owned Answered }

/// The number of the second program's refusal and the entry or lane that it names, as the engine answers them.
fn reason(refusal: second::Refusal) -> (usize, usize) {
    let number = refusal.number as usize;
    match (named(number), refusal.entry, refusal.lane) {
        (Named::Nothing, None, None) => (number, 0),
        (Named::Entry, Some(entry), None) => (number, entry),
        (Named::Lane, None, Some(lane)) => (number, lane),
        _ => panic!("the second program names something else: {refusal:?}"),
    }
}

macro_rules! answers {
    ($($answer:ident)*) => {$(
        impl Answer for $answer {
            fn refusal(&self) -> usize {
                self.refusal
            }
        }
    )*};
}

answers! { Loaded Passed Located Placed Owned Answered Taken }
