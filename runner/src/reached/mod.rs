//! What the generated maps reached in the load, where it was taken up again, where owner found a byte and where in Table 4-1
//! place and owner stood, counted so that a generator that misses its aim fails the run.

mod addressed;
mod breaks;
mod found;
mod kinds;
mod limits;
mod look;
mod pairs;
mod states;

use crate::calls::resume::{Origin, Rest};
use crate::case::Case;
use crate::engine::{Loaded, Owned, Passed};
use crate::refusals::FLOOR;
use crate::tally::Tally;
use addressed::Addressed;
use breaks::{Break, BREAKS};
use found::{Found, FOUND};
use limits::LIMITS;
pub use look::Look;
use states::{TakenUp, STATES};

pub struct Reached {
    kinds: Tally,
    pairs: Tally,
    limits: Limits,
    broken_off: Tally,
    breaks: Limits,
    states: Limits,
    /// Of fields and of gaps.
    found: [Limits; 2],
    addressed: Addressed,
}

impl Reached {
    pub fn new() -> Reached {
        Reached {
            kinds: kinds::tally(),
            pairs: pairs::tally(),
            limits: Limits::new(LIMITS.iter().map(|(name, _)| *name)),
            broken_off: breaks::tally(),
            breaks: Limits::new(BREAKS.iter().map(|(name, _)| *name)),
            states: Limits::new(STATES.iter().map(|(name, _)| *name)),
            found: ["field", "gap"].map(|kind| Limits::new(FOUND.iter().map(|(name, _)| format!("{kind} {name}")))),
            addressed: Addressed::new(),
        }
    }

    /// Counts a load on whose answer all programs agree.
    pub fn count(&mut self, case: &Case, answer: Loaded) {
        let look = Look::new(*case, answer);
        if let Some(stop) = look.stop() {
            kinds::count(&mut self.kinds, answer.refusal, &stop);
            pairs::count(&mut self.pairs, answer.refusal, &look, &stop);
        }
        self.limits.count(LIMITS.iter().map(|(_, test)| test(&look)));
        if look.accepted() {
            self.addressed.loaded(&answer);
        }
    }

    /// Counts a load that was broken off, and what was left of it.
    pub fn broken_off(&mut self, look: &Look, rest: &Rest) {
        let at = Break { look, rest };
        breaks::count(&mut self.broken_off, &at);
        self.breaks.count(BREAKS.iter().map(|(_, test)| test(&at)));
    }

    /// Counts a load that was taken up from a state with bytes that needn't be its own.
    pub fn taken_up(&mut self, origin: Origin, rest: &Rest, passed: &Passed, loaded: &Loaded) {
        let at = TakenUp { origin, rest, passed, loaded };
        self.states.count(STATES.iter().map(|(_, test)| test(&at)));
    }

    /// Counts an accepted answer of owner on a map with more than two entries: with fewer, the sweep alone would do.
    pub fn owned(&mut self, look: &Look, offset: usize, owned: &Owned) {
        if look.passed().len() > 2 {
            let found = Found::new(look, offset, owned.looked_at);
            self.found[owned.gap].count(FOUND.iter().map(|(_, test)| test(&found)));
        }
    }

    /// Counts the place of a field of an entry.
    pub fn placed(&mut self, look: &Look, set: usize, entry: usize, offset: usize) {
        self.addressed.placed(look, set, entry, offset);
    }

    /// Counts an answer of owner by address, on an accepted map and of a bit that there is.
    pub fn asked(&mut self, look: &Look, set: usize, address: [usize; 2], owned: &Owned) {
        if set < 3 {
            self.addressed.asked(look, set, address, owned);
        }
    }

    pub fn print(&self) {
        self.kinds.print();
        self.pairs.print();
        self.limits.print();
        self.broken_off.print();
        self.breaks.print();
        self.states.print();
        self.found.iter().for_each(Limits::print);
        self.addressed.tallies().into_iter().for_each(Tally::print);
    }

    pub fn faults(&self) -> Vec<String> {
        let tallies = [&self.kinds, &self.pairs, &self.broken_off].into_iter().chain(self.addressed.tallies());
        let [fields, gaps] = &self.found;
        let limits = [&self.limits, &self.breaks, &self.states, fields, gaps].map(Limits::faults);
        tallies.map(Tally::faults).chain(limits).flatten().collect()
    }
}

/// Limits by name, and how often each was met.
struct Limits(Vec<(String, u64)>);

impl Limits {
    fn new(names: impl Iterator<Item = impl Into<String>>) -> Limits {
        Limits(names.map(|name| (name.into(), 0)).collect())
    }

    /// Says of each limit, in order, whether it was met.
    fn count(&mut self, met: impl Iterator<Item = bool>) {
        for ((_, seen), met) in self.0.iter_mut().zip(met) {
            *seen += u64::from(met);
        }
    }

    fn print(&self) {
        for (name, seen) in &self.0 {
            println!("{name:<44}{seen:>8}");
        }
        println!();
    }

    fn faults(&self) -> Vec<String> {
        let short = self.0.iter().filter(|(_, seen)| *seen < FLOOR);
        short.map(|(name, seen)| format!("{name}: seen {seen} times, below {FLOOR}")).collect()
    }
}
