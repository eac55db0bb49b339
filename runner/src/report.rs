//! The one comparison that every call goes through: it counts the answer, and shows the case where programs differ.

use std::fmt::{Debug, Display};

use crate::reached::Reached;
use crate::tally::{Row, Tally};

/// An answer of a call; `refusal` is 0 if the call is accepted.
pub trait Answer: PartialEq + Debug {
    fn refusal(&self) -> usize;
}

/// Differences that are printed; further ones are only counted.
const SHOWN: u64 = 10;

pub struct Report {
    pub calls: Tally,
    pub reached: Reached,
    cases: u64,
    differences: u64,
}

impl Report {
    pub fn new(calls: &[&'static Row]) -> Report {
        Report { calls: Tally::new("call", calls), reached: Reached::new(), cases: 0, differences: 0 }
    }

    /// Compares the engine's answer with each of the others, and says whether all are equal.
    pub fn compare<A: Answer>(
        &mut self,
        call: &'static Row,
        case: &dyn Display,
        engine: &A,
        others: &[(&str, A)],
    ) -> bool {
        self.cases += 1;
        self.calls.count(call, engine.refusal());
        let agree = others.iter().all(|(_, other)| other == engine);
        if !agree {
            self.differences += 1;
            if self.differences <= SHOWN {
                println!("DIFFERENCE in {}: {case}", call.name);
                println!("  engine: {engine:?}");
                for (name, other) in others {
                    println!("  {name}: {other:?}");
                }
            }
        }
        agree
    }

    /// Prints the tables. True if every answer agreed and every number and condition was reached.
    pub fn finish(&self) -> bool {
        self.calls.print();
        self.reached.print();
        let mut faults = self.calls.faults();
        faults.extend(self.reached.faults());
        for fault in &faults {
            println!("NOT REACHED: {fault}");
        }
        if self.differences > 0 {
            println!("runner: {} of {} cases differ", self.differences, self.cases);
        } else if faults.is_empty() {
            println!("runner: {} cases agree", self.cases);
        } else {
            println!("runner: {} counts are wrong", faults.len());
        }
        self.differences == 0 && faults.is_empty()
    }
}
