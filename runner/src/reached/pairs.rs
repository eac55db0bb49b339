//! Several faults in one entry: the check that was answered, and each later one that fails there too.

use super::look::{Look, Seen};
use crate::refusals::checks_after;
use crate::tally::{Row, Tally};

/// The check that was answered, and its row. 5 and 6 never meet: none of 02h to 08h has a step.
static ANSWERED: [(usize, Row); 7] = [
    (16, Row::new("16 answered", checks_after(16))),
    (1, Row::new("1 answered", checks_after(1))),
    (2, Row::new("2 answered", checks_after(2))),
    (3, Row::new("3 answered", checks_after(3))),
    (4, Row::new("4 answered", checks_after(4))),
    (5, Row::new("5 answered", checks_after(5).without(6))),
    (6, Row::new("6 answered", checks_after(6))),
];

pub fn tally() -> Tally {
    Tally::new("and failing too", &ANSWERED.each_ref().map(|(_, row)| row))
}

pub fn count(tally: &mut Tally, refusal: usize, look: &Look, stop: &Seen) {
    for later in checks_after(refusal).iter().filter(|&later| look.fails(later, stop)) {
        let answered = ANSWERED.iter().find(|(check, _)| *check == refusal);
        let (_, row) = answered.expect("a row of every check but the last");
        tally.count(row, later);
    }
}
