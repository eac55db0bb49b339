//! Counts by row and number: a row is a call or a kind of entry, and the number its refusal, 0 for an accepted call; or a row is
//! a place in Table 4-1 and the number a set, or pages, and the number one of them.

use crate::refusals::{Numbers, FLOOR, LAST};

/// The documents' numbers; the last column takes any other.
const COLUMNS: usize = LAST + 2;

/// A row of a tally, the numbers that can occur in it, and how often each of them must.
pub struct Row {
    pub name: &'static str,
    pub numbers: Numbers,
    pub floor: u64,
}

impl Row {
    pub const fn new(name: &'static str, numbers: Numbers) -> Row {
        Row { name, numbers, floor: FLOOR }
    }
}

pub struct Tally {
    heading: &'static str,
    rows: Vec<(&'static Row, [u64; COLUMNS])>,
}

impl Tally {
    pub fn new(heading: &'static str, rows: &[&'static Row]) -> Tally {
        Tally { heading, rows: rows.iter().map(|&row| (row, [0; COLUMNS])).collect() }
    }

    /// Counts a number in one of the rows that the tally was made with.
    pub fn count(&mut self, row: &'static Row, number: usize) {
        let found = self.rows.iter_mut().find(|(known, _)| known.name == row.name);
        let (_, seen) = found.expect("a row of this tally");
        seen[number.min(COLUMNS - 1)] += 1;
    }

    /// The counts; a dot where a number can't occur.
    pub fn print(&self) {
        let used = |&column: &usize| self.rows.iter().any(|(row, _)| row.numbers.has(column));
        let columns: Vec<usize> = (0..COLUMNS).filter(used).collect();
        let heads: String = columns.iter().map(|column| format!("{column:>8}")).collect();
        println!("{:<24}{heads}", self.heading);
        for (row, seen) in &self.rows {
            let cell = |&column: &usize| match (row.numbers.has(column), seen[column]) {
                (false, 0) => format!("{:>8}", "."),
                (_, count) => format!("{count:>8}"),
            };
            println!("{:<24}{}", row.name, columns.iter().map(cell).collect::<String>());
        }
        println!();
    }

    /// Numbers that can occur and were seen too seldom, and numbers that can't occur and were seen.
    pub fn faults(&self) -> Vec<String> {
        let mut faults = Vec::new();
        for (row, seen) in &self.rows {
            for (number, &count) in seen.iter().enumerate() {
                let can_occur = row.numbers.has(number);
                let seen = format!("{}: {}: {number} seen {count} times", self.heading, row.name);
                if can_occur && count < row.floor {
                    faults.push(format!("{seen}, below {}", row.floor));
                }
                if !can_occur && count > 0 {
                    faults.push(format!("{seen}, can't occur"));
                }
            }
        }
        faults
    }
}
