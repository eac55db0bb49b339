//! "a reader over the lent string that keeps its position".

use crate::map::{check_9, mask_bytes, walk};
use crate::Step;

/// The lent string and the position in it.
#[derive(Clone, Copy, Debug)]
pub struct Reader<'a> {
    pub string: &'a [u8],
    pub position: usize,
}

impl Reader<'_> {
    /// "a step is given the count, makes the checks 9, 1 and 2 alone, in that
    /// order, gives the next entry's start and length, a refusal, or the end
    /// (no byte left from its position on, after check 9), and moves only past
    /// an entry". 16 is no check of the reader: it goes on past 16 entries.
    pub fn step(&mut self, count: usize) -> Step {
        if let Err(refusal) = check_9(count, &[self.string]) {
            return Step::Refused(refusal.number);
        }
        let step = walk(mask_bytes(count), self.string, self.position);
        if let Step::Entry { start, length } = step {
            self.position = start + length;
        }
        step
    }
}

/// The reader's step over one string, and the position after it.
pub fn reader_step(count: usize, string: &[u8], position: usize) -> (Step, usize) {
    let mut reader = Reader { string, position };
    let step = reader.step(count);
    (step, reader.position)
}
