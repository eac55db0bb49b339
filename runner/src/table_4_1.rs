//! Table 4-1 of OIF-CMIS-VCS-01.1: the pages and bytes of each set. Generators and counters aim by it, and owner by address is
//! compared with owner at the offset that it gives. The second program and the peer have tables of their own.

use crate::random::{Random, FAR};

/// Bytes of a page.
pub struct Range {
    pub page: usize,
    pub first: usize,
    pub last: usize,
}

/// The set's page and its overflow page.
pub const PAGE: usize = 0;
pub const OVERFLOW: usize = 1;

/// By set. Offsets run on from the page to the overflow page.
pub static TABLE: [[Range; 2]; 3] = [
    [range(0x10, 153, 175), range(0x18, 144, 199)],
    [range(0x10, 188, 210), range(0x18, 200, 255)],
    [range(0x11, 214, 234), range(0x19, 152, 207)],
];

/// The pages of the table; and others, which stand about them or end in their bits.
pub const PAGES: [usize; 4] = [0x10, 0x11, 0x18, 0x19];
pub const OTHER_PAGES: [usize; 11] = [0, 1, 0x0F, 0x12, 0x17, 0x1A, 0xFF, 0x110, 0x119, (1 << 32) + 0x18, usize::MAX];

const fn range(page: usize, first: usize, last: usize) -> Range {
    Range { page, first, last }
}

impl Range {
    pub fn length(&self) -> usize {
        self.last - self.first + 1
    }

    pub fn has(&self, [page, byte]: [usize; 2]) -> bool {
        page == self.page && (self.first..=self.last).contains(&byte)
    }
}

/// The first offset on a set's overflow page, and the first past it.
pub fn overflow(set: usize) -> usize {
    TABLE[set][PAGE].length()
}

pub fn end(set: usize) -> usize {
    overflow(set) + TABLE[set][OVERFLOW].length()
}

/// The page and byte of an offset, if it has them.
pub fn address(set: usize, offset: usize) -> Option<[usize; 2]> {
    let mut at = offset;
    for range in TABLE.get(set)? {
        if at < range.length() {
            return Some([range.page, range.first + at]);
        }
        at -= range.length();
    }
    None
}

/// The offset of a page and byte, if they are the set's.
pub fn offset(set: usize, address: [usize; 2]) -> Option<usize> {
    let mut before = 0;
    for range in TABLE.get(set)? {
        if range.has(address) {
            return Some(before + address[1] - range.first);
        }
        before += range.length();
    }
    None
}

/// An address to ask a set at: of this offset, at or beside an end of a range, likewise of another set; of any byte, of
/// another page or of none; now and then with a bit more.
pub fn about(random: &Random, set: usize, offset: usize) -> [usize; 2] {
    let other = random.below(TABLE.len());
    let set = if set < TABLE.len() { set } else { other };
    let [page, byte] = border(random, set);
    let mut near = match random.below(12) {
        0..=2 => address(set, offset).unwrap_or([0, 0]),
        3..=6 => [page, byte],
        7 => address(other, offset).unwrap_or([0, 0]),
        8 => border(random, other),
        9 => [page, random.below(256)],
        10 => [random.pick(&[0, random.pick(&OTHER_PAGES)]), byte],
        _ => [random.pick(&[0, page]), 0],
    };
    if random.once_in(12) {
        near[random.below(2)] |= random.pick(&FAR);
    }
    near
}

/// A byte at or beside an end of one of the set's ranges.
fn border(random: &Random, set: usize) -> [usize; 2] {
    let Range { page, first, last } = TABLE[set][random.below(2)];
    [page, random.pick(&[first - 1, first, first + 1, last - 1, last, last + 1])]
}
