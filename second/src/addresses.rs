//! Note 2, "Register addresses": Table 4-1 of the agreement, and the list of a
//! set's addresses that is written out from it.

use std::iter;

use crate::map::Map;

/// Page and byte of a register.
pub type Address = (usize, usize);

/// A page, and the first and last of its bytes that a set has.
type Span = (usize, usize, usize);

/// Table 4-1 of the agreement, "CMIS base Control Set Memory Map": "Page" and
/// "Bytes", then "Overflow Page" and "Overflow Page Bytes". Its lines are Staged
/// Control Set 0, Staged Control Set 1 and Active Control Set.
const TABLE_4_1: [[Span; 2]; 3] = [
    [(0x10, 153, 175), (0x18, 144, 199)],
    [(0x10, 188, 210), (0x18, 200, 255)],
    [(0x11, 214, 234), (0x19, 152, 207)],
];

impl Map {
    /// The address of every byte of a set that exists, one after the other up to
    /// the set's length. The agreement's 4.4: pages 10h and 11h "must be filled
    /// first before moving on to the overflow pages". None behind these: "An
    /// offset past the last byte that the table gives its set has no address".
    pub fn addresses(&self, set: usize) -> Vec<Option<Address>> {
        let bytes = |(page, first, last): Span| (first..=last).map(move |byte| (page, byte));
        let given = TABLE_4_1[set].into_iter().flat_map(bytes);
        given.map(Some).chain(iter::repeat(None)).take(self.set_length(set)).collect()
    }
}
