//! A case: the count and both strings that every call is given, shown in hex.

use std::fmt;

/// Lent strings. They may be parts of one buffer.
#[derive(Clone, Copy)]
pub struct Case<'a> {
    pub count: usize,
    pub rw: &'a [u8],
    pub ro: &'a [u8],
}

impl<'a> Case<'a> {
    /// String 0 is RW, 1 is RO.
    pub fn string(&self, number: usize) -> &'a [u8] {
        if number == 0 {
            self.rw
        } else {
            self.ro
        }
    }
}

impl fmt::Display for Case<'_> {
    fn fmt(&self, f: &mut fmt::Formatter) -> fmt::Result {
        write!(f, "count {} rw {} ro {}", self.count, Hex(self.rw), Hex(self.ro))
    }
}

/// Bytes in hex, `-` for none.
pub struct Hex<'a>(pub &'a [u8]);

impl fmt::Display for Hex<'_> {
    fn fmt(&self, f: &mut fmt::Formatter) -> fmt::Result {
        if self.0.is_empty() {
            return f.write_str("-");
        }
        self.0.iter().try_for_each(|byte| write!(f, "{byte:02X}"))
    }
}
