//! The checks 9, 8, 16 and 1 to 7 in one pass over both strings, which shows each entry to the call as it passes; and owner's
//! search after it.

use super::layout::{BANK_SIZE, SET_SIZE};
use super::rows::{Row, HAS_CODES, HAS_FLAGS, HAS_STEP, HOST_FIRST, IN_RO, IN_RW, MAX_FIRST, ROWS};
use crate::strings::MOST_ENTRIES;

/// A refusal's number, and the entry or lane that it names, or 0.
pub type Refusal = (usize, usize);

/// An entry that has passed its checks.
#[derive(Clone, Copy)]
pub struct Entry<'a> {
    pub number: usize,
    pub in_ro: bool,
    pub a: usize,
    pub start: usize,
    pub bytes: &'a [u8],
    pub row: &'static Row,
    pub offset: usize,
}

impl Entry<'_> {
    /// The two bytes at a place, high byte first.
    #[inline(always)]
    fn pair(&self, at: usize) -> u16 {
        match self.bytes.get(at..) {
            Some(&[high, low, ..]) => u16::from_be_bytes([high, low]),
            _ => 0,
        }
    }

    /// The application mask: bit n means AppSel n + 1.
    #[inline(always)]
    pub fn apps(&self) -> u16 {
        self.pair(2) >> (16 - 8 * self.a)
    }

    /// The accepted values of a width below 8, as bits.
    #[inline(always)]
    pub fn codes(&self) -> u16 {
        if self.row.traits & HAS_CODES == 0 {
            return self.row.codes;
        }
        self.row.codes & self.pair(usize::from(self.row.least) + self.a - 2)
    }

    /// The least and the largest number of a signed field. In RO they are those of 8 bits.
    #[inline(always)]
    pub fn range(&self) -> (i8, i8) {
        if self.in_ro {
            return (i8::MIN, i8::MAX);
        }
        let pair = self.pair(5 + self.a);
        let [min, max] = if self.row.traits & MAX_FIRST == 0 { pair } else { pair.swap_bytes() }.to_be_bytes();
        (min as i8, max as i8)
    }

    /// The step of a 12h entry.
    #[inline(always)]
    pub fn step(&self) -> u8 {
        self.bytes.get(5 + self.a).copied().unwrap_or(0)
    }
}

/// What a call does with each entry as the walk passes it, and with the next one's offset. A later one may be refused.
pub trait Visit {
    fn visit(&mut self, entry: Entry, end: usize);
}

impl Visit for () {
    #[inline(always)]
    fn visit(&mut self, _: Entry, _: usize) {}
}

/// What an accepted map amounts to.
pub struct Map {
    a: usize,
    pub rw_count: usize,
    pub ro_count: usize,
    pub staged: usize,
    pub active: usize,
}

impl Map {
    /// Owner's search after the walk: the entries of the byte's string in order, up to the one whose space has the byte.
    #[inline(always)]
    pub fn covering<'a>(&self, rw: &'a [u8], ro: &'a [u8], byte: usize) -> Option<Entry<'a>> {
        let (a, in_ro) = (self.a, byte >= self.staged);
        let (string, mut number, mut offset) = if in_ro { (ro, self.rw_count, self.staged) } else { (rw, 0, 0) };
        let mut start = 0;
        loop {
            let rest = string.get(start..)?;
            let (&id, &length, &memory) = (rest.first()?, rest.get(1)?, rest.get(2 + a)?);
            let end = offset + usize::from(memory);
            if byte < end {
                let (bytes, row) = (rest.get(..length.into())?, &ROWS[usize::from(id)]);
                return Some(Entry { number, in_ro, a, start, bytes, row, offset });
            }
            (number, start, offset) = (number + 1, start + usize::from(length), end);
        }
    }
}

/// Where the walk stands: the number of the next entry, over both strings, and how many stand before its string.
#[derive(Default)]
pub struct Walk {
    pub number: usize,
    pub before: usize,
    pub sum: usize,
    pub media: bool,
}

impl Walk {
    /// One string. The error is the number of the first check that the entry `self.number` fails.
    #[inline(always)]
    fn string<const A: usize>(&mut self, side: u8, string: &[u8], visitor: &mut impl Visit) -> Result<(), usize> {
        let mut at = 0;
        while let Some(rest) = string.get(at..).filter(|rest| !rest.is_empty()) {
            at += self.entry::<A>(side, at, rest, visitor)?;
        }
        Ok(())
    }

    /// The entry that begins at a place of its string, with the bytes from there on: its Length, or as above.
    #[inline(always)]
    pub fn entry<const A: usize>(
        &mut self,
        side: u8,
        at: usize,
        rest: &[u8],
        visitor: &mut impl Visit,
    ) -> Result<usize, usize> {
        if self.number >= self.before + MOST_ENTRIES {
            return Err(16);
        }
        let &[id, length, ..] = rest else { return Err(1) };
        let length = usize::from(length);
        let Some(bytes) = rest.get(..length) else { return Err(1) };
        let row = &ROWS[usize::from(id)];
        if length < usize::from(row.least) + A {
            return Err(2);
        }
        if row.traits & side == 0 {
            return Err(3);
        }
        // What is read is within the least Length, so no `else` below is taken.
        let Some(&memory) = bytes.get(2 + A) else { return Err(2) };
        if memory < row.needed {
            return Err(4);
        }
        let (step_at, first) = if side == IN_RO { (5 + A, 0) } else { (7 + A, row.first_step) };
        if row.traits & HAS_STEP != 0 && bytes.get(step_at).is_none_or(|&step| step.wrapping_sub(first) > 3) {
            return Err(5);
        }
        let media = row.traits & HAS_FLAGS != 0 && bytes.get(3 + A).is_some_and(|flags| flags & 1 != 0);
        if self.media && !media && row.traits & HOST_FIRST != 0 {
            return Err(6);
        }
        let end = self.sum + usize::from(memory);
        if end > SET_SIZE {
            return Err(7);
        }
        let (number, in_ro, offset) = (self.number, side == IN_RO, self.sum);
        visitor.visit(Entry { number, in_ro, a: A, start: at, bytes, row, offset }, end);
        self.media |= media;
        self.sum = end;
        self.number += 1;
        Ok(length)
    }

    /// The entries of its string that were passed.
    #[inline(always)]
    pub fn entries(&self) -> usize {
        self.number - self.before
    }

    /// From the end of the RW string into the RO string.
    #[inline(always)]
    pub fn enter_ro(&mut self) {
        self.number = self.entries();
        self.before = self.number;
    }
}

/// 9.
#[inline(always)]
pub fn sized(count: usize, rw: &[u8], ro: &[u8]) -> Result<(), Refusal> {
    if count.wrapping_sub(1) >= 15 || rw.len() > 120 || ro.len() > 120 {
        return Err((9, 0));
    }
    Ok(())
}

/// Walks both strings. A call without a bank gives `usize::MAX` as its length.
#[inline(always)]
pub fn walk(count: usize, rw: &[u8], ro: &[u8], bank_length: usize, visitor: &mut impl Visit) -> Result<Map, Refusal> {
    sized(count, rw, ro)?;
    if bank_length < BANK_SIZE {
        return Err((8, 0));
    }
    if count <= 8 {
        from_rw::<1>(Walk::default(), rw, ro, visitor)
    } else {
        from_rw::<2>(Walk::default(), rw, ro, visitor)
    }
}

/// From a place of the RW string to the end. A is a constant of the loops, which are compiled for each.
#[inline(always)]
pub fn from_rw<const A: usize>(mut walk: Walk, rw: &[u8], ro: &[u8], visitor: &mut impl Visit) -> Result<Map, Refusal> {
    walk.string::<A>(IN_RW, rw, visitor).map_err(|number| (number, walk.number))?;
    let staged = walk.sum;
    walk.enter_ro();
    from_ro::<A>(walk, staged, ro, visitor)
}

/// From a place of the RO string to the end.
#[inline(always)]
pub fn from_ro<const A: usize>(
    mut walk: Walk,
    staged: usize,
    ro: &[u8],
    visitor: &mut impl Visit,
) -> Result<Map, Refusal> {
    walk.string::<A>(IN_RO, ro, visitor).map_err(|number| (number, walk.number))?;
    Ok(Map { a: A, rw_count: walk.before, ro_count: walk.entries(), staged, active: walk.sum })
}

/// Keeps number, start and offset of the entry that a call names.
struct Find<F> {
    wanted: F,
    number: usize,
    start: usize,
    offset: usize,
}

impl<F: Fn(&Entry, usize) -> bool> Visit for Find<F> {
    #[inline(always)]
    fn visit(&mut self, entry: Entry, end: usize) {
        if (self.wanted)(&entry, end) {
            (self.number, self.start, self.offset) = (entry.number, entry.start, entry.offset);
        }
    }
}

impl<F> Find<F> {
    fn new(wanted: F) -> Find<F> {
        Find { wanted, number: 0, start: 0, offset: 0 }
    }

    /// The entry again, from its string.
    #[inline(always)]
    fn entry<'a>(&self, map: &Map, string: &'a [u8], in_ro: bool) -> Result<Entry<'a>, Refusal> {
        let &Find { number, start, offset, .. } = self;
        let Some(rest @ &[id, length, ..]) = string.get(start..) else { return Err((10, 0)) };
        let bytes = rest.get(..length.into()).unwrap_or(rest);
        Ok(Entry { number, in_ro, a: map.a, start, bytes, row: &ROWS[usize::from(id)], offset })
    }
}

/// Walks both strings for a call that names an entry: that entry, or 10.
#[inline(always)]
pub fn find_entry<'a>(
    count: usize,
    rw: &'a [u8],
    ro: &'a [u8],
    bank_length: usize,
    number: usize,
) -> Result<Entry<'a>, Refusal> {
    let mut find = Find::new(|entry: &Entry, _| entry.number == number);
    let map = walk(count, rw, ro, bank_length, &mut find)?;
    if number < map.rw_count {
        find.entry(&map, rw, false)
    } else if number < map.rw_count + map.ro_count {
        find.entry(&map, ro, true)
    } else {
        Err((10, 0))
    }
}

/// Walks both strings for a call that names a byte: the entry whose space has it, or 10.
#[inline(always)]
pub fn find_byte<'a>(
    count: usize,
    rw: &'a [u8],
    ro: &'a [u8],
    bank_length: usize,
    offset: usize,
) -> Result<Entry<'a>, Refusal> {
    let mut find = Find::new(|entry: &Entry, end| entry.offset <= offset && offset < end);
    let map = walk(count, rw, ro, bank_length, &mut find)?;
    if offset < map.staged {
        find.entry(&map, rw, false)
    } else if offset < map.active {
        find.entry(&map, ro, true)
    } else {
        Err((10, 0))
    }
}
