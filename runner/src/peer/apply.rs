//! Apply in one pass over the strings: lanes as masks, accepted codes as a 16-bit mask for each entry, Min and Max against
//! 8 bytes at once, and the active set merged with a mask of the bits that are copied.

use super::layout::{app_sels_start, set_start, ACTIVE, BANK_SIZE, SET_SIZE};
use super::rows::SIGNED;
use super::walk::{walk, Entry, Refusal, Visit};

/// All bits of the fields that a mask of lanes chooses in a part, by the width's power of 2 and the mask.
static SPREAD: [[u64; 256]; 4] = {
    let mut spread = [[0; 256]; 4];
    let mut at = 0;
    while at < 4 * 256 * 8 {
        let (shift, lanes, lane) = (at >> 11, at >> 3 & 255, at & 7);
        if lanes >> lane & 1 == 1 {
            spread[shift][lanes] |= ((1 << (1 << shift)) - 1) << (lane << shift);
        }
        at += 1;
    }
    spread
};

/// The bits of a set that are copied. 8 bytes are stored for any entry; those past its fields are 0.
type Mask = [u8; SET_SIZE + 8];

/// What is asked for, and what the entries that were passed make of it.
struct Plan<'a> {
    staged: &'a [u8],
    /// Lane 1 lowest.
    appsels: [u8; 8],
    /// None if there is no such staged set.
    chosen: u8,
    /// The last entry's application mask, and the chosen lanes whose AppSel it has. The next entry often has the same.
    last: (u16, u8),
    mask: &'a mut Mask,
    /// The lowest lane, from 0, with a field to be copied that holds a value not accepted: 14. Else 8.
    lowest: usize,
}

impl<'a> Plan<'a> {
    #[inline(always)]
    fn new(bank: &'a [u8], set: usize, chosen: u8, mask: &'a mut Mask) -> Plan<'a> {
        let mut plan = Plan { staged: &[], appsels: [0; 8], chosen: 0, last: (0, 0), mask, lowest: 8 };
        if let (0 | 1, Some(bank)) = (set, bank.first_chunk::<BANK_SIZE>()) {
            plan.staged = &bank[set_start(set)..];
            plan.appsels.copy_from_slice(&bank[app_sels_start(set)..][..8]);
            plan.chosen = chosen;
        }
        plan
    }

    /// The chosen lanes whose AppSel is 0 or above the count: 13.
    #[inline(always)]
    fn lacking(&self, count: usize) -> u8 {
        let lacks = |lane: usize| u8::from(usize::from(self.appsels[lane].wrapping_sub(1)) >= count);
        (0..8).fold(0, |lanes, lane| lanes | lacks(lane) << lane) & self.chosen
    }

    /// The chosen lanes whose AppSel an application mask has.
    #[inline(always)]
    fn lanes(&mut self, apps: u16) -> u8 {
        if apps != self.last.0 {
            self.last = (apps, lanes_with(self.appsels, apps) & self.chosen);
        }
        self.last.1
    }
}

/// The lanes whose AppSel an application mask has. A lane whose AppSel is above 15 may give anything: it is lacking.
#[inline(never)]
fn lanes_with(appsels: [u8; 8], apps: u16) -> u8 {
    let has = |lane: usize| (u32::from(apps) << 1 >> (appsels[lane] & 31) & 1) as u8;
    (0..8).fold(0, |lanes, lane| lanes | has(lane) << lane)
}

impl Visit for Plan<'_> {
    #[inline(always)]
    fn visit(&mut self, entry: Entry, _: usize) {
        if entry.in_ro || entry.row.parts == 0 {
            return;
        }
        let lanes = self.lanes(entry.apps());
        let (staged, mask) = (self.staged.get(entry.offset..), self.mask.get_mut(entry.offset..));
        let staged = staged.and_then(<[u8]>::first_chunk);
        let mask = mask.and_then(<[u8]>::first_chunk_mut);
        let (Some(&staged), Some(mask)) = (staged, mask) else { return };
        let (staged, copied) = (u64::from_le_bytes(staged), copied_bits(&entry, lanes));
        *mask = copied.to_le_bytes();
        if lanes != 0 && is_refused(&entry, staged, copied) {
            let lowest = match entry.row.shift {
                3 => (outside(entry.range(), staged) & copied).trailing_zeros() as usize / 8,
                shift => lowest_refused(entry.codes(), shift, staged, copied),
            };
            self.lowest = self.lowest.min(lowest);
        }
    }
}

/// The bits of an RW entry's fields in these lanes, its first byte lowest. Two parts have 4 bytes each.
#[inline(always)]
fn copied_bits(entry: &Entry, lanes: u8) -> u64 {
    let part = SPREAD[usize::from(entry.row.shift & 3)][usize::from(lanes)];
    if entry.row.parts == 2 {
        part << 32 | part
    } else {
        part
    }
}

/// The high bit of each byte.
const HIGH: u64 = 0x8080_8080_8080_8080;

/// The high bit of each byte that is less than the other's.
#[inline(always)]
fn less(bytes: u64, others: u64) -> u64 {
    // No byte borrows from the next.
    let low_bits = (bytes | HIGH) - (others & !HIGH);
    (!bytes & others | !(bytes ^ others) & !low_bits) & HIGH
}

/// The high bit of each byte that is a number below Min or above Max. With their high bits turned, numbers are ordered as bytes.
#[inline(always)]
fn outside((min, max): (i8, i8), staged: u64) -> u64 {
    let [min, max] = [min, max].map(|end| u64::from_le_bytes([end as u8; 8]) ^ HIGH);
    less(staged ^ HIGH, min) | less(max, staged ^ HIGH)
}

/// Whether one of the 8 lowest values of 4 bits is among the refused ones.
#[inline(always)]
fn has_one(refused: u64, values: u64) -> bool {
    let mut any = 0;
    for lane in 0..8 {
        any |= refused >> (values >> (4 * lane) & 63);
    }
    any & 1 != 0
}

/// Whether a copied field of an RW entry holds a value that isn't accepted. Some field is copied.
#[inline(always)]
fn is_refused(entry: &Entry, staged: u64, copied: u64) -> bool {
    match entry.row.shift {
        1 => staged & staged >> 1 & copied & 0x5555 != 0,
        2 => {
            let codes = entry.codes();
            // A field that isn't copied shows an accepted value, and the code mask recurs, so that 6 bits may ask it.
            let accepted = 0x1111_1111_1111_1111 * u64::from(codes.trailing_zeros() & 15);
            let shown = staged & copied | accepted & !copied;
            let refused = 0x0001_0001_0001_0001 * u64::from(!codes);
            has_one(refused, shown) || entry.row.parts == 2 && has_one(refused, shown >> 32)
        }
        3 => entry.row.traits & SIGNED != 0 && outside(entry.range(), staged) & copied != 0,
        _ => false,
    }
}

/// The lowest lane, from 0, with a copied field that holds a value which isn't accepted.
#[cold]
#[inline(never)]
fn lowest_refused(codes: u16, shift: u8, staged: u64, copied: u64) -> usize {
    let (width, ones) = (1 << shift, (1 << (1 << shift)) - 1);
    let bad = |bit: usize| copied >> bit & 1 == 1 && codes >> (staged >> bit & ones) & 1 == 0;
    (0..8).find(|lane| bad(lane * width) || bad(lane * width + 32)).unwrap_or(8)
}

#[inline(always)]
pub fn apply(count: usize, rw: &[u8], ro: &[u8], bank: &mut [u8], set: usize, lanes: u8) -> Result<(), Refusal> {
    let mut mask: Mask = [0; SET_SIZE + 8];
    let mut plan = Plan::new(bank, set, lanes, &mut mask);
    let map = walk(count, rw, ro, bank.len(), &mut plan)?;
    let (lacking, lowest) = (plan.lacking(count), plan.lowest);
    match set {
        0 | 1 if lacking != 0 => Err((13, lacking.trailing_zeros() as usize + 1)),
        0 | 1 if lowest < 8 => Err((14, lowest + 1)),
        0 | 1 => {
            copy(bank, set, &mask, map.staged);
            Ok(())
        }
        2 => Err((11, 0)),
        _ => Err((10, 0)),
    }
}

/// The masked bits of a staged set to the active set, 16 bytes at a time.
#[inline(always)]
fn copy(bank: &mut [u8], set: usize, mask: &[u8], length: usize) {
    let (staged, active) = bank.split_at_mut(set_start(ACTIVE));
    let staged = staged[set_start(set & 1)..].chunks_exact(16);
    let active = active.chunks_exact_mut(16);
    for ((active, staged), mask) in active.zip(staged).zip(mask.chunks_exact(16)).take(length.div_ceil(16)) {
        for ((active, staged), mask) in active.iter_mut().zip(staged).zip(mask) {
            *active = *active & !mask | staged & mask;
        }
    }
}
