//! The plain peer of the engine for the benchmark: every call of include/vcs.h in ordinary Rust, with the same checks,
//! arguments and answers, written for speed.

#![allow(improper_ctypes_definitions)]

mod addresses;
mod apply;
mod layout;
mod resume;
mod rows;
mod walk;

use crate::engine::{Answered, FlatCall, Loaded, Located, Owned, Passed, Placed, State, Taken};
use layout::{app_sels_start, set_start, ACTIVE, BANK_SIZE};
use rows::{HAS_STEP, ROWS, SIGNED};
use walk::{find_byte, find_entry, walk, Entry, Map, Refusal};

/// The length of a bank that isn't asked for.
const NO_BANK: usize = usize::MAX;

/// Accepted, without a number.
const YES: Answered = Answered { refusal: 0, at: 0, number: 0 };

macro_rules! from_refusal {
    ($($answer:ident)*) => {$(
        impl From<Refusal> for $answer {
            #[inline(always)]
            fn from((number, at): Refusal) -> $answer {
                $answer::refused(number, at)
            }
        }
    )*};
}

from_refusal! { Loaded Passed Located Placed Owned Answered }

impl From<Map> for Loaded {
    #[inline(always)]
    fn from(Map { rw_count, ro_count, staged, active, .. }: Map) -> Loaded {
        Loaded { refusal: 0, at: 0, rw_count, ro_count, staged_length: staged, active_length: active }
    }
}

/// What a check passes on; its refusal is the call's answer.
macro_rules! passed {
    ($result:expr) => {
        match $result {
            Ok(value) => value,
            Err(refusal) => return refusal.into(),
        }
    };
}

/// The call's answer is this number if the condition holds.
macro_rules! refuse_if {
    ($condition:expr, $number:expr) => {
        if $condition {
            return ($number, 0).into();
        }
    };
}

impl Entry<'_> {
    #[inline(always)]
    fn has_field(&self, part: usize, lane: usize) -> bool {
        part < self.row.parts.into() && lane.wrapping_sub(1) < 8
    }

    /// Offset in a set and lowest bit there.
    #[inline(always)]
    fn place(&self, part: usize, lane: usize) -> (usize, usize) {
        let first = (lane - 1) << self.row.shift;
        (self.offset + (part << self.row.shift) + first / 8, first % 8)
    }

    /// The bits of a field that begins at bit 0.
    #[inline(always)]
    fn ones(&self) -> u8 {
        (0xFF_u16 >> (8 - (1 << self.row.shift))) as u8
    }

    #[inline(always)]
    fn number_at(&self, bank: &[u8], set: usize, part: usize, lane: usize) -> i64 {
        let (offset, bit) = self.place(part, lane);
        let bits = bank.get(set_start(set) + offset).map_or(0, |at| at >> bit & self.ones());
        if self.row.traits & SIGNED != 0 {
            i64::from(bits as i8)
        } else {
            i64::from(bits)
        }
    }

    #[inline(always)]
    fn store(&self, bank: &mut [u8], set: usize, part: usize, lane: usize, value: i64) {
        let (offset, bit) = self.place(part, lane);
        if let Some(at) = bank.get_mut(set_start(set) + offset) {
            *at = *at & !(self.ones() << bit) | (value as u8) << bit;
        }
    }

    #[inline(always)]
    fn accepts(&self, value: i64) -> bool {
        if self.row.shift < 3 {
            (0..16).contains(&value) && self.codes() >> value & 1 == 1
        } else if self.row.traits & SIGNED != 0 {
            let (min, max) = self.range();
            (min.into()..=max.into()).contains(&value)
        } else {
            (0..256).contains(&value)
        }
    }
}

/// The owner of a bit of the byte at an offset.
#[inline(always)]
fn owned(count: usize, rw: &[u8], ro: &[u8], set: usize, offset: usize, bit: usize) -> Owned {
    let map = passed!(walk(count, rw, ro, NO_BANK, &mut ()));
    refuse_if!(set > 2 || set < 2 && offset >= map.staged || bit > 7, 10);
    let e = passed!(map.covering(rw, ro, offset).ok_or((10, 0)));
    let (at, looked_at) = (offset - e.offset, e.number + 1);
    if at >= e.row.needed.into() {
        return Owned { gap: 1, looked_at, ..Owned::default() };
    }
    let part = at >> e.row.shift;
    let byte = at - (part << e.row.shift);
    let lane = ((8 * byte + bit) >> e.row.shift) + 1;
    Owned { refusal: 0, at: 0, gap: 0, entry: e.number, part, lane, looked_at }
}

/// Functions that are called as the engine's are: from C, and not inlined.
macro_rules! calls {
    ($(fn $name:ident($($argument:ident: $type:ty),*) -> $answer:ty $body:block)*) => {$(
        #[inline(never)]
        pub extern "C" fn $name($($argument: $type),*) -> $answer $body
    )*};
}

calls! {
    fn load(count: usize, rw: &[u8], ro: &[u8]) -> Loaded {
        passed!(walk(count, rw, ro, NO_BANK, &mut ())).into()
    }

    fn pass(count: usize, rw: &[u8], ro: &[u8], state: State) -> Passed {
        match passed!(resume::pass(count, rw, ro, state)) {
            Some((length, state)) => Passed { refusal: 0, at: 0, end: 0, length, state },
            None => Passed { end: 1, ..Passed::default() },
        }
    }

    fn resume(count: usize, rw: &[u8], ro: &[u8], state: State) -> Loaded {
        passed!(resume::resume(count, rw, ro, state)).into()
    }

    fn entry(count: usize, rw: &[u8], ro: &[u8], entry: usize) -> Located {
        let e = passed!(find_entry(count, rw, ro, NO_BANK, entry));
        Located { refusal: 0, at: 0, string: e.in_ro.into(), start: e.start, length: e.bytes.len(), offset: e.offset }
    }

    fn place(count: usize, rw: &[u8], ro: &[u8], set: usize, entry: usize, part: usize, lane: usize) -> Placed {
        let e = passed!(find_entry(count, rw, ro, NO_BANK, entry));
        refuse_if!(set > 2 || !e.has_field(part, lane), 10);
        refuse_if!(set < 2 && e.in_ro, 11);
        let (offset, bit) = e.place(part, lane);
        let (page, byte) = addresses::address(set, offset);
        Placed { refusal: 0, at: 0, offset, page, byte, bit }
    }

    fn owner(count: usize, rw: &[u8], ro: &[u8], set: usize, offset: usize, bit: usize) -> Owned {
        owned(count, rw, ro, set, offset, bit)
    }

    fn owner_at(count: usize, rw: &[u8], ro: &[u8], set: usize, page: usize, byte: usize, bit: usize) -> Owned {
        owned(count, rw, ro, set, addresses::offset(set, page, byte), bit)
    }

    fn fresh(count: usize, rw: &[u8], ro: &[u8], bank: &mut [u8]) -> Loaded {
        let map = passed!(walk(count, rw, ro, bank.len(), &mut ()));
        if let Some(bank) = bank.first_chunk_mut::<BANK_SIZE>() {
            *bank = [0; BANK_SIZE];
        }
        map.into()
    }

    fn select(count: usize, rw: &[u8], ro: &[u8], bank: &mut [u8], set: usize, lane: usize, app: usize) -> Answered {
        passed!(walk(count, rw, ro, bank.len(), &mut ()));
        let lane = lane.wrapping_sub(1);
        refuse_if!(set > 2 || lane > 7, 10);
        refuse_if!(set == 2, 11);
        refuse_if!(app > count, 12);
        if let Some(appsel) = bank.get_mut(app_sels_start(set) + lane) {
            *appsel = app as u8;
        }
        YES
    }

    fn write(
        count: usize, rw: &[u8], ro: &[u8], bank: &mut [u8], set: usize, entry: usize, part: usize, lane: usize,
        value: i64
    ) -> Answered {
        let e = passed!(find_entry(count, rw, ro, bank.len(), entry));
        refuse_if!(set > 2 || !e.has_field(part, lane), 10);
        refuse_if!(set == 2 || e.in_ro, 11);
        refuse_if!(!e.accepts(value), 12);
        e.store(bank, set, part, lane, value);
        YES
    }

    fn read(
        count: usize, rw: &[u8], ro: &[u8], bank: &[u8], set: usize, entry: usize, part: usize, lane: usize
    ) -> Answered {
        let e = passed!(find_entry(count, rw, ro, bank.len(), entry));
        refuse_if!(set > 2 || !e.has_field(part, lane), 10);
        refuse_if!(set < 2 && e.in_ro, 11);
        Answered { number: e.number_at(bank, set, part, lane), ..YES }
    }

    fn publish(
        count: usize, rw: &[u8], ro: &[u8], bank: &mut [u8], entry: usize, part: usize, lane: usize, value: i64
    ) -> Answered {
        let e = passed!(find_entry(count, rw, ro, bank.len(), entry));
        refuse_if!(!e.has_field(part, lane), 10);
        refuse_if!(!e.in_ro, 11);
        refuse_if!(!e.accepts(value), 12);
        e.store(bank, ACTIVE, part, lane, value);
        YES
    }

    fn byte_write(
        count: usize, rw: &[u8], ro: &[u8], bank: &mut [u8], set: usize, offset: usize, byte: u8
    ) -> Answered {
        let e = passed!(find_byte(count, rw, ro, bank.len(), offset));
        refuse_if!(set > 2 || set < 2 && e.in_ro, 10);
        refuse_if!(set == 2, 11);
        if let Some(at) = bank.get_mut(set_start(set) + offset) {
            *at = if offset - e.offset < e.row.needed.into() { byte } else { 0 };
        }
        YES
    }

    fn byte_read(count: usize, rw: &[u8], ro: &[u8], bank: &[u8], set: usize, offset: usize) -> Answered {
        let e = passed!(find_byte(count, rw, ro, bank.len(), offset));
        refuse_if!(set > 2 || set < 2 && e.in_ro, 10);
        let in_field = offset - e.offset < e.row.needed.into();
        match bank.get(set_start(set) + offset) {
            Some(&byte) if in_field => Answered { number: byte.into(), ..YES },
            _ => YES,
        }
    }

    fn apply(count: usize, rw: &[u8], ro: &[u8], bank: &mut [u8], set: usize, lanes: u8) -> Answered {
        passed!(apply::apply(count, rw, ro, bank, set, lanes));
        YES
    }

    fn perform(count: usize, rw: &[u8], ro: &[u8], bank: &mut [u8], call: FlatCall) -> Answered {
        let FlatCall { kind, set, entry, part, lane, offset, app, value, byte, lanes } = call;
        match kind {
            0 => select(count, rw, ro, bank, set, lane, app),
            1 => write(count, rw, ro, bank, set, entry, part, lane, value),
            2 => read(count, rw, ro, bank, set, entry, part, lane),
            3 => byte_write(count, rw, ro, bank, set, offset, byte),
            4 => byte_read(count, rw, ro, bank, set, offset),
            5 => publish(count, rw, ro, bank, entry, part, lane, value),
            6 => apply(count, rw, ro, bank, set, lanes),
            _ => {
                passed!(walk(count, rw, ro, bank.len(), &mut ()));
                (10, 0).into()
            }
        }
    }

    fn weight(count: usize, rw: &[u8], ro: &[u8], bank: &[u8], entry: usize, lane: usize) -> Answered {
        let e = passed!(find_entry(count, rw, ro, bank.len(), entry));
        refuse_if!(!e.in_ro || e.row.traits & HAS_STEP == 0 || !e.has_field(0, lane), 10);
        let thousandths = [10, 20, 25, 40][usize::from(e.step() & 3)];
        Answered { number: e.number_at(bank, ACTIVE, 0, lane) * thousandths, ..YES }
    }

    fn take(count: usize, string: &[u8], position: usize) -> Taken {
        let stay = Taken { position, ..Taken::default() };
        if count.wrapping_sub(1) >= 15 || string.len() > 120 {
            return Taken { refusal: 9, ..stay };
        }
        let a = if count <= 8 { 1 } else { 2 };
        match string.get(position..) {
            None | Some([]) => Taken { end: 1, ..stay },
            Some(rest @ &[id, length, ..]) if usize::from(length) <= rest.len() => {
                let length = usize::from(length);
                if length < usize::from(ROWS[usize::from(id)].least) + a {
                    return Taken { refusal: 2, ..stay };
                }
                Taken { refusal: 0, end: 0, start: position, length, position: position + length }
            }
            Some(_) => Taken { refusal: 1, ..stay },
        }
    }
}
