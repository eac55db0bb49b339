//! The caller's refusals 8, 10 and 11 as checks one after the other. "Order:
//! 9, 8, 1 to 7, 10, 11, then 12, or 13 before 14." 9, and 1 to 7 with 16
//! beside them, stand with the reading of the strings.

use crate::map::{Entry, Map, LANES};
use crate::{Byte, Refusal};

pub const BANK: usize = 784;

fn refuse_if(wrong: bool, number: u32) -> Result<(), Refusal> {
    if wrong {
        Err(Refusal::caller(number))
    } else {
        Ok(())
    }
}

/// 8: "bank under 784 bytes (calls that take one)".
pub fn bank_8(bank: &[u8]) -> Result<(), Refusal> {
    refuse_if(bank.len() < BANK, 8)
}

/// 10: a set that doesn't exist.
pub fn set_10(set: usize) -> Result<(), Refusal> {
    refuse_if(set > 2, 10)
}

/// 10: a lane that doesn't exist.
pub fn lane_10(lane: usize) -> Result<(), Refusal> {
    refuse_if(!(1..=LANES).contains(&lane), 10)
}

/// 10: an entry that doesn't exist.
pub fn entry_10(map: &Map, entry: usize) -> Result<&Entry, Refusal> {
    map.entries.get(entry).ok_or(Refusal::caller(10))
}

/// 10: an entry, part or lane that doesn't exist, "or a field of an entry
/// without that field".
pub fn field_10(map: &Map, entry: usize, part: usize, lane: usize) -> Result<&Entry, Refusal> {
    let found = entry_10(map, entry)?;
    refuse_if(part >= found.row.parts, 10)?;
    lane_10(lane)?;
    Ok(found)
}

/// 10: an offset that doesn't exist in a set that exists.
pub fn offset_10(map: &Map, set: usize, offset: usize) -> Result<(), Refusal> {
    refuse_if(offset >= map.set_length(set), 10)
}

/// 10: a byte, in either form, that doesn't exist in a set that exists; its
/// offset. Note 2: "an address outside its set is refusal 10": it isn't among the
/// addresses of the set's bytes.
pub fn byte_10(map: &Map, set: usize, byte: Byte) -> Result<usize, Refusal> {
    match byte {
        Byte::Offset(offset) => offset_10(map, set, offset).map(|()| offset),
        Byte::Address { page, byte } => {
            let wanted = Some((page, byte));
            let offset = map.addresses(set).into_iter().position(|address| address == wanted);
            offset.ok_or(Refusal::caller(10))
        }
    }
}

/// 10: a bit that doesn't exist, "bit 0 to 7".
pub fn bit_10(bit: usize) -> Result<(), Refusal> {
    refuse_if(bit > 7, 10)
}

/// 11: "write, byte write, select or apply on set 2".
pub fn staged_11(set: usize) -> Result<(), Refusal> {
    refuse_if(set == 2, 11)
}

/// 11: "an RO entry in a staged set".
pub fn held_11(set: usize, entry: &Entry) -> Result<(), Refusal> {
    refuse_if(set != 2 && entry.info.in_ro, 11)
}

/// 11: "publish to an RW entry".
pub fn published_11(entry: &Entry) -> Result<(), Refusal> {
    refuse_if(!entry.info.in_ro, 11)
}

/// 12: "value or app not accepted".
pub fn accepted_12(accepted: bool) -> Result<(), Refusal> {
    refuse_if(!accepted, 12)
}
