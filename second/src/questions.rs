//! The calls that take no bank: load, entries, place, owner, the entry call.

use crate::judge;
use crate::map::{Map, Owner};
use crate::{Byte, EntryInfo, Loaded, Owned, Placed, Refusal};

/// "The load is the check of both strings."
pub fn load(count: usize, rw: &[u8], ro: &[u8]) -> Result<Loaded, Refusal> {
    Ok(Map::read(count, rw, ro)?.loaded)
}

/// The list of entries, RW first, RO after.
pub fn entries(count: usize, rw: &[u8], ro: &[u8]) -> Result<Vec<EntryInfo>, Refusal> {
    let map = Map::read(count, rw, ro)?;
    Ok(map.entries.iter().map(|e| e.info).collect())
}

/// "place (set, entry, part, lane) answers byte and lowest bit": the owners'
/// list is searched for the lowest bit of the field. Note 2: "Place shall answer
/// page, byte and lowest bit beside the offset"; a byte that has no address:
/// "place answers page 0 and byte 0".
pub fn place(
    count: usize,
    rw: &[u8],
    ro: &[u8],
    set: usize,
    entry: usize,
    part: usize,
    lane: usize,
) -> Result<Placed, Refusal> {
    let map = Map::read(count, rw, ro)?;
    judge::set_10(set)?;
    let found = judge::field_10(&map, entry, part, lane)?;
    judge::held_11(set, found)?;
    let wanted = Some(Owner::new(entry, part, lane, 0));
    let owners = map.owners(set);
    let at = owners.iter().position(|&owner| owner == wanted);
    // A field that passed the checks has a bit in the list.
    let at = at.ok_or(Refusal::caller(10))?;
    let (offset, bit) = (at / 8, at % 8);
    // A field lies below its set's length, by check 4.
    let (page, byte) = map.addresses(set)[offset].unwrap_or((0, 0));
    Ok(Placed { offset, page, byte, bit })
}

/// "owner (set, offset, bit 0 to 7) answers entry, part and lane, or gap"; note
/// 12: "The answer also carries the number of entries looked at", "Its other
/// fields stay as they were." A refusal carries no count. Note 2: "Owner accepts
/// either form" of the byte.
pub fn owner(
    count: usize,
    rw: &[u8],
    ro: &[u8],
    set: usize,
    byte: Byte,
    bit: usize,
) -> Result<Owned, Refusal> {
    let map = Map::read(count, rw, ro)?;
    judge::set_10(set)?;
    let offset = judge::byte_10(&map, set, byte)?;
    judge::bit_10(bit)?;
    let owners = map.owners(set);
    let field = owners[offset * 8 + bit].map(|owner| owner.field());
    Ok(Owned { field, looked_at: map.looked_at(offset) })
}

/// "the entry call (entry number) hands back that entry's own bytes, as a part
/// of the lent string".
pub fn entry_bytes<'a>(
    count: usize,
    rw: &'a [u8],
    ro: &'a [u8],
    entry: usize,
) -> Result<&'a [u8], Refusal> {
    let map = Map::read(count, rw, ro)?;
    let info = judge::entry_10(&map, entry)?.info;
    let string = if info.in_ro { ro } else { rw };
    Ok(&string[info.start..info.start + info.length])
}
