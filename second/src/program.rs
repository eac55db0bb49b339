//! "The map program".

use crate::map::Map;
use crate::Refusal;

/// "It reads standard input: count, RW size, RW bytes, RO size, RO bytes, and
/// no more; a size is one byte." None is input that is short or long.
fn parts(input: &[u8]) -> Option<(usize, &[u8], &[u8])> {
    let (&count, rest) = input.split_first()?;
    let (&rw_size, rest) = rest.split_first()?;
    let (rw, rest) = rest.split_at_checked(usize::from(rw_size))?;
    let (&ro_size, rest) = rest.split_first()?;
    let (ro, rest) = rest.split_at_checked(usize::from(ro_size))?;
    rest.is_empty().then_some((usize::from(count), rw, ro))
}

/// "Input that is short or long prints `refused 9`; another refusal prints its
/// number so."
fn read(input: &[u8]) -> Result<Map, Refusal> {
    let (count, rw, ro) = parts(input).ok_or(Refusal::caller(9))?;
    Map::read(count, rw, ro)
}

/// Standard input to standard output, each line ended by a line feed.
pub fn map_program(input: &[u8]) -> Vec<u8> {
    let map = match read(input) {
        Ok(map) => map,
        // "That is then the only line."
        Err(refusal) => return format!("refused {}\n", refusal.number).into_bytes(),
    };
    // "entry number, ID, offset, MemoryLength, all in decimal, then staged and
    // active length"
    let mut out = String::from("entry id offset length\n");
    for (number, entry) in map.entries.iter().enumerate() {
        let info = entry.info;
        out += &format!("{} {} {} {}\n", number, info.id, info.offset, info.memory);
    }
    out += &format!("end {} {}\n", map.loaded.staged_length, map.loaded.active_length);
    out.into_bytes()
}
