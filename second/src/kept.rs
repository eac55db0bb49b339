//! Note 8, "One walk through the strings": a load "broken off after any entry
//! and taken up again", from what is kept and "the bytes not yet read".
//!
//! Two methods. `pass` judges the next entry by the numbers kept, and by them
//! alone. `resume` reads the rest onto a list as the load does, behind one entry
//! that stands for all that were passed.

use crate::map::{check_9, mask_bytes, read_onto, row, Entry, Side, ENTRY_LIMIT};
use crate::{Kept, Loaded, Refusal};

impl Kept {
    /// All entries passed: the number of the next one.
    fn passed(&self) -> usize {
        self.before.saturating_add(self.entries)
    }

    /// At the beginning of the RO string, the RW string having ended: "The
    /// staged length is the RW sum".
    fn at_ro(self) -> Kept {
        Kept { ro: true, entries: 0, before: self.passed(), staged: self.sum, ..self }
    }
}

fn refuse_if(wrong: bool, number: u32) -> Result<(), u32> {
    if wrong {
        Err(number)
    } else {
        Ok(())
    }
}

/// The entry at the head of the bytes left of its string, at least one: 16,
/// then 1 to 7; what is kept after it, and its Length.
fn judge_next(count: usize, left: &[u8], kept: Kept) -> Result<(Kept, usize), u32> {
    let a = mask_bytes(count);

    // 16: "a 17th entry, given before the other checks of that entry"
    refuse_if(kept.entries >= ENTRY_LIMIT, 16)?;

    // 1: "one byte left, or Length exceeds the bytes left"
    let &[id, length, ..] = left else {
        return Err(1);
    };
    let length = usize::from(length);
    let own = left.get(..length).ok_or(1u32)?;

    // 2: "Length below the least"
    let row = row(id);
    let least = row.least + a;
    refuse_if(length < least, 2)?;

    // 3: "ID in the wrong string"
    let wrong = if kept.ro { Side::Rw } else { Side::Ro };
    refuse_if(row.side == wrong, 3)?;

    // 4: "MemoryLength below the bytes needed"
    let memory = usize::from(own[2 + a]);
    refuse_if(memory < row.needed, 4)?;

    // 5: "step above 3", "a reserved step code". A step is the last named byte.
    let step = own[least - 1];
    refuse_if(row.steps.is_some_and(|(low, high)| step < low || high < step), 5)?;

    // 6: "an ID of 02h to 08h, host side, after a media-side table entry of the
    // RW string"; in the RO string these IDs were refused by 3.
    let media = row.in_table && own[3 + a] % 2 == 1;
    refuse_if(kept.media && !media && matches!(id, 0x02..=0x08), 6)?;

    // 7: "the sum of MemoryLengths passes 256"
    let sum = kept.sum.saturating_add(memory);
    refuse_if(sum > 256, 7)?;

    let media = kept.media || media;
    Ok((Kept { media, entries: kept.entries + 1, sum, ..kept }, length))
}

/// The next entry alone: what is kept after it and its Length, None where no
/// byte is left, or the refusal with its entry number. `rw` and `ro` are the
/// bytes not yet read; in the RO string no byte of `rw` is read.
pub fn pass(
    count: usize,
    rw: &[u8],
    ro: &[u8],
    kept: Kept,
) -> Result<Option<(Kept, usize)>, Refusal> {
    check_9(count, &[rw, ro])?;
    // An empty rest of the RW string: its end, so the entry is one of RO.
    let kept = if !kept.ro && rw.is_empty() { kept.at_ro() } else { kept };
    let left = if kept.ro { ro } else { rw };
    if left.is_empty() {
        return Ok(None);
    }
    let judged = judge_next(count, left, kept);
    judged.map(Some).map_err(|number| Refusal::maker(number, kept.passed()))
}

/// The load taken up again: "the same answer or refusal" as that of the whole
/// strings. `rw` and `ro` as for `pass`.
pub fn resume(count: usize, rw: &[u8], ro: &[u8], kept: Kept) -> Result<Loaded, Refusal> {
    check_9(count, &[rw, ro])?;
    let mut list = vec![Entry::standing_for(kept.sum, kept.media)];
    let memory = |list: &[Entry]| list.iter().map(|e| e.info.memory).sum();

    // The rest of the string that the load is in, then the RO string if that
    // was the RW string.
    let (string, room) = (if kept.ro { ro } else { rw }, ENTRY_LIMIT.saturating_sub(kept.entries));
    let done = read_onto(&mut list, count, (string, kept.ro), kept.passed(), room)?;
    let entries = kept.entries.saturating_add(done);
    if kept.ro {
        return Ok(Loaded {
            rw_entries: kept.before,
            ro_entries: entries,
            staged_length: kept.staged,
            active_length: memory(&list),
        });
    }
    let rw_entries = kept.before.saturating_add(entries);
    let staged_length = memory(&list);
    let ro_entries = read_onto(&mut list, count, (ro, true), rw_entries, ENTRY_LIMIT)?;
    Ok(Loaded { rw_entries, ro_entries, staged_length, active_length: memory(&list) })
}
