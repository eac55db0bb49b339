//! "What a module advertises" and "Where a field lies": the table of IDs, the
//! reading of both strings into a list of entries, and the owners' list.

use crate::{EntryInfo, Loaded, Refusal, Step};

/// The lanes of a part: "lane i, 1 to 8".
pub const LANES: usize = 8;
/// The bits of one set: 256 bytes.
pub const SET_BITS: usize = 2048;
/// The most entries of a string. Note 7: "That becomes the limit for each
/// string".
pub const ENTRY_LIMIT: usize = 16;

// ---------------------------------------------------------------------------
// "Every rule about an ID is read from this table"
// ---------------------------------------------------------------------------

/// The strings an ID may stand in.
#[derive(Clone, Copy, Debug, PartialEq, Eq)]
pub enum Side {
    Rw,
    Ro,
    Either,
}

/// "the extras named in the table", in the order they are named. Those of 09h,
/// 0Ah and 0Dh stand as the agreement's descriptor tables have them: note 1,
/// "Read them as sections 5.11 to 5.16 of source document 002 give their
/// attributes, widths and ranges".
#[derive(Clone, Copy, Debug, PartialEq, Eq)]
pub enum Extras {
    None,
    CodeMask,
    IndexCodeMask,
    IndexStep,
    /// Tables 5-24 and 5-26: EqualizerTarget, Min, Max, StepSize.
    TargetMinMaxStep,
    /// Table 5-33: PrePostCursorIndex, Max, Min, StepSize; Max stands first.
    IndexMaxMinStep,
}

/// One line of the table, or one of the two kinds without fields.
#[derive(Debug)]
pub struct Row {
    /// An ID of the table: it has PropertyFlags and fields.
    pub in_table: bool,
    pub side: Side,
    pub parts: usize,
    /// W, "the bits a lane".
    pub width: usize,
    pub needed: usize,
    /// The least Length is this + A.
    pub least: usize,
    pub extras: Extras,
    /// The step codes that are not reserved, both ends in; None without a step.
    pub steps: Option<(u8, u8)>,
    /// "A field of 11h or 12h holds a two's complement number"; note 1: "A
    /// field with a signed range holds a two's complement number, as 11h does."
    pub signed: bool,
    /// Accepted values as ranges, both ends in; a code mask, or Min and Max,
    /// come on top.
    pub accepted: &'static [(i64, i64)],
}

/// The classes of IDs; the rows stand in this order. 09h to 0Eh by note 1:
/// "They join the table of document 01", "parts in the order of their register
/// tables", which have one line each. 0Bh and 0Ch have the line of 02h, 0Eh that
/// of 04h.
#[derive(Clone, Copy, Debug, PartialEq, Eq)]
enum Class {
    Id02h05h06h0Bh0Ch,
    Id03h,
    Id04h0Eh,
    Id07h,
    Id08h,
    Id09h0Ah,
    Id0Dh,
    Id0Fh10h,
    Id11h,
    Id12h,
    /// 00h and 13h to FFh, "in either string".
    SpaceInEither,
    /// 01h, opaque: "01h to 10h only in RW".
    SpaceInRw,
}

#[rustfmt::skip]
const ROWS: [Row; 12] = [
    Row { in_table: true, side: Side::Rw, parts: 1, width: 1, needed: 1, least: 4, extras: Extras::None, steps: None, signed: false, accepted: &[(0, 1)] },
    Row { in_table: true, side: Side::Rw, parts: 1, width: 2, needed: 2, least: 4, extras: Extras::None, steps: None, signed: false, accepted: &[(0, 2)] },
    Row { in_table: true, side: Side::Rw, parts: 1, width: 4, needed: 4, least: 6, extras: Extras::CodeMask, steps: None, signed: false, accepted: &[(0, 15)] },
    Row { in_table: true, side: Side::Rw, parts: 2, width: 4, needed: 8, least: 7, extras: Extras::IndexCodeMask, steps: None, signed: false, accepted: &[(0, 7), (11, 15)] },
    Row { in_table: true, side: Side::Rw, parts: 1, width: 4, needed: 4, least: 6, extras: Extras::CodeMask, steps: None, signed: false, accepted: &[(0, 3), (15, 15)] },
    Row { in_table: true, side: Side::Rw, parts: 1, width: 8, needed: 8, least: 8, extras: Extras::TargetMinMaxStep, steps: Some((1, 4)), signed: true, accepted: &[(-128, 127)] },
    Row { in_table: true, side: Side::Rw, parts: 1, width: 8, needed: 8, least: 8, extras: Extras::IndexMaxMinStep, steps: Some((0, 3)), signed: true, accepted: &[(-128, 127)] },
    Row { in_table: true, side: Side::Rw, parts: 1, width: 8, needed: 8, least: 4, extras: Extras::None, steps: None, signed: false, accepted: &[(0, 255)] },
    Row { in_table: true, side: Side::Ro, parts: 2, width: 8, needed: 16, least: 4, extras: Extras::None, steps: None, signed: true, accepted: &[(-128, 127)] },
    Row { in_table: true, side: Side::Ro, parts: 1, width: 8, needed: 8, least: 6, extras: Extras::IndexStep, steps: Some((0, 3)), signed: true, accepted: &[(-128, 127)] },
    Row { in_table: false, side: Side::Either, parts: 0, width: 0, needed: 0, least: 3, extras: Extras::None, steps: None, signed: false, accepted: &[] },
    Row { in_table: false, side: Side::Rw, parts: 0, width: 0, needed: 0, least: 3, extras: Extras::None, steps: None, signed: false, accepted: &[] },
];

fn class(id: u8) -> Class {
    match id {
        0x02 | 0x05 | 0x06 | 0x0B | 0x0C => Class::Id02h05h06h0Bh0Ch,
        0x03 => Class::Id03h,
        0x04 | 0x0E => Class::Id04h0Eh,
        0x07 => Class::Id07h,
        0x08 => Class::Id08h,
        0x09 | 0x0A => Class::Id09h0Ah,
        0x0D => Class::Id0Dh,
        0x0F | 0x10 => Class::Id0Fh10h,
        0x11 => Class::Id11h,
        0x12 => Class::Id12h,
        0x00 | 0x13..=0xFF => Class::SpaceInEither,
        0x01 => Class::SpaceInRw,
    }
}

pub fn row(id: u8) -> &'static Row {
    &ROWS[class(id) as usize]
}

// ---------------------------------------------------------------------------
// The list of entries
// ---------------------------------------------------------------------------

/// One accepted entry with everything its bytes say.
#[derive(Clone, Copy, Debug)]
pub struct Entry {
    pub info: EntryInfo,
    pub row: &'static Row,
    /// apps[n]: the application mask has AppSel n. 0 and AppSels above the
    /// count are never in it.
    pub apps: [bool; 16],
    /// PropertyFlags bit 0: "Bit 0 set means media side." False where the
    /// flags are not read.
    pub media: bool,
    pub code_mask: Option<u16>,
    /// Min and Max of 09h, 0Ah and 0Dh; Min may be above Max.
    pub range: Option<(i64, i64)>,
    pub step: Option<u8>,
}

impl Entry {
    /// An entry of space that stands for entries no longer at hand: the sum of
    /// their MemoryLengths, and whether one of them was media side.
    pub fn standing_for(memory: usize, media: bool) -> Entry {
        let info = EntryInfo { id: 0x00, start: 0, length: 0, offset: 0, memory, in_ro: false };
        let (apps, row) = ([false; 16], row(info.id));
        Entry { info, row, apps, media, code_mask: None, range: None, step: None }
    }

    /// The column "accepted values", "if in the mask" where there is one, and
    /// from Min to Max, both in, where these stand. Min above Max accepts none.
    pub fn accepts(&self, value: i64) -> bool {
        let in_table = self.row.accepted.iter().any(|&(low, high)| low <= value && value <= high);
        let in_mask = match self.code_mask {
            None => true,
            // "value v is in it if bit v is 1"
            Some(mask) => (0..16).contains(&value) && (mask >> value) & 1 == 1,
        };
        let in_range = self.range.is_none_or(|(min, max)| min <= value && value <= max);
        in_table && in_mask && in_range
    }

    /// "each RW field whose entry's mask has the lane's AppSel"
    pub fn has_app(&self, app: usize) -> bool {
        self.apps.get(app).copied().unwrap_or(false)
    }

    /// The number that a field's bits, read as an unsigned pattern, hold.
    pub fn number(&self, pattern: u8) -> i64 {
        let pattern = i64::from(pattern);
        if self.row.signed && pattern >= 1 << (self.row.width - 1) {
            pattern - (1 << self.row.width)
        } else {
            pattern
        }
    }

    /// The unsigned pattern of a number that a field holds; the inverse of
    /// `number`.
    pub fn pattern(&self, number: i64) -> u8 {
        let pattern = if number < 0 { number + (1 << self.row.width) } else { number };
        pattern as u8
    }
}

/// Both strings, read and accepted.
#[derive(Clone, Debug)]
pub struct Map {
    pub count: usize,
    pub entries: Vec<Entry>,
    pub loaded: Loaded,
}

/// 9: "count not 1 to 15, or a string over 120".
pub fn check_9(count: usize, strings: &[&[u8]]) -> Result<(), Refusal> {
    if !(1..=15).contains(&count) || strings.iter().any(|string| string.len() > 120) {
        return Err(Refusal::caller(9));
    }
    Ok(())
}

/// A: "1 for a count of 1 to 8 and 2 above".
pub fn mask_bytes(count: usize) -> usize {
    if count <= 8 {
        1
    } else {
        2
    }
}

/// One step of the walk over a string, with the checks 1 and 2 alone.
pub fn walk(a: usize, string: &[u8], position: usize) -> Step {
    let left = string.len().saturating_sub(position);
    if left == 0 {
        return Step::End;
    }
    // 1: "one byte left, or Length exceeds the bytes left, both counted from
    // the entry's ID on"
    if left == 1 {
        return Step::Refused(1);
    }
    let id = string[position];
    let length = usize::from(string[position + 1]);
    if length > left {
        return Step::Refused(1);
    }
    // 2: "Length below the least". The least is above 0, so the walk moves on.
    if length < row(id).least + a {
        return Step::Refused(2);
    }
    Step::Entry { start: position, length }
}

/// The decode of one entry.
#[derive(Clone, Copy, Debug)]
enum Decoded {
    Entry(Entry),
    Refused(u32),
}

/// Decodes the entry that begins at `position`, where a byte is left, and
/// follows the entries `before`.
fn decode(count: usize, string: &[u8], in_ro: bool, position: usize, before: &[Entry]) -> Decoded {
    let a = mask_bytes(count);
    let (start, length) = match walk(a, string, position) {
        Step::Entry { start, length } => (start, length),
        Step::Refused(number) => return Decoded::Refused(number),
        Step::End => unreachable!("a byte is left"),
    };
    let bytes = &string[start..start + length];
    let id = bytes[0];
    let row = row(id);

    // 3: "ID in the wrong string"
    let right = match row.side {
        Side::Rw => !in_ro,
        Side::Ro => in_ro,
        Side::Either => true,
    };
    if !right {
        return Decoded::Refused(3);
    }

    // 4: "MemoryLength below the bytes needed"
    let memory = usize::from(bytes[2 + a]);
    if memory < row.needed {
        return Decoded::Refused(4);
    }

    // PropertyFlags, then the extras; check 2 has them all inside the entry.
    let two = |at: usize| u16::from(bytes[at]) << 8 | u16::from(bytes[at + 1]);
    let signed = |at: usize| i64::from(bytes[at] as i8);
    let media = row.in_table && bytes[3 + a] & 1 == 1;
    let code_mask = match row.extras {
        Extras::CodeMask => Some(two(4 + a)),
        Extras::IndexCodeMask => Some(two(5 + a)),
        Extras::None | Extras::IndexStep => None,
        Extras::TargetMinMaxStep | Extras::IndexMaxMinStep => None,
    };
    // Min and Max are "S8" in the agreement.
    let range = match row.extras {
        Extras::TargetMinMaxStep => Some((signed(5 + a), signed(6 + a))),
        Extras::IndexMaxMinStep => Some((signed(6 + a), signed(5 + a))),
        Extras::None | Extras::CodeMask | Extras::IndexCodeMask | Extras::IndexStep => None,
    };
    let step = match row.extras {
        Extras::IndexStep => Some(bytes[5 + a]),
        Extras::TargetMinMaxStep | Extras::IndexMaxMinStep => Some(bytes[7 + a]),
        Extras::None | Extras::CodeMask | Extras::IndexCodeMask => None,
    };

    // 5: "step above 3"; note 1: "5 (a reserved step code)". The other extras
    // may hold anything.
    if step.zip(row.steps).is_some_and(|(step, (low, high))| step < low || step > high) {
        return Decoded::Refused(5);
    }

    // 6: "an ID of 02h to 08h, host side, after a media-side table entry of
    // the RW string". `media` is set for table entries alone, those of note 1
    // too: "6 only as the earlier media-side entry".
    if (0x02..=0x08).contains(&id) && !media && before.iter().any(|e| !e.info.in_ro && e.media) {
        return Decoded::Refused(6);
    }

    // 7: "the sum of MemoryLengths passes 256", this entry's own in it
    let offset: usize = before.iter().map(|e| e.info.memory).sum();
    if offset > 256 - memory {
        return Decoded::Refused(7);
    }

    // "application mask, A bytes, high byte first"; "Bit n of the mask means
    // AppSel n + 1; bits above the count are ignored"
    let mask = if a == 1 { u16::from(bytes[2]) } else { two(2) };
    let mut apps = [false; 16];
    for n in 0..count {
        apps[n + 1] = (mask >> n) & 1 == 1;
    }

    let info = EntryInfo { id, start, length, offset, memory, in_ro };
    Decoded::Entry(Entry { info, row, apps, media, code_mask, range, step })
}

/// Reads a string onto the list, each entry once. `passed` entries stand before
/// it in the numbering, and `room` more are inside the limit. Answers how many
/// it has.
pub fn read_onto(
    list: &mut Vec<Entry>,
    count: usize,
    (string, in_ro): (&[u8], bool),
    passed: usize,
    room: usize,
) -> Result<usize, Refusal> {
    let (mut position, mut done) = (0, 0);
    while position < string.len() {
        // Note 7: "16, a 17th entry, given before the other checks of that
        // entry". Any byte left is the ID of one.
        let decoded = match done < room {
            true => decode(count, string, in_ro, position, list),
            false => Decoded::Refused(16),
        };
        // "The first entry that fails any check ends the load"
        let Decoded::Entry(entry) = decoded else {
            return Err(decoded.refusal(passed.saturating_add(done)));
        };
        // "The next entry begins directly after the last byte."
        position += entry.info.length;
        done += 1;
        list.push(entry);
    }
    Ok(done)
}

impl Map {
    /// "The load is the check of both strings": 9, then 1 to 7 and 16.
    pub fn read(count: usize, rw: &[u8], ro: &[u8]) -> Result<Map, Refusal> {
        check_9(count, &[rw, ro])?;

        // "Entries are numbered from 0, RW first, RO after."
        let mut entries = Vec::new();
        let in_rw = read_onto(&mut entries, count, (rw, false), 0, ENTRY_LIMIT)?;
        read_onto(&mut entries, count, (ro, true), in_rw, ENTRY_LIMIT)?;

        // "The staged length is the RW sum, the active length the sum of all."
        let rw_part = || entries.iter().filter(|e| !e.info.in_ro);
        let loaded = Loaded {
            rw_entries: rw_part().count(),
            ro_entries: entries.len() - rw_part().count(),
            staged_length: rw_part().map(|e| e.info.memory).sum(),
            active_length: entries.iter().map(|e| e.info.memory).sum(),
        };
        Ok(Map { count, entries, loaded })
    }

    /// "An offset is judged against its own set's length."
    pub fn set_length(&self, set: usize) -> usize {
        if set == 2 {
            self.loaded.active_length
        } else {
            self.loaded.staged_length
        }
    }

    /// Note 12, "the number of entries looked at" for a byte below a set's
    /// length: those that begin at or before the byte. All that are passed do,
    /// MemoryLength 0 or not, and so does the one "whose space covers the byte";
    /// what follows begins behind that space.
    pub fn looked_at(&self, byte: usize) -> usize {
        self.entries.iter().filter(|e| e.info.offset <= byte).count()
    }

    /// "that the set holds (staged: RW only)"
    pub fn set_holds(&self, set: usize, entry: usize) -> bool {
        self.entries.get(entry).is_some_and(|e| set == 2 || !e.info.in_ro)
    }
}

impl Decoded {
    /// "its entry number is answered too"
    fn refusal(self, entry: usize) -> Refusal {
        match self {
            Decoded::Refused(number) => Refusal::maker(number, entry),
            Decoded::Entry(_) => unreachable!("an entry is no refusal"),
        }
    }
}

// ---------------------------------------------------------------------------
// The owners' list
// ---------------------------------------------------------------------------

/// The owner of one bit of a set, and which bit of the field it is. Small
/// numbers: a map has at most 2 × `ENTRY_LIMIT` entries.
#[derive(Clone, Copy, Debug, PartialEq, Eq)]
pub struct Owner {
    entry: u8,
    part: u8,
    lane: u8,
    nth: u8,
}

impl Owner {
    pub fn new(entry: usize, part: usize, lane: usize, nth: usize) -> Owner {
        Owner { entry: entry as u8, part: part as u8, lane: lane as u8, nth: nth as u8 }
    }

    /// Entry, part and lane.
    pub fn field(&self) -> (usize, usize, usize) {
        (usize::from(self.entry), usize::from(self.part), usize::from(self.lane))
    }

    /// Which bit of the field, 0 the lowest.
    pub fn nth(&self) -> usize {
        usize::from(self.nth)
    }

    pub fn same_field(&self, other: &Owner) -> bool {
        (self.entry, self.part, self.lane) == (other.entry, other.part, other.lane)
    }
}

/// One owner for every bit of a set, bit k of byte n at 8 × n + k. None is a
/// gap: "All bits in no field, surplus MemoryLength included, are gaps."
pub type Owners = Vec<Option<Owner>>;

impl Map {
    /// Expands the map of one set. "Part p starts at offset + p × W"; from
    /// there the lanes follow each other, W bits each, the lowest bits first:
    /// "lane 1 takes the lowest bits of the part's first byte".
    pub fn owners(&self, set: usize) -> Owners {
        let mut owners = vec![None; SET_BITS];
        for (number, entry) in self.entries.iter().enumerate() {
            if !self.set_holds(set, number) {
                continue;
            }
            let width = entry.row.width;
            for part in 0..entry.row.parts {
                let mut at = (entry.info.offset + part * width) * 8;
                for lane in 1..=LANES {
                    for nth in 0..width {
                        owners[at] = Some(Owner::new(number, part, lane, nth));
                        at += 1;
                    }
                }
            }
        }
        owners
    }
}
