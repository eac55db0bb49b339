//! "The bank": expanded into a dictionary of numbers, and the calls over it.

use std::collections::BTreeMap;

use crate::judge::{self, BANK};
use crate::map::{Map, Owner, Owners, LANES};
use crate::{Answer, Call, Loaded, Refusal};

/// A field: set, entry, part, lane.
pub type Field = (usize, usize, usize, usize);

/// "staged set 0 at byte 0, staged set 1 at 256, active (set 2) at 512"
fn set_start(set: usize) -> usize {
    256 * set
}

/// "then AppSel of set 0, lanes 1 to 8, at 768, and of set 1 at 776"
fn appsel_at(set: usize, lane: usize) -> usize {
    768 + 8 * set + (lane - 1)
}

/// A bank and its map, expanded.
struct Expanded {
    /// The owners' list of a staged set, and of the active set.
    staged_owners: Owners,
    active_owners: Owners,
    /// The number of each field that a set holds.
    numbers: BTreeMap<Field, i64>,
    /// AppSel by staged set and lane; any byte may stand there.
    appsels: BTreeMap<(usize, usize), usize>,
}

/// Entry, part and lane, the place of the lowest bit, and the owners of all the
/// field's bits, which lie side by side.
type Lying<'a> = ((usize, usize, usize), usize, &'a [Option<Owner>]);

/// The fields of an owners' list in the order they lie in. Gaps are left out.
fn fields(owners: &Owners) -> Vec<Lying<'_>> {
    let mut list = Vec::new();
    let mut at = 0;
    while at < owners.len() {
        let Some(owner) = owners[at] else {
            at += 1;
            continue;
        };
        let same = |other: &&Option<Owner>| other.is_some_and(|o| o.same_field(&owner));
        let width = owners[at..].iter().take_while(same).count();
        list.push((owner.field(), at, &owners[at..at + width]));
        at += width;
    }
    list
}

/// Bit `at` of a set's bytes.
fn get_bit(bytes: &[u8], at: usize) -> u8 {
    (bytes[at / 8] >> (at % 8)) & 1
}

/// Gives bit `at` of a set's bytes the lowest bit of `bit`; no other changes.
fn put_bit(bytes: &mut [u8], at: usize, bit: u8) {
    let mask = 1 << (at % 8);
    bytes[at / 8] = (bytes[at / 8] & !mask) | ((bit & 1) << (at % 8));
}

/// Expands a bank of at least 784 bytes. "Every content has a meaning."
fn expand(map: &Map, bank: &[u8]) -> Expanded {
    let mut all = Expanded {
        staged_owners: map.owners(0),
        active_owners: map.owners(2),
        numbers: BTreeMap::new(),
        appsels: BTreeMap::new(),
    };
    let mut numbers = Vec::new();
    for set in 0..3 {
        let bytes = &bank[set_start(set)..set_start(set) + 256];
        for ((entry, part, lane), at, bits) in fields(all.owners(set)) {
            let mut pattern = 0;
            for (k, owner) in bits.iter().flatten().enumerate() {
                pattern |= get_bit(bytes, at + k) << owner.nth();
            }
            numbers.push(((set, entry, part, lane), map.entries[entry].number(pattern)));
        }
    }
    all.numbers = numbers.into_iter().collect();
    for set in 0..2 {
        for lane in 1..=LANES {
            all.appsels.insert((set, lane), usize::from(bank[appsel_at(set, lane)]));
        }
    }
    all
}

impl Expanded {
    fn owners(&self, set: usize) -> &Owners {
        if set == 2 {
            &self.active_owners
        } else {
            &self.staged_owners
        }
    }

    /// Writes the fields of one set back into that set's part of the bank, bit
    /// by bit. "Bits that a call's line doesn't name keep their content."
    fn fields_back(&self, map: &Map, set: usize, bytes: &mut [u8]) {
        for ((entry, part, lane), at, bits) in fields(self.owners(set)) {
            let number = self.numbers[&(set, entry, part, lane)];
            let pattern = map.entries[entry].pattern(number);
            for (k, owner) in bits.iter().flatten().enumerate() {
                put_bit(bytes, at + k, pattern >> owner.nth());
            }
        }
    }
}

/// The 256 bytes of a set, as a part of the lent bank.
fn set_bytes(bank: &mut [u8], set: usize) -> &mut [u8] {
    &mut bank[set_start(set)..set_start(set) + 256]
}

/// 9, 8, then 1 to 7 and 16.
fn read_with_bank(count: usize, rw: &[u8], ro: &[u8], bank: &[u8]) -> Result<Map, Refusal> {
    crate::map::check_9(count, &[rw, ro])?;
    judge::bank_8(bank)?;
    Map::read(count, rw, ro)
}

/// "fresh: clears the 784 bytes; answers both entry counts and both lengths."
/// "Longer buffers are untouched beyond."
pub fn fresh(count: usize, rw: &[u8], ro: &[u8], bank: &mut [u8]) -> Result<Loaded, Refusal> {
    let map = read_with_bank(count, rw, ro, bank)?;
    bank[..BANK].fill(0);
    Ok(map.loaded)
}

/// "weight (12h entry, lane) answers the active number times 10, 20, 25 or 40
/// for step 0 to 3, in thousandths".
pub fn weight(
    count: usize,
    rw: &[u8],
    ro: &[u8],
    bank: &[u8],
    entry: usize,
    lane: usize,
) -> Result<i64, Refusal> {
    let map = read_with_bank(count, rw, ro, bank)?;
    let found = judge::entry_10(&map, entry)?;
    // 10: "weight of other than 12h"; 09h, 0Ah and 0Dh have a step too.
    let step = found.step.filter(|_| found.info.id == 0x12).ok_or(Refusal::caller(10))?;
    judge::field_10(&map, entry, 0, lane)?;
    let number = expand(&map, bank).numbers[&(2, entry, 0, lane)];
    let factor = match step {
        0 => 10,
        1 => 20,
        2 => 25,
        _ => 40,
    };
    Ok(number * factor)
}

/// One call on the packed bank.
pub fn perform(count: usize, rw: &[u8], ro: &[u8], bank: &mut [u8], call: Call) -> Answer {
    let map = match read_with_bank(count, rw, ro, bank) {
        Ok(map) => map,
        Err(refusal) => return Answer::Refused(refusal),
    };
    match perform_on(&map, bank, call) {
        Ok(answer) => answer,
        Err(refusal) => Answer::Refused(refusal),
    }
}

/// The bank is written after the last check alone: "A refusal gives its number
/// .., and every lent byte keeps its content."
fn perform_on(map: &Map, bank: &mut [u8], call: Call) -> Result<Answer, Refusal> {
    match call {
        // "select (staged set, lane, app 0 to count): stores AppSel."
        Call::Select { set, lane, app } => {
            judge::set_10(set)?;
            judge::lane_10(lane)?;
            judge::staged_11(set)?;
            judge::accepted_12(app <= map.count)?;
            bank[appsel_at(set, lane)] = app as u8;
            Ok(Answer::Yes)
        }

        // "write (staged set, RW entry, part, lane, value): stores an accepted
        // value."
        Call::Write { set, entry, part, lane, value } => {
            judge::set_10(set)?;
            let found = judge::field_10(map, entry, part, lane)?;
            judge::staged_11(set)?;
            judge::held_11(set, found)?;
            judge::accepted_12(found.accepts(value))?;
            let mut all = expand(map, bank);
            all.numbers.insert((set, entry, part, lane), value);
            all.fields_back(map, set, set_bytes(bank, set));
            Ok(Answer::Yes)
        }

        // "read (set, entry, part, lane): answers the number."
        Call::Read { set, entry, part, lane } => {
            judge::set_10(set)?;
            let found = judge::field_10(map, entry, part, lane)?;
            judge::held_11(set, found)?;
            Ok(Answer::Number(expand(map, bank).numbers[&(set, entry, part, lane)]))
        }

        // "byte write (staged set, offset, byte): each field in that byte
        // takes its own bits, accepted value or not; gaps become 0."
        Call::ByteWrite { set, offset, byte } => {
            judge::set_10(set)?;
            judge::offset_10(map, set, offset)?;
            judge::staged_11(set)?;
            let mut all = expand(map, bank);
            for bit in 0..8 {
                let Some(owner) = all.owners(set)[8 * offset + bit] else {
                    put_bit(set_bytes(bank, set), 8 * offset + bit, 0);
                    continue;
                };
                let (entry, part, lane) = owner.field();
                let found = &map.entries[entry];
                let field = (set, entry, part, lane);
                let mut pattern = [found.pattern(all.numbers[&field])];
                put_bit(&mut pattern, owner.nth(), byte >> bit);
                all.numbers.insert(field, found.number(pattern[0]));
            }
            all.fields_back(map, set, set_bytes(bank, set));
            Ok(Answer::Yes)
        }

        // "byte read (set, offset): the sum of each field there, as an
        // unsigned pattern, times 2 to its lowest bit; gaps show 0."
        Call::ByteRead { set, offset } => {
            judge::set_10(set)?;
            judge::offset_10(map, set, offset)?;
            let all = expand(map, bank);
            let mut sum = 0;
            for bit in 0..8 {
                let Some(owner) = all.owners(set)[8 * offset + bit] else {
                    continue;
                };
                let (entry, part, lane) = owner.field();
                let pattern = map.entries[entry].pattern(all.numbers[&(set, entry, part, lane)]);
                sum += i64::from(pattern >> owner.nth() & 1) << bit;
            }
            Ok(Answer::Number(sum))
        }

        // "publish (RO entry, part, lane, value): as write, into set 2."
        Call::Publish { entry, part, lane, value } => {
            let found = judge::field_10(map, entry, part, lane)?;
            judge::published_11(found)?;
            judge::accepted_12(found.accepts(value))?;
            let mut all = expand(map, bank);
            all.numbers.insert((2, entry, part, lane), value);
            all.fields_back(map, 2, set_bytes(bank, 2));
            Ok(Answer::Yes)
        }

        // "apply (staged set, lane mask of one byte, bit i − 1 for lane i)"
        Call::Apply { set, lanes } => {
            judge::set_10(set)?;
            judge::staged_11(set)?;
            let mut all = expand(map, bank);
            let chosen = || (1..=LANES).filter(|lane| lanes >> (lane - 1) & 1 == 1);

            // 13: "a chosen lane's AppSel is 0 or above the count"
            for lane in chosen() {
                let app = all.appsels[&(set, lane)];
                if app == 0 || app > map.count {
                    return Err(Refusal::plan(13, lane));
                }
            }

            // "each RW field whose entry's mask has the lane's AppSel is
            // copied to the active set"; note 1: "Apply copies their numbers
            // unscaled." 14: "a field to be copied holds a value not
            // accepted". Lanes rise, so the first is the lowest.
            let mut copies = Vec::new();
            for lane in chosen() {
                let app = all.appsels[&(set, lane)];
                for (entry, found) in map.entries.iter().enumerate() {
                    if found.info.in_ro || !found.has_app(app) {
                        continue;
                    }
                    for part in 0..found.row.parts {
                        let number = all.numbers[&(set, entry, part, lane)];
                        if !found.accepts(number) {
                            return Err(Refusal::plan(14, lane));
                        }
                        copies.push(((2, entry, part, lane), number));
                    }
                }
            }

            // "apply writes the active set, which begins at byte 512"
            all.numbers.extend(copies);
            all.fields_back(map, 2, set_bytes(bank, 2));
            Ok(Answer::Yes)
        }
    }
}
