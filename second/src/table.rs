//! "The calls, and the plain table": the same calls over numbers alone.
//!
//! The judging here is rendered another way than on the bank: every refusal
//! whose condition holds is put on a list, and the first by the paper's order
//! is answered. Fields are placed by the paper's formula and not by the
//! owners' list.

use std::collections::BTreeMap;

use crate::bank::Field;
use crate::map::{Entry, Map};
use crate::{Answer, Call, Refusal};

/// "a number for each set, entry, part and lane that the set holds (staged: RW
/// only), and an AppSel for each staged set and lane". Note 1: "The plain table
/// holds their numbers too".
#[derive(Clone, Debug)]
pub struct Table {
    map: Map,
    numbers: BTreeMap<Field, i64>,
    appsels: BTreeMap<(usize, usize), usize>,
}

/// "For lane i, 1 to 8, let b = (i − 1) × W: the field is the W bits from bit
/// b mod 8 of byte start + b div 8".
fn lies(entry: &Entry, part: usize, lane: usize) -> (usize, usize) {
    let w = entry.row.width;
    let start = entry.info.offset + part * w;
    let b = (lane - 1) * w;
    (start + b / 8, b % 8)
}

impl Table {
    /// "Fresh, all are 0."
    pub fn fresh(count: usize, rw: &[u8], ro: &[u8]) -> Result<Table, Refusal> {
        let map = Map::read(count, rw, ro)?;
        let mut numbers = BTreeMap::new();
        let mut appsels = BTreeMap::new();
        for set in 0..3 {
            for (entry, found) in map.entries.iter().enumerate() {
                // "staged: RW only"
                if set < 2 && found.info.in_ro {
                    continue;
                }
                for part in 0..found.row.parts {
                    for lane in 1..=8 {
                        numbers.insert((set, entry, part, lane), 0);
                    }
                }
            }
        }
        for set in 0..2 {
            for lane in 1..=8 {
                appsels.insert((set, lane), 0);
            }
        }
        Ok(Table { map, numbers, appsels })
    }

    /// The fields of one set that lie in one byte of it, with their lowest bit.
    fn fields_in_byte(&self, set: usize, offset: usize) -> Vec<(Field, usize)> {
        let of_set = self.numbers.range((set, 0, 0, 0)..(set + 1, 0, 0, 0));
        let placed = of_set.map(|(&field, _)| {
            let (_, entry, part, lane) = field;
            (field, lies(&self.map.entries[entry], part, lane))
        });
        placed.filter(|&(_, (byte, _))| byte == offset).map(|(field, (_, bit))| (field, bit)).collect()
    }

    /// The fields that an apply is to copy, as entry, part and lane.
    fn to_be_copied(&self, set: usize, lanes: u8) -> Vec<(usize, usize, usize)> {
        let of_set = self.numbers.range((set, 0, 0, 0)..(set + 1, 0, 0, 0));
        let copied = of_set.filter(|&(&(_, entry, _, lane), _)| {
            let chosen = lanes & (1 << (lane - 1)) != 0;
            chosen && self.map.entries[entry].has_app(self.appsels[&(set, lane)])
        });
        copied.map(|(&(_, entry, part, lane), _)| (entry, part, lane)).collect()
    }

    /// Every refusal of 10 to 14 whose condition holds, in no order.
    fn faults(&self, call: Call) -> Vec<Refusal> {
        let mut faults = Vec::new();
        let mut fault = |wrong: bool, number: u32| {
            if wrong {
                faults.push(Refusal::caller(number));
            }
        };
        let no_set = |set: usize| !matches!(set, 0..=2);
        let no_lane = |lane: usize| !matches!(lane, 1..=8);
        let found = |entry: usize| self.map.entries.get(entry);
        let no_field = |entry: usize, part: usize| found(entry).map_or(0, |e| e.row.parts) <= part;
        let is_ro = |entry: usize| found(entry).is_some_and(|e| e.info.in_ro);
        let is_rw = |entry: usize| found(entry).is_some_and(|e| !e.info.in_ro);
        let accepted = |entry: usize, value: i64| found(entry).is_some_and(|e| e.accepts(value));
        let no_offset = |set: usize, offset: usize| match set {
            0 | 1 => offset >= self.map.loaded.staged_length,
            2 => offset >= self.map.loaded.active_length,
            _ => false,
        };
        match call {
            Call::Select { set, lane, app } => {
                fault(app > self.map.count, 12);
                fault(set == 2, 11);
                fault(no_set(set) || no_lane(lane), 10);
            }
            Call::Write { set, entry, part, lane, value } => {
                fault(!accepted(entry, value), 12);
                fault(set == 2 || is_ro(entry), 11);
                fault(no_set(set) || no_field(entry, part) || no_lane(lane), 10);
            }
            Call::Read { set, entry, part, lane } => {
                fault(matches!(set, 0 | 1) && is_ro(entry), 11);
                fault(no_set(set) || no_field(entry, part) || no_lane(lane), 10);
            }
            Call::ByteWrite { set, offset, byte: _ } => {
                fault(set == 2, 11);
                fault(no_set(set) || no_offset(set, offset), 10);
            }
            Call::ByteRead { set, offset } => {
                fault(no_set(set) || no_offset(set, offset), 10);
            }
            Call::Publish { entry, part, lane, value } => {
                fault(!accepted(entry, value), 12);
                fault(is_rw(entry), 11);
                fault(no_field(entry, part) || no_lane(lane), 10);
            }
            Call::Apply { set, lanes } => {
                fault(set == 2, 11);
                fault(no_set(set), 10);
                for (&(of, lane), &app) in &self.appsels {
                    let chosen = of == set && lanes & (1 << (lane - 1)) != 0;
                    if chosen && !(1..=self.map.count).contains(&app) {
                        faults.push(Refusal::plan(13, lane));
                    }
                }
                if matches!(set, 0 | 1) {
                    for (entry, part, lane) in self.to_be_copied(set, lanes) {
                        if !accepted(entry, self.numbers[&(set, entry, part, lane)]) {
                            faults.push(Refusal::plan(14, lane));
                        }
                    }
                }
            }
        }
        faults
    }

    /// "The table does each call as said, over its numbers, the two strings
    /// and the count only. A refused call changes none of its numbers".
    pub fn perform(&mut self, call: Call) -> Answer {
        // "Order: .. 10, 11, then 12, or 13 before 14", "the lowest such lane"
        let first = self.faults(call).into_iter().min_by_key(|f| (f.number, f.lane));
        if let Some(refusal) = first {
            return Answer::Refused(refusal);
        }
        match call {
            Call::Select { set, lane, app } => {
                self.appsels.insert((set, lane), app);
                Answer::Yes
            }
            Call::Write { set, entry, part, lane, value } => {
                self.numbers.insert((set, entry, part, lane), value);
                Answer::Yes
            }
            Call::Read { set, entry, part, lane } => {
                Answer::Number(self.numbers[&(set, entry, part, lane)])
            }
            Call::ByteWrite { set, offset, byte } => {
                for (field, lowest) in self.fields_in_byte(set, offset) {
                    let entry = &self.map.entries[field.1];
                    let values = 1u32 << entry.row.width;
                    let pattern = u32::from(byte) / (1 << lowest) % values;
                    self.numbers.insert(field, entry.number(pattern as u8));
                }
                Answer::Yes
            }
            Call::ByteRead { set, offset } => {
                let mut sum = 0;
                for (field, lowest) in self.fields_in_byte(set, offset) {
                    let pattern = self.map.entries[field.1].pattern(self.numbers[&field]);
                    sum += i64::from(pattern) * (1 << lowest);
                }
                Answer::Number(sum)
            }
            Call::Publish { entry, part, lane, value } => {
                self.numbers.insert((2, entry, part, lane), value);
                Answer::Yes
            }
            // Note 1: "Apply copies their numbers unscaled."
            Call::Apply { set, lanes } => {
                for (entry, part, lane) in self.to_be_copied(set, lanes) {
                    let number = self.numbers[&(set, entry, part, lane)];
                    self.numbers.insert((2, entry, part, lane), number);
                }
                Answer::Yes
            }
        }
    }

    /// The bank that shows the table: fields and AppSels as the table has
    /// them, every other bit 0.
    pub fn bank(&self) -> [u8; 784] {
        let mut bank = [0; 784];
        for (&(set, entry, part, lane), &number) in &self.numbers {
            let entry = &self.map.entries[entry];
            let (byte, lowest) = lies(entry, part, lane);
            bank[256 * set + byte] |= entry.pattern(number) << lowest;
        }
        for (&(set, lane), &app) in &self.appsels {
            // An AppSel of the table is 0 to the count, so it fits a byte.
            bank[[768, 776][set] + lane - 1] = app as u8;
        }
        bank
    }
}
