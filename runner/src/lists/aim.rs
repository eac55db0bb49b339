//! What a list's calls are aimed at. The comparison doesn't rest on it.

use std::ops::Range;

use second::Call::{Apply, ByteRead, ByteWrite, Publish, Read, Select, Write};
use second::EntryInfo;

use crate::calls::bank::{Bank, Call};
use crate::calls::load;
use crate::case::Case;
use crate::engine::{self, FlatCall, Loaded};
use crate::random::Random;
use crate::shape::{self, mask_bytes, parts, shape};
use crate::strings::{LARGEST, RO, RW};

/// Values at the edges of what the widths hold and the table accepts.
#[rustfmt::skip]
const VALUES: [i64; 20] = [
    i64::MIN, -129, -128, -1, 0, 1, 2, 3, 4, 7, 8, 10, 11, 15, 16, 127, 128, 255, 256, i64::MAX,
];

/// An RW entry with fields.
pub struct Target {
    pub entry: usize,
    pub parts: usize,
    pub id: u8,
    /// Its application mask, bits above the count included.
    mask: usize,
    /// Min and Max of 09h, 0Ah and 0Dh.
    pub range: Option<[i64; 2]>,
    /// Values that write accepts, and whether a byte write stores others.
    pub values: Vec<i64>,
    spoils: bool,
    /// The bytes of its fields in a set.
    pub bytes: Range<usize>,
}

impl Target {
    pub fn has_app(&self, app: usize) -> bool {
        (1..=16).contains(&app) && self.mask >> (app - 1) & 1 == 1
    }
}

pub struct Aim {
    pub accepted: bool,
    pub loaded: Loaded,
    /// The IDs of an accepted map, where its entries start in their string, and their Min and Max.
    pub ids: Vec<u8>,
    starts: Vec<usize>,
    ranges: Vec<Option<[i64; 2]>>,
    /// The entries with fields, by their string, and more of those in RW.
    pub fields: [Vec<usize>; 2],
    pub targets: Vec<Target>,
    /// The 12h entries.
    pub weights: Vec<usize>,
    count: usize,
}

impl Aim {
    pub fn new(case: &Case) -> Aim {
        let loaded = load::of_second(case);
        let entries = second::entries(case.count, case.rw, case.ro).unwrap_or_default();
        let mut fields = [Vec::new(), Vec::new()];
        for (number, entry) in entries.iter().enumerate() {
            if shape(entry.id).needed > 0 {
                fields[usize::from(entry.in_ro)].push(number);
            }
        }
        let ranges: Vec<Option<[i64; 2]>> = entries.iter().map(|entry| range(case, entry)).collect();
        let target = |&entry: &usize| {
            let EntryInfo { id, start, offset, .. } = entries[entry];
            Target {
                entry,
                parts: parts(id),
                id,
                mask: mask(case, start),
                range: ranges[entry],
                values: accepted_values(case, entry, ranges[entry]),
                spoils: !matches!(id, 0x02 | 0x05 | 0x06 | 0x0B | 0x0C | 0x0F | 0x10),
                bytes: offset..offset + usize::from(shape(id).needed),
            }
        };
        Aim {
            accepted: loaded.refusal == 0,
            loaded,
            ids: entries.iter().map(|entry| entry.id).collect(),
            starts: entries.iter().map(|entry| entry.start).collect(),
            targets: fields[RW].iter().map(target).collect(),
            ranges,
            fields,
            weights: (0..entries.len()).filter(|&number| entries[number].id == 0x12).collect(),
            count: case.count.min(16),
        }
    }

    /// The calls of a list: single ones and whole plans.
    pub fn calls(&self, random: &Random, length: usize) -> Vec<Call> {
        let mut list = Vec::new();
        while list.len() < length {
            if self.accepted && random.once_in(if self.targets.is_empty() { 60 } else { 12 }) {
                self.plan(random, &mut list);
            } else {
                list.push(self.call(random));
            }
        }
        list.truncate(length);
        list
    }

    /// A host's plan: AppSels and accepted values for some lanes, then their apply; now and then with faults in it.
    fn plan(&self, random: &Random, list: &mut Vec<Call>) {
        let set = random.below(2);
        let few = 1 << random.below(8) | 1 << random.below(8);
        let lanes = random.pick(&[few, few, few, random.byte(), 0xFF]);
        let same = random.once_in(3).then(|| self.app(random));
        for lane in chosen(lanes) {
            let app = same.unwrap_or_else(|| self.app(random));
            if !random.once_in(16) {
                list.push(Call::Listed(Select { set, lane, app }));
            }
            for target in self.targets.iter().filter(|target| target.has_app(app) && !target.values.is_empty()) {
                for part in 0..target.parts {
                    let value = random.pick(&target.values);
                    list.push(Call::Listed(Write { set, entry: target.entry, part, lane, value }));
                }
            }
        }
        if random.once_in(3) {
            self.spoil(random, set, list);
        }
        if random.once_in(6) {
            list.push(Call::Listed(Select { set, lane: random.within(1, 8), app: 0 }));
        }
        list.push(Call::Listed(Apply { set, lanes }));
        self.read_back(random, set, lanes, list);
    }

    /// Reads of a field in a chosen lane, staged and active.
    fn read_back(&self, random: &Random, set: usize, lanes: u8, list: &mut Vec<Call>) {
        let lanes: Vec<usize> = chosen(lanes).collect();
        if self.targets.is_empty() || lanes.is_empty() {
            return;
        }
        let Target { entry, parts, .. } = self.targets[random.below(self.targets.len())];
        let (part, lane) = (random.below(parts), random.pick(&lanes));
        list.extend([set, 2].map(|set| Call::Listed(Read { set, entry, part, lane })));
    }

    /// Bytes of an entry that may hold values which are not accepted: all of them or a few.
    fn spoil(&self, random: &Random, set: usize, list: &mut Vec<Call>) {
        let can: Vec<&Target> = self.targets.iter().filter(|target| target.spoils).collect();
        if can.is_empty() {
            return;
        }
        let Target { bytes, range, .. } = random.pick_late(&can);
        let all = random.once_in(3);
        for offset in bytes.clone().filter(|_| all || random.once_in(2)) {
            let byte = match range {
                Some([min, max]) => random.pick(&[min - 1, max + 1, random.byte().into()]) as u8,
                None => random.pick(&[0xFF, random.byte()]),
            };
            list.push(Call::Listed(ByteWrite { set, offset, byte }));
        }
    }

    /// An app from 1 to the count, most often one whose fields can all hold an accepted value.
    fn app(&self, random: &Random) -> usize {
        let can = |app: &usize| self.targets.iter().all(|target| !target.has_app(*app) || !target.values.is_empty());
        let app = || random.within(1, self.count);
        (0..4).map(|_| app()).find(can).unwrap_or_else(app)
    }

    /// A call, most often one that is accepted.
    fn call(&self, random: &Random) -> Call {
        let [set, part, lane] = [3, 2, 9].map(|end| random.about(end));
        let staged = if random.once_in(8) { set } else { random.below(2) };
        let part = if random.once_in(3) { part } else { 0 };
        let lane = if random.once_in(8) { lane } else { random.within(1, 8) };
        let string = random.pick(&[RW, RO]);
        Call::Listed(match random.below(75) {
            0 => return Call::Fresh,
            1..=4 => return Call::Unknown(self.unknown(random)),
            5..=11 => {
                let lane = if random.once_in(8) { random.pick(&[0, 9]) } else { lane };
                return Call::Weight { entry: self.weighed(random), lane };
            }
            12..=18 => {
                let set = random.pick(&[staged, staged, staged, set]);
                ByteWrite { set, offset: self.offset(random, set), byte: random.byte() }
            }
            19..=28 => ByteRead { set, offset: self.offset(random, set) },
            29..=37 => Select { set: staged, lane, app: random.about(self.count + 1) },
            38..=48 => {
                let entry = self.entry(random, RW);
                Write { set: staged, entry, part, lane, value: self.value(random, entry) }
            }
            49..=59 => Read { set, entry: self.entry(random, string), part, lane },
            60..=68 => Publish { entry: self.entry(random, RO), part, lane, value: value(random) },
            _ => Apply { set: staged, lanes: random.pick(&[0, 0xFF, 1 << random.below(8), random.byte()]) },
        })
    }

    /// A call of no kind, with the arguments of some call.
    fn unknown(&self, random: &Random) -> FlatCall {
        let [set, part, app] = [3, 2, self.count + 1].map(|end| random.about(end));
        FlatCall {
            kind: random.pick(&[7, 8, 255, 256, 1 << 32, (1 << 32) + 6, usize::MAX]),
            set,
            entry: self.entry(random, RW),
            part,
            lane: random.within(1, 8),
            offset: self.offset(random, set),
            app,
            value: value(random),
            byte: random.byte(),
            lanes: random.byte(),
        }
    }

    /// Most often an entry of the string that has fields; else any number, in range or not.
    fn entry(&self, random: &Random, string: usize) -> usize {
        let fields = &self.fields[string];
        if fields.is_empty() || random.once_in(6) {
            random.about(self.loaded.entries())
        } else {
            random.pick_late(fields)
        }
    }

    /// Min and Max of an entry that has them.
    pub fn range(&self, entry: usize) -> Option<[i64; 2]> {
        self.ranges.get(entry).copied().flatten()
    }

    /// A value for an entry: about its Min and Max, if it has them, or any.
    fn value(&self, random: &Random, entry: usize) -> i64 {
        match self.range(entry) {
            Some([min, max]) if !random.once_in(4) => {
                let between = random.within(0, (max - min).unsigned_abs() as usize) as i64;
                random.pick(&[min - 1, min, max, max + 1, min.min(max) + between])
            }
            _ => value(random),
        }
    }

    /// Most often a 12h entry; else any number, in range or not.
    fn weighed(&self, random: &Random) -> usize {
        if self.weights.is_empty() || random.once_in(4) {
            random.about(self.loaded.entries())
        } else {
            random.pick_late(&self.weights)
        }
    }

    /// Most often an offset that the set has; else one at either length, at the end of the largest set or far out.
    fn offset(&self, random: &Random, set: usize) -> usize {
        let Loaded { staged_length: staged, active_length: active, .. } = self.loaded;
        let length = if set < 2 { staged } else { active };
        if random.once_in(4) {
            random.pick(&[
                staged,
                staged.saturating_sub(1),
                active,
                active.saturating_sub(1),
                LARGEST - 1,
                LARGEST,
                LARGEST + 1,
            ])
        } else {
            random.about(length)
        }
    }

    /// The step of a 12h entry of an accepted map: after the mask, it stands behind MemoryLength, flags and index.
    pub fn step(&self, case: &Case, entry: usize) -> usize {
        case.ro[self.starts[entry] + 2 + mask_bytes(case.count) + 3].into()
    }
}

/// The lanes that a mask chooses.
pub fn chosen(lanes: u8) -> impl Iterator<Item = usize> {
    (1..=8).filter(move |lane| lanes >> (lane - 1) & 1 == 1)
}

/// The application mask of the RW entry that starts at a byte, high byte first.
fn mask(case: &Case, start: usize) -> usize {
    let bytes = &case.rw[start + 2..][..mask_bytes(case.count)];
    bytes.iter().fold(0, |mask, &byte| mask << 8 | usize::from(byte))
}

/// Min and Max of an entry that has them.
fn range(case: &Case, entry: &EntryInfo) -> Option<[i64; 2]> {
    let at = |place: usize| case.rw[entry.start + place + mask_bytes(case.count)];
    shape::range(entry.id).map(|places| places.map(|place| i64::from(at(place) as i8)))
}

/// The values at an edge, or below 16, that the engine's write accepts for an RW entry; of a range, those at its ends, about
/// its middle and about 0.
fn accepted_values(case: &Case, entry: usize, range: Option<[i64; 2]>) -> Vec<i64> {
    let (Case { count, rw, ro }, bank) = (*case, Bank::ones());
    let write = |value| engine::write(count, rw, ro, &mut bank.lent().to_vec(), 0, entry, 0, 1, value);
    let accepts = |&value: &i64| write(value).refusal == 0;
    let values: Vec<i64> = match range {
        Some([min, max]) => vec![min, min + 1, (min + max) / 2, max - 1, max, -1, 0, 1],
        None => (0..16).chain(VALUES).collect(),
    };
    values.into_iter().filter(accepts).collect()
}

/// A value at an edge, or one that a field of some width may hold.
fn value(random: &Random) -> i64 {
    match random.below(4) {
        0 => random.within(0, 15) as i64,
        1 => random.within(0, 256 + 128) as i64 - 128,
        2 => random.within(0, 2) as i64,
        _ => random.pick(&VALUES),
    }
}
