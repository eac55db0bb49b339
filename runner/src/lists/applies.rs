//! What the applies of the lists reached, counted so that a generator that misses its aim fails the run.

use super::aim::{chosen, Aim, Target};
use crate::calls::bank::Agreed;
use crate::case::Case;
use crate::engine;
use crate::refusals::{only, Numbers, ACCEPTED, COPIED, LANES};
use crate::report::Report;
use crate::strings::MOST_ENTRIES;
use crate::tally::Row;

/// An apply on a staged set of an accepted map that is accepted or refused with 13 or 14.
struct Look<'a> {
    case: &'a Case<'a>,
    aim: &'a Aim,
    agreed: &'a Agreed,
    set: usize,
    lanes: u8,
    /// The chosen lanes by what each does alone: change bytes, lack an AppSel, hold a value that is not accepted.
    changed: Vec<usize>,
    lacking: Vec<usize>,
    bad: Vec<usize>,
    /// The entries with a changed field, or with one of the named lane that is refused with 14.
    by: Vec<&'a Target>,
    /// A changed field now holds a number below 0.
    negative: bool,
}

impl Look<'_> {
    fn accepted(&self) -> bool {
        self.agreed.refusal == 0
    }

    /// The lanes that the answer is about: those that changed, or all that have the fault that was answered.
    fn about(&self) -> &[usize] {
        match self.agreed.refusal {
            0 => &self.changed,
            13 => &self.lacking,
            _ => &self.bad,
        }
    }

    /// The lane is named by the refusal, or its bytes changed.
    fn names(&self, lane: usize) -> bool {
        if self.accepted() {
            self.changed.contains(&lane)
        } else {
            self.agreed.at == lane
        }
    }

    /// A field of such an entry changed, or none but such fields of the named lane are at fault.
    fn is_by_entry(&self, test: impl Fn(&Target) -> bool) -> bool {
        let number = self.by.iter().filter(|target| test(target)).count();
        number > 0 && (self.accepted() || number == self.by.len())
    }

    fn is_by(&self, id: u8) -> bool {
        self.is_by_entry(|target| target.id == id)
    }

    fn app(&self, lane: usize) -> usize {
        self.agreed.before[engine::app_sel_at(self.set, lane)].into()
    }

    /// An application mask has an app that is above the count.
    fn above_count(&self, app: usize) -> bool {
        app > self.case.count && self.aim.targets.iter().any(|target| target.has_app(app))
    }
}

/// Name, numbers, and what an apply must be to be counted there, under the number that it answers.
type Reached = (Row, fn(&Look) -> bool);

const fn reached(name: &'static str, numbers: Numbers, test: fn(&Look) -> bool) -> Reached {
    (Row::new(name, numbers), test)
}

static REACHED: [Reached; 35] = [
    reached("apply: lane 1", LANES, |look| look.names(1)),
    reached("apply: lane 2", LANES, |look| look.names(2)),
    reached("apply: lane 3", LANES, |look| look.names(3)),
    reached("apply: lane 4", LANES, |look| look.names(4)),
    reached("apply: lane 5", LANES, |look| look.names(5)),
    reached("apply: lane 6", LANES, |look| look.names(6)),
    reached("apply: lane 7", LANES, |look| look.names(7)),
    reached("apply: lane 8", LANES, |look| look.names(8)),
    reached("apply: two lanes or more", LANES, |look| look.about().len() > 1),
    reached("apply: all lanes", ACCEPTED.and(&[13]), |look| look.agreed.refusal < 14 && look.about().len() == 8),
    reached("apply: count 1 to 8", LANES, |look| look.case.count <= 8 && !look.about().is_empty()),
    reached("apply: count 9 to 15", LANES, |look| look.case.count > 8 && !look.about().is_empty()),
    reached("apply: 14 beside 13", only(&[13]), |look| !look.lacking.is_empty() && !look.bad.is_empty()),
    reached("apply: 14 in lower lane", only(&[13]), |look| look.bad.first().is_some_and(|&lane| lane < look.agreed.at)),
    reached("apply: empty mask", ACCEPTED, |look| look.lanes == 0),
    reached("apply: no byte changed", ACCEPTED, |look| look.accepted() && look.lanes != 0 && look.changed.is_empty()),
    reached("apply: 02h", ACCEPTED, |look| look.is_by(0x02)),
    reached("apply: 03h", COPIED, |look| look.is_by(0x03)),
    reached("apply: 04h", COPIED, |look| look.is_by(0x04)),
    reached("apply: 05h", ACCEPTED, |look| look.is_by(0x05)),
    reached("apply: 06h", ACCEPTED, |look| look.is_by(0x06)),
    reached("apply: 07h", COPIED, |look| look.is_by(0x07)),
    reached("apply: 08h", COPIED, |look| look.is_by(0x08)),
    reached("apply: 09h", COPIED, |look| look.is_by(0x09)),
    reached("apply: 0Ah", COPIED, |look| look.is_by(0x0A)),
    reached("apply: 0Bh", ACCEPTED, |look| look.is_by(0x0B)),
    reached("apply: 0Ch", ACCEPTED, |look| look.is_by(0x0C)),
    reached("apply: 0Dh", COPIED, |look| look.is_by(0x0D)),
    reached("apply: 0Eh", COPIED, |look| look.is_by(0x0E)),
    reached("apply: 0Fh", ACCEPTED, |look| look.is_by(0x0F)),
    reached("apply: 10h", ACCEPTED, |look| look.is_by(0x10)),
    reached("apply: a 16th entry", COPIED, |look| look.is_by_entry(|target| target.entry == MOST_ENTRIES - 1)),
    reached("apply: below 0", ACCEPTED, |look| look.negative),
    // A chosen lane's field is not copied, since its entry's mask lacks the AppSel.
    reached("apply: a field kept", ACCEPTED, |look| {
        let lacks = |lane| look.aim.targets.iter().any(|target| !target.has_app(look.app(lane)));
        look.accepted() && chosen(look.lanes).any(lacks)
    }),
    // An application mask has bits above the count; with 13, the bit of the named lane's AppSel.
    reached("apply: bits above count", LANES, |look| match look.agreed.refusal {
        13 => look.above_count(look.app(look.agreed.at)),
        _ => (1..=16).any(|app| look.above_count(app)),
    }),
];

pub fn rows() -> impl Iterator<Item = &'static Row> {
    REACHED.iter().map(|(row, _)| row)
}

/// Counts an apply on a staged set.
pub fn count(report: &mut Report, case: &Case, aim: &Aim, set: usize, lanes: u8, agreed: &Agreed) {
    let [changed, lacking, bad] = [(); 3].map(|()| Vec::new());
    let mut look = Look { case, aim, agreed, set, lanes, changed, lacking, bad, by: Vec::new(), negative: false };
    for lane in chosen(lanes) {
        let mut bank = agreed.before.clone();
        match engine::apply(case.count, case.rw, case.ro, &mut bank, set, 1 << (lane - 1)).refusal {
            13 => look.lacking.push(lane),
            14 => look.bad.push(lane),
            _ if bank != agreed.before => look.changed.push(lane),
            _ => {}
        }
    }
    match agreed.refusal {
        0 => (look.by, look.negative) = copied(&look),
        14 => look.by = at_fault(&look),
        _ => {}
    }
    for (row, test) in &REACHED {
        if test(&look) {
            report.calls.count(row, agreed.refusal);
        }
    }
}

/// The entries whose bytes in the active set an accepted apply changed, and whether one of the new numbers is below 0.
fn copied<'a>(look: &Look<'a>) -> (Vec<&'a Target>, bool) {
    let Case { count, rw, ro } = *look.case;
    let mut bank = look.agreed.before.clone();
    engine::apply(count, rw, ro, &mut bank, look.set, look.lanes);
    let (mut by, mut negative) = (Vec::new(), false);
    for target in &look.aim.targets {
        let bytes = target.bytes.clone().map(|offset| engine::set_start(2) + offset);
        for at in bytes.filter(|&at| bank[at] != look.agreed.before[at]) {
            by.push(target);
            // Fields with Min and Max have 8 bits.
            negative |= target.range.is_some() && (bank[at] as i8) < 0;
        }
    }
    (by, negative)
}

/// The entries with a field in the lane that 14 names whose number write doesn't accept.
fn at_fault<'a>(look: &Look<'a>) -> Vec<&'a Target> {
    let Case { count, rw, ro } = *look.case;
    let (set, lane, bank) = (look.set, look.agreed.at, &look.agreed.before);
    let is_fault = |entry, part| {
        let number = engine::read(count, rw, ro, bank, set, entry, part, lane).number;
        engine::write(count, rw, ro, &mut bank.clone(), set, entry, part, lane, number).refusal != 0
    };
    let copied = look.aim.targets.iter().filter(|target| target.has_app(look.app(lane)));
    copied.filter(|target| (0..target.parts).any(|part| is_fault(target.entry, part))).collect()
}
