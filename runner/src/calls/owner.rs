//! The owner call: the field of each bit, or gap, and the entries looked at.

use crate::case::Case;
use crate::engine::{self, Loaded, Owned};
use crate::peer;
use crate::random::Random;
use crate::reached::Look;
use crate::refusals::{self, ACCEPTED};
use crate::report::Report;
use crate::strings::LARGEST;
use crate::tally::Row;

pub static CALL: Row = Row::new("owner", refusals::OWNER);

/// The accepted answers, by what they say.
pub static FIELD: Row = Row::new("owner: a field", ACCEPTED);
pub static GAP: Row = Row::new("owner: gap", ACCEPTED);

pub fn of_second(case: &Case, set: usize, byte: second::Byte, bit: usize) -> Owned {
    match second::owner(case.count, case.rw, case.ro, set, byte, bit) {
        Ok(second::Owned { field: Some((entry, part, lane)), looked_at }) => {
            Owned { refusal: 0, at: 0, gap: 0, entry, part, lane, looked_at }
        }
        Ok(second::Owned { field: None, looked_at }) => Owned { gap: 1, looked_at, ..Owned::default() },
        Err(refusal) => refusal.into(),
    }
}

/// Compares the owner of one bit, also with answers that are known. The answer, if all agree.
pub fn compare(
    report: &mut Report,
    case: &Case,
    [set, offset, bit]: [usize; 3],
    known: &[(&str, Owned)],
) -> Option<Owned> {
    let Case { count, rw, ro } = *case;
    let owned = engine::owner(count, rw, ro, set, offset, bit);
    let peer = peer::owner(count, rw, ro, set, offset, bit);
    let mut others = vec![("second", of_second(case, set, second::Byte::Offset(offset), bit)), ("peer", peer)];
    others.extend_from_slice(known);
    let agree = report.compare(&CALL, &format_args!("{case} set {set} offset {offset} bit {bit}"), &owned, &others);
    if agree && owned.refusal == 0 {
        report.calls.count(if owned.gap == 0 { &FIELD } else { &GAP }, 0);
    }
    agree.then_some(owned)
}

/// Compares the owner of every bit of the map, and of those just out of range.
pub fn compare_all(report: &mut Report, case: &Case, loaded: &Loaded) {
    for set in 0..=3 {
        for offset in (0..=loaded.active_length + 1).chain([LARGEST, LARGEST + 1]) {
            for bit in 0..=8 {
                compare(report, case, [set, offset, bit], &[]);
            }
        }
    }
}

/// Compares the owner of one bit, in range or not; now and then at a border of entries.
pub fn compare_one(report: &mut Report, case: &Case, loaded: &Loaded, random: &Random) {
    let length = random.pick(&[loaded.staged_length, loaded.active_length, LARGEST]);
    let [mut set, mut offset, bit] = [3, length, 8].map(|end| random.about(end));
    if loaded.entries() > 0 && random.once_in(3) {
        (set, offset) = (random.pick(&[set, 2]), border(case, loaded, random));
    }
    let owned = compare(report, case, [set, offset, bit], &[]);
    if let Some(owned) = owned.filter(|owned| owned.refusal == 0) {
        report.reached.owned(&Look::new(*case, *loaded), offset, &owned);
    }
}

/// The byte at an entry's offset, more often at the last one's than at each of the others, or the byte before it.
fn border(case: &Case, loaded: &Loaded, random: &Random) -> usize {
    let entry = random.pick_late(&Vec::from_iter(0..loaded.entries()));
    engine::entry(case.count, case.rw, case.ro, entry).offset.saturating_sub(random.below(2))
}
