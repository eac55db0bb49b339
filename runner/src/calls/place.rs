//! The place call: offset, page, byte and lowest bit of each field; and owner there, which tells that field.

use super::{owner, owner_at};
use crate::case::Case;
use crate::engine::{self, Loaded, Owned, Placed};
use crate::peer;
use crate::random::Random;
use crate::reached::Look;
use crate::refusals;
use crate::report::Report;
use crate::table_4_1;
use crate::tally::Row;

pub static CALL: Row = Row::new("place", refusals::PLACE);

fn of_second(case: &Case, set: usize, entry: usize, part: usize, lane: usize) -> Placed {
    match second::place(case.count, case.rw, case.ro, set, entry, part, lane) {
        Ok(second::Placed { offset, page, byte, bit }) => Placed { refusal: 0, at: 0, offset, page, byte, bit },
        Err(refusal) => refusal.into(),
    }
}

/// Compares the place of one field, also with answers that are known, and the owner there. The answer, if all agree.
pub fn compare(
    report: &mut Report,
    case: &Case,
    [set, entry, part, lane]: [usize; 4],
    known: &[(&str, Placed)],
) -> Option<Placed> {
    let Case { count, rw, ro } = *case;
    let placed = engine::place(count, rw, ro, set, entry, part, lane);
    let peer = peer::place(count, rw, ro, set, entry, part, lane);
    let mut others = vec![("second", of_second(case, set, entry, part, lane)), ("peer", peer)];
    others.extend_from_slice(known);
    let shown = format_args!("{case} set {set} entry {entry} part {part} lane {lane}");
    let agree = report.compare(&CALL, &shown, &placed, &others);
    if agree && placed.refusal == 0 {
        compare_owner(report, case, [set, entry, part, lane], &placed);
    }
    agree.then_some(placed)
}

/// Owner at the address and bit tells the field. Where there is no address, owner by offset does, and page 0, byte 0 is
/// refused.
fn compare_owner(report: &mut Report, case: &Case, [set, entry, part, lane]: [usize; 4], placed: &Placed) {
    let field = Owned { refusal: 0, at: 0, gap: 0, entry, part, lane, looked_at: entry + 1 };
    let &Placed { offset, page, byte, bit, .. } = placed;
    let at_address = if [page, byte] == [0, 0] { Owned::refused(10, 0) } else { field };
    owner_at::compare(report, case, [set, page, byte, bit], &[("place", at_address)]);
    if at_address != field {
        owner::compare(report, case, [set, offset, bit], &[("place", field)]);
    }
}

/// Compares the place of every field of the map, and of those just out of range.
pub fn compare_all(report: &mut Report, case: &Case, loaded: &Loaded) {
    for set in 0..=3 {
        for entry in 0..=loaded.entries() + 1 {
            for part in 0..=3 {
                for lane in 0..=9 {
                    compare(report, case, [set, entry, part, lane], &[]);
                }
            }
        }
    }
}

/// Compares the place of one field, in range or not; now and then at a border of Table 4-1.
pub fn compare_one(report: &mut Report, case: &Case, loaded: &Loaded, random: &Random) {
    let mut field = [3, loaded.entries(), 2, 9].map(|end| random.about(end));
    if random.once_in(2) {
        field = bordering(case, random).unwrap_or(field);
    }
    let placed = compare(report, case, field, &[]);
    if let Some(placed) = placed.filter(|placed| placed.refusal == 0) {
        let [set, entry, ..] = field;
        report.reached.placed(&Look::new(*case, *loaded), set, entry, placed.offset);
    }
}

/// The field in the last byte of a set's page or overflow page, in the one before, or in the two behind.
fn bordering(case: &Case, random: &Random) -> Option<[usize; 4]> {
    let (set, bit) = (random.below(3), random.below(8));
    let end = random.pick(&[table_4_1::overflow(set), table_4_1::end(set)]);
    let offset = random.pick(&[end - 2, end - 1, end - 1, end - 1, end, end + 1]);
    let owned = engine::owner(case.count, case.rw, case.ro, set, offset, bit);
    (owned.refusal == 0 && owned.gap == 0).then_some([set, owned.entry, owned.part, owned.lane])
}
