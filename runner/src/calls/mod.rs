//! The calls that are compared, a module for each.

pub mod bank;
pub mod entry;
pub mod load;
pub mod owner;
pub mod owner_at;
pub mod place;
pub mod resume;
pub mod take;

use crate::case::Case;
use crate::engine::Loaded;
use crate::random::Random;
use crate::report::Report;
use crate::tally::Row;

/// Every call, in the order of the table that is printed.
pub const CALLS: [&Row; 36] = [
    &load::CALL,
    &resume::PASS,
    &resume::ENTRY,
    &resume::END,
    &resume::RESUME,
    &resume::ANY_PASS,
    &resume::ANY_RESUME,
    &entry::CALL,
    &place::CALL,
    &owner::CALL,
    &owner::FIELD,
    &owner::GAP,
    &owner_at::CALL,
    &owner_at::FIELD,
    &owner_at::GAP,
    &owner_at::OTHER,
    &take::CALL,
    &take::ENTRY,
    &take::END,
    &take::LATE,
    &bank::FRESH,
    &bank::SELECT,
    &bank::WRITE,
    &bank::READ,
    &bank::PUBLISH,
    &bank::BYTE_WRITE,
    &bank::BYTE_READ,
    &bank::APPLY,
    &bank::PERFORM,
    &bank::UNKNOWN,
    &bank::WEIGHT,
    &bank::END_BANK,
    &bank::END_READ,
    &bank::END_ON_PAGE,
    &bank::END_ON_OVERFLOW,
    &bank::END_APPLY,
];

/// Random place and owner calls on one map.
const FEW: usize = 3;

/// The load is broken off on one in so many maps.
const BROKEN_OFF: usize = 2;

/// Compares every call without a bank on one map: place and owner for a few random numbers.
pub fn compare(report: &mut Report, case: &Case, random: &Random) {
    if let Some(loaded) = load::compare(report, case, &[]) {
        entry::compare(report, case, &loaded);
        for _ in 0..FEW {
            place::compare_one(report, case, &loaded, random);
            owner::compare_one(report, case, &loaded, random);
            owner_at::compare_one(report, case, &loaded, random);
        }
        take::compare(report, case, &loaded, random);
        if random.once_in(BROKEN_OFF) {
            resume::compare(report, case, &loaded);
            resume::compare_others(report, case, &loaded, random);
        }
    }
}

/// Compares every call without a bank on one map: the load also with answers that are known, place and owner for every field,
/// bit and address.
pub fn compare_all(report: &mut Report, case: &Case, known: &[(&str, Loaded)]) {
    if let Some(loaded) = load::compare(report, case, known) {
        entry::compare(report, case, &loaded);
        place::compare_all(report, case, &loaded);
        owner::compare_all(report, case, &loaded);
        owner_at::compare_all(report, case, &loaded);
        take::compare_all(report, case, &loaded);
        resume::compare(report, case, &loaded);
    }
}
