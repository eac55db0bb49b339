//! The owner call by address: the same answers, at a page and byte.

use super::owner;
use crate::case::Case;
use crate::engine::{self, Loaded, Owned};
use crate::peer;
use crate::random::Random;
use crate::reached::Look;
use crate::refusals::{self, only, ACCEPTED};
use crate::report::Report;
use crate::strings::LARGEST;
use crate::table_4_1::{self, OTHER_PAGES, PAGES};
use crate::tally::Row;

pub static CALL: Row = Row::new("owner at", refusals::OWNER);

/// The accepted answers, by what they say.
pub static FIELD: Row = Row::new("owner at: a field", ACCEPTED);
pub static GAP: Row = Row::new("owner at: gap", ACCEPTED);

/// The other pages whose every byte was asked at, by their place in `OTHER_PAGES`.
pub static OTHER: Row =
    Row { floor: 10, ..Row::new("owner at: other page", only(&[0, 1, 2, 3, 4, 5, 6, 7, 8, 9, 10])) };

/// Bytes past a page that end in the bits of one in it.
const BEYOND: [usize; 5] = [256, 256 + 153, 256 + 214, (1 << 32) + 153, usize::MAX];

/// Compares the owner of one bit by address, also with owner by the offset that the address has in the set, and with answers
/// that are known. The answer, if all agree.
pub fn compare(
    report: &mut Report,
    case: &Case,
    [set, page, byte, bit]: [usize; 4],
    known: &[(&str, Owned)],
) -> Option<Owned> {
    let Case { count, rw, ro } = *case;
    let owned = engine::owner_at(count, rw, ro, set, page, byte, bit);
    let second = owner::of_second(case, set, second::Byte::Address { page, byte }, bit);
    let mut others = vec![("second", second), ("peer", peer::owner_at(count, rw, ro, set, page, byte, bit))];
    if let Some(offset) = table_4_1::offset(set, [page, byte]) {
        others.push(("by offset", engine::owner(count, rw, ro, set, offset, bit)));
    }
    others.extend_from_slice(known);
    let shown = format_args!("{case} set {set} page {page:X}h byte {byte} bit {bit}");
    let agree = report.compare(&CALL, &shown, &owned, &others);
    if agree && owned.refusal == 0 {
        report.calls.count(if owned.gap == 0 { &FIELD } else { &GAP }, 0);
    }
    agree.then_some(owned)
}

/// Compares the owner of every bit of the map that has an address, and of those just out of range; on an accepted map also of
/// one bit of every byte of many pages.
pub fn compare_all(report: &mut Report, case: &Case, loaded: &Loaded) {
    for (set, offset) in (0..3).flat_map(|set| (0..=loaded.active_length + 1).map(move |offset| (set, offset))) {
        if let Some([page, byte]) = table_4_1::address(set, offset) {
            for bit in 0..=8 {
                compare(report, case, [set, page, byte, bit], &[]);
            }
        }
    }
    if loaded.refusal == 0 {
        compare_pages(report, case);
    }
}

/// Compares the owner of a bit that changes with the byte, now and then also of bit 8; on the pages of Table 4-1 and on one of
/// the others.
fn compare_pages(report: &mut Report, case: &Case) {
    let sum: usize = case.rw.iter().chain(case.ro).map(|&byte| usize::from(byte)).sum();
    let other = sum % OTHER_PAGES.len();
    report.calls.count(&OTHER, other);
    for page in PAGES.into_iter().chain([OTHER_PAGES[other]]) {
        for byte in (0..=0xFF).chain(BEYOND) {
            for set in 0..=3 {
                compare(report, case, [set, page, byte, byte % 8], &[]);
                if byte % 32 == 31 {
                    compare(report, case, [set, page, byte, 8], &[]);
                }
            }
        }
    }
}

/// Compares the owner of one bit, at an address of the map or not; now and then at the set's last byte, or at the one that
/// would come next.
pub fn compare_one(report: &mut Report, case: &Case, loaded: &Loaded, random: &Random) {
    let length = random.pick(&[loaded.staged_length, loaded.active_length, LARGEST]);
    let [set, offset, bit] = [3, length, 8].map(|end| random.about(end));
    let end = loaded.length(set).saturating_sub(random.below(2));
    let [page, byte] = match table_4_1::address(set, end) {
        Some(address) if random.once_in(3) => address,
        _ => table_4_1::about(random, set, offset),
    };
    if let Some(owned) = compare(report, case, [set, page, byte, bit], &[]) {
        if loaded.refusal == 0 && bit < 8 {
            report.reached.asked(&Look::new(*case, *loaded), set, [page, byte], &owned);
        }
    }
}
