//! Loads broken off whose states are known from the documents alone, and states of no load whose answers include/vcs.h gives.

use crate::calls::resume::{self, compare_pass, compare_resume, Origin, Rest};
use crate::case::Case;
use crate::engine::{Loaded, Passed, State};
use crate::fixed::{accepted, hex, refused};
use crate::report::Report;
use crate::strings::LONGEST;

pub fn compare(report: &mut Report) {
    for BrokenOff { name, count, rw, ro, entries, answer } in broken_off() {
        let (rw, ro) = (hex(rw), hex(ro));
        let mut rest = Rest::new(Case { count, rw: &rw, ro: &ro });
        let last = if answer.refusal == 0 { resume::end() } else { Passed::refused(answer.refusal, answer.at) };
        for known in entries.into_iter().map(|(length, state)| past(length, state)).chain([last]) {
            compare_resume(report, Origin::Load, &rest, &[(name, answer)]);
            compare_pass(report, Origin::Load, &rest, &[(name, known)]);
            rest = rest.past(&known);
        }
    }
    for TakenUp { name, count, rw, ro, state, passed, answer } in taken_up() {
        let rest = Rest { case: Case { count, rw: &rw, ro: &ro }, state };
        compare_resume(report, Origin::Any, &rest, &[(name, answer)]);
        compare_pass(report, Origin::Any, &rest, &[(name, passed)]);
    }
}

/// String, media, entries, before, sum, staged length.
type Numbers = (u8, u8, u8, u8, u16, u16);

fn state((string, media, entries, before, sum, staged_length): Numbers) -> State {
    State { string, media, entries, before, sum, staged_length }
}

/// An entry's length, and the state after it.
fn past(length: usize, numbers: Numbers) -> Passed {
    Passed { length, state: state(numbers), ..Passed::default() }
}

/// A load in hex, each entry's length with the numbers kept after it, and what the load answers.
struct BrokenOff {
    name: &'static str,
    count: usize,
    rw: &'static str,
    ro: &'static str,
    entries: Vec<(usize, Numbers)>,
    answer: Loaded,
}

#[rustfmt::skip]
fn broken_off() -> Vec<BrokenOff> {
    let of = |name, count, rw, ro, entries: &[_], answer| BrokenOff { name, count, rw, ro, entries: entries.to_vec(), answer };
    vec![
        of("document 01's example", 4, "02 05 0B 01 00 00 05 00 02 00 05 05 0F 01 00", "",
           &[(5, (0, 0, 1, 0, 1, 0)), (5, (0, 0, 2, 0, 3, 0)), (5, (0, 0, 3, 0, 4, 0))], accepted(3, 0, 4, 4)),
        of("RO counts on", 4, "00 04 00 03 13 04 00 02", "00 04 00 07 01 04 00 00",
           &[(4, (0, 0, 1, 0, 3, 0)), (4, (0, 0, 2, 0, 5, 0)), (4, (1, 0, 1, 2, 12, 5))], refused(3, 3)),
        of("RO after no RW entry", 4, "", "13 04 00 01 13 04 00 01 13",
           &[(4, (1, 0, 1, 0, 1, 0)), (4, (1, 0, 2, 0, 2, 0))], refused(1, 2)),
        of("media side, then host side", 4, "0F 05 00 08 01 13 04 00 00 02 05 00 01 00", "",
           &[(5, (0, 1, 1, 0, 8, 0)), (4, (0, 1, 2, 0, 8, 0))], refused(6, 2)),
        of("an opaque entry is on no side", 4, "13 05 00 08 01 02 05 00 01 00", "",
           &[(5, (0, 0, 1, 0, 8, 0)), (5, (0, 0, 2, 0, 9, 0))], accepted(2, 0, 9, 9)),
        of("media side in RW, then RO", 4, "0F 05 00 08 01", "11 05 00 10 00",
           &[(5, (0, 1, 1, 0, 8, 0)), (5, (1, 1, 1, 1, 24, 8))], accepted(1, 1, 8, 24)),
        of("media side in RO", 4, "", "11 05 00 10 01 12 07 00 08 00 00 00",
           &[(5, (1, 1, 1, 0, 16, 0)), (7, (1, 1, 2, 0, 24, 0))], accepted(0, 2, 0, 24)),
        of("255 and 1, over both strings", 4, "00 04 00 FF", "00 04 00 01",
           &[(4, (0, 0, 1, 0, 255, 0)), (4, (1, 0, 1, 1, 256, 255))], accepted(1, 1, 255, 256)),
        of("255 and 2, over both strings", 4, "00 04 00 FF", "00 04 00 02", &[(4, (0, 0, 1, 0, 255, 0))], refused(7, 1)),
        of("an entry at offset 256", 4, "00 04 00 FF 00 04 00 01 13 04 00 00", "FF 04 00 00",
           &[(4, (0, 0, 1, 0, 255, 0)), (4, (0, 0, 2, 0, 256, 0)), (4, (0, 0, 3, 0, 256, 0)), (4, (1, 0, 1, 3, 256, 256))],
           accepted(3, 1, 256, 256)),
        of("two mask bytes, surplus bytes", 9, "00 07 00 01 07 01 02", "12 08 01 FF 08 00 00 03",
           &[(7, (0, 0, 1, 0, 7, 0)), (8, (1, 0, 1, 1, 15, 7))], accepted(1, 1, 7, 15)),
        of("no entry", 1, "", "", &[], accepted(0, 0, 0, 0)),
        of("9", 16, "00 04 00 00", "", &[], refused(9, 0)),
    ]
}

/// A state that may be of no load, with the bytes after it, and what pass and resume answer.
struct TakenUp {
    name: &'static str,
    count: usize,
    rw: Vec<u8>,
    ro: Vec<u8>,
    state: State,
    passed: Passed,
    answer: Loaded,
}

#[rustfmt::skip]
fn taken_up() -> Vec<TakenUp> {
    let of = |name, rw: &str, ro: &str, numbers, passed, answer| {
        TakenUp { name, count: 4, rw: hex(rw), ro: hex(ro), state: state(numbers), passed, answer }
    };
    let refused_by = |name, rw, ro, numbers, number, at| {
        of(name, rw, ro, numbers, Passed::refused(number, at), refused(number, at))
    };
    let nine = |name, count, rw, ro, numbers| {
        let (passed, answer) = (Passed::refused(9, 0), refused(9, 0));
        TakenUp { name, count, rw: vec![0; rw], ro: vec![0; ro], state: state(numbers), passed, answer }
    };
    vec![
        of("the end keeps every number", "", "", (1, 1, 250, 251, 60_000, 50_000), resume::end(), accepted(251, 250, 50_000, 60_000)),
        of("the end of RW", "", "", (0, 1, 250, 251, 60_000, 50_000), resume::end(), accepted(250, 0, 60_000, 60_000)),
        of("RW isn't read in RO", "02", "13 04 00 05", (1, 0, 3, 4, 20, 10), past(4, (1, 0, 4, 4, 25, 10)), accepted(4, 4, 10, 25)),
        of("string 2 is RO", "02", "13 04 00 05", (2, 0, 3, 4, 20, 10), past(4, (1, 0, 4, 4, 25, 10)), accepted(4, 4, 10, 25)),
        of("string 255 is RO", "02", "", (255, 0, 3, 4, 20, 10), resume::end(), accepted(4, 3, 10, 20)),
        refused_by("media 2 is media side", "02 05 00 01 00", "", (0, 2, 1, 0, 8, 0), 6, 1),
        of("media 255, past an entry", "02 05 00 01 01", "", (0, 255, 1, 0, 8, 0), past(5, (0, 1, 2, 0, 9, 0)), accepted(2, 0, 9, 9)),
        refused_by("16 RW entries", "02", "", (0, 0, 16, 0, 16, 0), 16, 16),
        refused_by("16 RO entries after 3", "", "02", (1, 0, 16, 3, 19, 3), 16, 19),
        refused_by("255 RO entries after 255", "", "02", (1, 0, 255, 255, 0, 0), 16, 510),
        of("16 RW entries, then RO", "", "13 04 00 01", (0, 0, 16, 0, 16, 0), past(4, (1, 0, 1, 16, 17, 16)), accepted(16, 1, 16, 17)),
        of("255 RW entries, then RO", "", "13 04 00 01", (0, 0, 255, 9, 16, 9), past(4, (1, 0, 1, 255, 17, 16)), accepted(255, 1, 16, 17)),
        of("15 RW entries, a 16th", "13 04 00 01", "", (0, 0, 15, 0, 15, 0), past(4, (0, 0, 16, 0, 16, 0)), accepted(16, 0, 16, 16)),
        refused_by("in RW, after 7", "02", "", (0, 0, 2, 7, 0, 0), 1, 9),
        of("in RW, after 7, past an entry", "13 04 00 01", "", (0, 0, 2, 7, 0, 5), past(4, (0, 0, 3, 7, 1, 5)), accepted(3, 0, 1, 1)),
        refused_by("sum 257", "13 04 00 00", "", (0, 0, 0, 0, 257, 0), 7, 0),
        refused_by("sum 65535", "", "13 04 00 FF", (1, 0, 0, 0, 65_535, 0), 7, 0),
        of("sum 256", "13 04 00 00", "", (0, 0, 0, 0, 256, 0), past(4, (0, 0, 1, 0, 256, 0)), accepted(1, 0, 256, 256)),
        nine("count 0", 0, 0, 0, (1, 0, 0, 0, 0, 0)),
        nine("count 16 before 16 entries", 16, 1, 0, (0, 0, 16, 0, 0, 0)),
        nine("RW of 121 bytes, in RW", 4, LONGEST + 1, 0, (0, 0, 1, 0, 0, 0)),
        nine("RW of 121 bytes, in RO", 4, LONGEST + 1, 0, (1, 0, 0, 1, 0, 0)),
        nine("RO of 121 bytes, in RW", 4, 0, LONGEST + 1, (0, 0, 1, 0, 0, 0)),
        nine("RO of 121 bytes, in RO", 4, 0, LONGEST + 1, (1, 0, 0, 1, 0, 0)),
    ]
}
