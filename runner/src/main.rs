//! Compares the engine with the second program (no word), or times it against the plain peer (`bench`).

mod addresses;
mod bench;
mod broken_off;
mod calls;
mod case;
mod damaged;
mod engine;
mod fixed;
mod lists;
mod owners;
mod peer;
mod program;
mod random;
mod reached;
mod refusals;
mod report;
mod shape;
mod strings;
mod sweep;
mod table_4_1;
mod tally;
mod valid;

use std::process::ExitCode;

use case::Case;
use random::Random;
use report::Report;
use strings::{Flat, RW};

/// Generated maps, beside the fixed ones and the sweep.
const MAPS: u64 = 250_000;

/// Accepted maps, and as many damaged ones, on which every field, bit and address is asked for; and more accepted ones, whose
/// sets end about a border of Table 4-1.
const WHOLE_MAPS: u64 = 300;
const WHOLE_ADDRESSED: u64 = 100;

fn main() -> ExitCode {
    let words: Vec<String> = std::env::args().skip(1).collect();
    match words.iter().map(String::as_str).collect::<Vec<_>>()[..] {
        [] if compare() => ExitCode::SUCCESS,
        [] => ExitCode::FAILURE,
        ["bench"] => {
            bench::run();
            ExitCode::SUCCESS
        }
        _ => {
            eprintln!("usage: runner [bench]");
            ExitCode::FAILURE
        }
    }
}

fn compare() -> bool {
    engine::check_layout();
    let mut calls = calls::CALLS.to_vec();
    calls.extend(lists::rows());
    if program::exists() {
        calls.push(&program::CALL);
    }
    let mut report = Report::new(&calls);

    fixed::compare(&mut report);
    broken_off::compare(&mut report);
    owners::compare(&mut report);
    addresses::compare(&mut report);
    for seed in 0..WHOLE_MAPS {
        calls::compare_all(&mut report, &valid::valid(&Random::new(seed)).flat().case(), &[]);
        calls::compare_all(&mut report, &damaged::damaged(&Random::new(seed)).case(), &[]);
    }
    for seed in 0..WHOLE_ADDRESSED {
        calls::compare_all(&mut report, &valid::addressed(&Random::new(seed)).flat().case(), &[]);
    }
    let random = Random::new(0);
    sweep::sweep(|map| calls::compare(&mut report, &map.case(), &random));
    for seed in 0..MAPS {
        let random = Random::new(seed);
        let map = any_map(&random);
        calls::compare(&mut report, &map.case(), &random);
        if seed % 16 == 0 {
            shared_buffer(&mut report, &map, &random);
        }
    }
    lists::compare(&mut report);
    lists::whole::compare(&mut report);
    if program::exists() {
        program::compare(&mut report);
    } else {
        println!("target/bin/map is not built: the map program is not compared\n");
    }
    report.finish()
}

/// A map from one of the generators.
fn any_map(random: &Random) -> Flat {
    match random.below(20) {
        0..=4 => valid::valid(random).flat(),
        5..=10 => damaged::damaged(random),
        11 | 12 => damaged::changed(random),
        13 | 14 => damaged::bordering(random),
        15 | 16 => damaged::crowded(random),
        17 | 18 => valid::addressed(random).flat(),
        _ => damaged::noise(random),
    }
}

/// Both strings lent from one buffer: the same part twice, and a part that begins inside the other.
fn shared_buffer(report: &mut Report, map: &Flat, random: &Random) {
    let buffer = &map.strings[RW];
    calls::compare(report, &Case { count: map.count, rw: buffer, ro: buffer }, random);
    let middle = buffer.len() / 2;
    calls::compare(report, &Case { count: map.count, rw: buffer, ro: &buffer[middle..] }, random);
}
