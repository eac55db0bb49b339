//! The map program: its output on generated inputs against the second program's.

use std::fmt;
use std::io::{ErrorKind, Write};
use std::path::Path;
use std::process::{Command, Stdio};
use std::time::Duration;

use crate::any_map;
use crate::calls::load;
use crate::case::Hex;
use crate::fixed::{self, Setting};
use crate::random::Random;
use crate::refusals::{FLOOR, LOAD};
use crate::report::{Answer, Report};
use crate::strings::{Flat, RO, RW};
use crate::tally::Row;

pub static CALL: Row = Row::new("map program", LOAD);

const PROGRAM: &str = concat!(env!("CARGO_MANIFEST_DIR"), "/../target/bin/map");

/// Generated maps that the program prints.
const MAPS: u64 = 20_000;

/// Further runs for each number that the program can answer.
const RUNS: usize = FLOOR as usize + 10;

/// What the program writes.
#[derive(PartialEq)]
struct Text(Vec<u8>);

impl fmt::Debug for Text {
    fn fmt(&self, f: &mut fmt::Formatter) -> fmt::Result {
        write!(f, "{:?}", String::from_utf8_lossy(&self.0))
    }
}

impl Answer for Text {
    fn refusal(&self) -> usize {
        let text = String::from_utf8_lossy(&self.0);
        let number = text.strip_prefix("refused ").and_then(|rest| rest.trim_end().parse().ok());
        number.unwrap_or(0)
    }
}

pub fn exists() -> bool {
    Path::new(PROGRAM).exists()
}

pub fn compare(report: &mut Report) {
    for input in fixed::INPUTS {
        let known = (input == fixed::MAP_INPUT).then_some(("document 01", fixed::MAP_OUTPUT));
        compare_input(report, input, false, known);
    }
    compare_input(report, &[], false, None);
    for Setting { map, known, .. } in fixed::settings() {
        let refused = format!("refused {}\n", known.refusal);
        let known = (known.refusal != 0).then_some(("a fixed answer", refused.as_bytes()));
        compare_input(report, &well_formed(&map), false, known);
    }
    for seed in 0..MAPS {
        compare_input(report, &well_formed(&any_map(&Random::new(seed))), false, None);
    }
    let random = Random::new(1);
    for run in 0..RUNS {
        for number in LOAD.iter() {
            let input = match number {
                9 => refused_9(&random, run),
                _ => well_formed(&map_answering(&random, number)),
            };
            compare_input(report, &input, run % 4 == 0, None);
        }
    }
}

fn compare_input(report: &mut Report, input: &[u8], in_pieces: bool, known: Option<(&str, &[u8])>) {
    let engine = Text(run(input, in_pieces));
    let mut others = vec![("second", Text(second::map_program(input)))];
    others.extend(known.map(|(name, text)| (name, Text(text.to_vec()))));
    report.compare(&CALL, &format_args!("input {}", Hex(input)), &engine, &others);
}

/// A generated map whose load the second program answers with this number.
fn map_answering(random: &Random, number: usize) -> Flat {
    loop {
        let map = any_map(random);
        let case = map.case();
        if load::of_second(&case).refusal == number {
            return map;
        }
    }
}

/// Count, RW size, RW bytes, RO size, RO bytes. A count or size is taken as its low byte.
fn well_formed(map: &Flat) -> Vec<u8> {
    let mut input = vec![map.count as u8];
    for string in [RW, RO] {
        input.push(map.strings[string].len() as u8);
        input.extend(&map.strings[string]);
    }
    input
}

/// Short, long, a size over 120 with and without its bytes, a count that isn't 1 to 15.
fn refused_9(random: &Random, run: usize) -> Vec<u8> {
    let mut map = map_answering(random, random.pick(&[0, 1, 2, 16]));
    match run % 6 {
        0 => {
            let mut input = well_formed(&map);
            input.truncate(random.below(input.len()));
            input
        }
        1 => {
            let mut input = well_formed(&map);
            let more = random.pick(&[1, 1, 2, 244, 300, 70_000]);
            input.extend(random.bytes(more));
            input
        }
        2 | 3 => {
            let string = &mut map.strings[run % 6 - 2];
            let size = random.pick(&[121, 121, 122, 255, random.within(121, 255)]);
            let more = random.bytes(size - string.len());
            string.extend(more);
            well_formed(&map)
        }
        4 => {
            let mut input = well_formed(&map);
            let place = if random.once_in(2) { 1 } else { 2 + map.strings[RW].len() };
            input[place] = random.within(121, 255) as u8;
            input
        }
        _ => {
            map.count = random.pick(&[0, 16, 17, 255, random.within(16, 255)]);
            well_formed(&map)
        }
    }
}

/// The program's output on an input, lent at once or in pieces that the program must wait for.
fn run(input: &[u8], in_pieces: bool) -> Vec<u8> {
    let mut child =
        Command::new(PROGRAM).stdin(Stdio::piped()).stdout(Stdio::piped()).spawn().expect("the map program starts");
    let mut stdin = child.stdin.take().expect("a pipe to the program");
    let (first, rest) = input.split_at(if in_pieces { input.len() / 2 } else { input.len() });
    for (piece, pause) in [(first, in_pieces), (rest, false)] {
        match stdin.write_all(piece) {
            // A program that has seen enough may end before it has read all.
            Err(error) if error.kind() != ErrorKind::BrokenPipe => panic!("writing to the program: {error}"),
            _ => {}
        }
        if pause {
            std::thread::sleep(Duration::from_millis(1));
        }
    }
    drop(stdin);
    let output = child.wait_with_output().expect("the program's output");
    assert!(output.status.success(), "the map program ended with {} on {}", output.status, Hex(input));
    output.stdout
}
