//! Nanoseconds of each of the engine's calls against the plain peer's: the same inputs in one process, medians of many
//! samples. Before anything is timed, both programs must agree on the timed inputs and on varied ones.

use std::collections::BTreeSet;
use std::hint::black_box;
use std::ops::Deref;
use std::time::Instant;

use crate::any_map;
use crate::calls::bank::{APPLY, BYTE_READ, BYTE_WRITE, FRESH, PERFORM, PUBLISH, READ, SELECT, WEIGHT, WRITE};
use crate::calls::{entry, load, owner, owner_at, place, resume, take};
use crate::case::Case;
use crate::engine::{self, app_sels, FlatCall, Placed, State, BANK_SIZE};
use crate::fixed::hex;
use crate::peer;
use crate::random::Random;
use crate::report::Answer;
use crate::strings::{Flat, RO, RW};
use crate::table_4_1;
use crate::tally::Row;
use crate::valid;

/// Rounds over all calls. A call's time is its least median of a round: other work on the machine only adds to it.
const ROUNDS: usize = 9;
/// Samples of each program in a round, taken in turn.
const SAMPLES: usize = 301;
/// Calls in a sample.
const CALLS: u32 = 200;
/// Inputs on which both programs must agree, beside the timed one.
const VARIED: u64 = 20_000;

/// The application that every timed map's entries with fields have, and the lane of calls that name one.
const APP: usize = 1;
const LANE: usize = 5;

/// A map for the count 4, and what its calls name: an RW and a 12h entry of the second half, and values for them.
struct Named {
    name: &'static str,
    rw: &'static str,
    ro: &'static str,
    written: (usize, i64),
    published: (usize, i64),
}

const MAPS: [Named; 3] = [
    // Document 01's example and a 12h entry.
    Named {
        name: "small",
        rw: "02 05 0B 01 00 00 05 00 02 00 05 05 0F 01 00",
        ro: "12 07 0F 08 00 00 00",
        written: (2, 1),
        published: (3, -14),
    },
    Named {
        name: "typical",
        rw: "02 05 0F 01 00 03 05 0F 02 00 04 07 0F 04 00 1F FF 05 05 0F 01 00 06 05 0F 01 00 \
             07 08 0F 08 00 FF 0F FF 08 07 0F 04 00 00 0F 0F 05 03 08 00 10 05 03 08 00 13 04 0F 02 \
             07 08 0F 08 01 01 0F FF 08 07 0F 04 01 00 0F",
        ro: "11 05 0F 10 00 12 07 0F 08 00 FF 00 12 07 0F 08 00 00 01 12 07 0F 08 00 01 03",
        written: (10, 3),
        published: (14, -14),
    },
    Named {
        name: "full",
        rw: "02 05 0F 01 00 03 05 0F 02 00 04 07 0F 04 00 1F FF 05 05 0F 01 00 06 05 0F 01 00 \
             07 08 0F 08 00 FF 0F FF 08 07 0F 04 00 00 0F 01 06 0F 00 00 02 \
             13 11 0F 09 01 02 03 04 05 06 07 08 09 0A 0B 0C 0D FF 12 0F 09 01 02 03 04 05 06 07 08 09 0A 0B 0C 0D 0E \
             0F 05 03 08 01 10 05 03 08 00 \
             02 05 0F 01 01 04 07 0F 04 01 1F FF 07 08 0F 08 01 01 0F FF 08 07 0F 04 01 00 0F",
        ro: "12 07 0F 08 00 FD 00 11 05 0F 10 00 12 07 0F 08 00 FE 01 11 05 0F 10 00 \
             12 07 0F 08 00 FF 02 11 05 0F 10 00 12 07 0F 08 00 00 03 11 05 0F 10 01 \
             12 07 0F 08 01 01 00 11 05 0F 10 01 00 04 00 04 13 0E 00 0C 01 02 03 04 05 06 07 08 09 0A \
             20 0E 00 0C 01 02 03 04 05 06 07 08 09 0A FF 10 00 0C 01 02 03 04 05 06 07 08 09 0A 0B 0C \
             12 07 0F 08 01 02 01 11 05 0F 10 01",
        written: (14, 3),
        published: (30, -14),
    },
];

/// The arguments of every call; each reads its own. The strings are lent from these places on, where a load that was broken
/// off has the state.
#[derive(Clone, Copy, Debug)]
struct Args {
    call: FlatCall,
    /// Page and byte.
    address: [usize; 2],
    bit: usize,
    position: usize,
    from: [usize; 2],
    state: State,
}

impl Args {
    /// Arguments that name a field of this entry in a set, its byte there and a value.
    fn naming(case: &Case, set: usize, (entry, value): (usize, i64)) -> Args {
        let Placed { offset, page, byte, .. } = engine::place(case.count, case.rw, case.ro, set, entry, 0, LANE);
        let position = engine::entry(case.count, case.rw, case.ro, entry).start;
        let call =
            FlatCall { kind: 1, set, entry, part: 0, lane: LANE, offset, app: APP, value, byte: 0x21, lanes: 0xFF };
        Args { call, address: [page, byte], bit: 4, position, from: [0, 0], state: State::default() }
    }

    fn lent<'a>(&self, map: &'a Flat) -> Case<'a> {
        let Case { count, rw, ro } = map.case();
        Case { count, rw: &rw[self.from[RW]..], ro: &ro[self.from[RO]..] }
    }
}

impl Deref for Args {
    type Target = FlatCall;

    fn deref(&self) -> &FlatCall {
        &self.call
    }
}

/// What a call is given.
struct Input {
    map: Flat,
    bank: Vec<u8>,
    args: Args,
}

/// A timed map with its entries and bank, and arguments that name a field of a staged and of the active set.
struct Subject {
    name: &'static str,
    map: Flat,
    entries: usize,
    bank: Vec<u8>,
    staged: Args,
    active: Args,
}

impl Subject {
    fn new(named: &Named) -> Subject {
        let map = Flat { count: 4, strings: [hex(named.rw), hex(named.ro)] };
        let case = map.case();
        let (staged, active) = (Args::naming(&case, 0, named.written), Args::naming(&case, 2, named.published));
        let bank = planned(&case);
        let entries = engine::load(case.count, case.rw, case.ro).entries();
        Subject { name: named.name, map, entries, bank, staged, active }
    }

    /// Arguments that name a field of this entry in the active set.
    fn naming(&self, entry: usize) -> Args {
        Args::naming(&self.map.case(), self.active.set, (entry, self.active.value))
    }

    /// Arguments of a load that was broken off after so many entries.
    fn after(&self, entries: usize) -> Args {
        let mut args = self.staged;
        for _ in 0..entries {
            let Case { count, rw, ro } = args.lent(&self.map);
            let passed = engine::pass(count, rw, ro, args.state);
            args.state = passed.state;
            args.from[usize::from(passed.state.string)] += passed.length;
        }
        args
    }
}

/// A bank with accepted numbers in all fields of staged set 0 and of the active set, and the application in each lane.
fn planned(case: &Case) -> Vec<u8> {
    let Case { count, rw, ro } = *case;
    let mut bank = vec![0; BANK_SIZE];
    let loaded = engine::load(count, rw, ro);
    assert_eq!(loaded.refusal, 0, "a timed map is accepted: {case}");
    for lane in 1..=8 {
        engine::select(count, rw, ro, &mut bank, 0, lane, APP);
        for entry in 0..loaded.entries() {
            for part in 0..2 {
                let values = (0..16).map(|value| (value + (entry + lane) as i64) % 16);
                let mut accepts = |value: &i64| {
                    engine::write(count, rw, ro, &mut bank, 0, entry, part, lane, *value).refusal == 0
                        || engine::publish(count, rw, ro, &mut bank, entry, part, lane, *value).refusal == 0
                };
                values.into_iter().find(|value| accepts(value));
            }
        }
    }
    bank
}

/// Inputs of all kinds, on the timed maps and on generated ones, accepted and refused.
fn varied(subjects: &[Subject], seed: u64) -> Input {
    let random = Random::new(seed);
    let subject = &subjects[random.below(subjects.len())];
    let map = match random.below(4) {
        0 => any_map(&random),
        1 => valid::valid(&random).flat(),
        _ => subject.map.clone(),
    };
    let length = match random.below(10) {
        0..=5 => BANK_SIZE,
        6 => BANK_SIZE + 16,
        7 => BANK_SIZE + 240,
        8 => BANK_SIZE - 1,
        _ => 0,
    };
    let mut bank = match random.below(4) {
        0 | 1 => subject.bank.clone(),
        2 => vec![0; BANK_SIZE],
        _ => random.bytes(BANK_SIZE),
    };
    if random.once_in(2) {
        // One byte about the fields of a staged set: apply may answer 14.
        bank[random.below(64)] = random.byte();
    }
    bank.resize(length, 0xA5);
    if length >= BANK_SIZE && random.once_in(2) {
        let least = usize::from(!random.once_in(4));
        app_sels(&mut bank).fill_with(|| random.within(least, map.count.clamp(1, 15)) as u8);
    }
    let args = varied_args(&random, &map.case());
    Input { map, bank, args }
}

fn varied_args(random: &Random, case: &Case) -> Args {
    let loaded = engine::load(case.count, case.rw, case.ro);
    let call = FlatCall {
        kind: random.about(7),
        set: random.about(3),
        entry: random.about(loaded.entries()),
        part: random.pick(&[0, 0, random.about(2)]),
        lane: random.pick(&[random.within(1, 8), random.about(9)]),
        offset: random.about(random.pick(&[loaded.staged_length, loaded.active_length])),
        app: random.about(case.count.min(15) + 1),
        value: match random.below(3) {
            0 => random.below(16) as i64,
            1 => random.below(391) as i64 - 130,
            _ => random.pick(&[-129, -128, -1, 16, 127, 128, 255, 256, i64::MIN, i64::MAX]),
        },
        byte: random.byte(),
        lanes: random.pick(&[0, 0xFF, 1 << random.below(8), random.byte()]),
    };
    let (bit, position) = (random.about(8), random.about(case.rw.len() + 1));
    let state = if random.once_in(4) { State::default() } else { resume::any_state(random) };
    let address = table_4_1::about(random, call.set, call.offset);
    Args { call, address, bit, position, from: [0, 0], state }
}

/// A call's times: for each map, engine and peer.
struct Line {
    name: &'static str,
    times: [[f64; 2]; 3],
}

struct Bench {
    subjects: [Subject; 3],
    varied: Vec<Input>,
    lines: Vec<Line>,
}

impl Bench {
    /// Times a call of both programs on each map; in the first round it also checks it.
    fn row<A: Answer>(
        &mut self,
        name: &'static str,
        row: &Row,
        args: impl Fn(&Subject) -> Args,
        engine: impl Fn(&Case, &mut [u8], &Args) -> A,
        peer: impl Fn(&Case, &mut [u8], &Args) -> A,
    ) {
        let known = self.lines.iter().position(|line| line.name == name);
        let line = known.unwrap_or_else(|| {
            self.check(name, row, &args, &engine, &peer);
            self.lines.push(Line { name, times: [[f64::INFINITY; 2]; 3] });
            self.lines.len() - 1
        });
        for (subject, least) in self.subjects.iter().zip(&mut self.lines[line].times) {
            let (mut bank, args) = (subject.bank.clone(), args(subject));
            let case = args.lent(&subject.map);
            let mut times = [Vec::new(), Vec::new()];
            for _ in 0..SAMPLES {
                times[0].push(sample(|| engine(black_box(&case), black_box(&mut bank), black_box(&args))));
                times[1].push(sample(|| peer(black_box(&case), black_box(&mut bank), black_box(&args))));
            }
            for (least, times) in least.iter_mut().zip(times) {
                *least = least.min(median(times));
            }
        }
    }

    /// Both programs give equal answers and equal banks: on the timed inputs, which are accepted, and on the varied
    /// ones, which reach every number that the call can answer.
    fn check<A: Answer>(
        &self,
        name: &str,
        row: &Row,
        args: impl Fn(&Subject) -> Args,
        engine: impl Fn(&Case, &mut [u8], &Args) -> A,
        peer: impl Fn(&Case, &mut [u8], &Args) -> A,
    ) {
        let agreed = |map: &Flat, bank: &[u8], args: &Args| {
            let case = args.lent(map);
            let mut banks = [bank.to_vec(), bank.to_vec()];
            let answers = [engine(&case, &mut banks[0], args), peer(&case, &mut banks[1], args)];
            let equal = answers[0] == answers[1] && banks[0] == banks[1];
            assert!(equal, "{name}: engine and peer differ on {case}, {args:?}: {answers:?}, banks {banks:02X?}");
            answers[0].refusal()
        };
        for subject in &self.subjects {
            assert_eq!(agreed(&subject.map, &subject.bank, &args(subject)), 0, "{name}: accepted on {}", subject.name);
        }
        let seen = self.varied.iter().map(|input| agreed(&input.map, &input.bank, &input.args));
        let seen: BTreeSet<usize> = seen.collect();
        assert_eq!(seen, row.numbers.iter().collect(), "{name}: the numbers that varied inputs reach");
    }

    fn print(&self) {
        print!("{:<20}", "");
        for Subject { name, entries, .. } in &self.subjects {
            print!("{:>24}", format!("{name}, {entries} entries"));
        }
        println!("\n{:<20}{}", "nanoseconds", "   engine    peer  ratio".repeat(self.subjects.len()));
        for Line { name, times } in &self.lines {
            print!("{name:<20}");
            for [engine, peer] in times {
                print!("{engine:>9.1}{peer:>8.1}{:>7.2}", engine / peer);
            }
            println!();
        }
    }
}

fn median(mut times: Vec<f64>) -> f64 {
    times.sort_by(f64::total_cmp);
    times[times.len() / 2]
}

/// Nanoseconds of one call, over a run of calls.
fn sample<A>(mut call: impl FnMut() -> A) -> f64 {
    let start = Instant::now();
    for _ in 0..CALLS {
        // By reference: a copy of the answer isn't the call's.
        black_box(&call());
    }
    start.elapsed().as_nanos() as f64 / f64::from(CALLS)
}

/// A row's line. Its call is written once, for both programs.
macro_rules! row {
    ($bench:ident, $name:literal, $row:expr, $of:expr, |$bank:pat_param, $a:pat_param|
     $call:ident($($value:expr),*)) => {
        $bench.row(
            $name,
            &$row,
            $of,
            |case, $bank, $a| engine::$call(case.count, case.rw, case.ro $(, $value)*),
            |case, $bank, $a| peer::$call(case.count, case.rw, case.ro $(, $value)*),
        )
    };
}

pub fn run() {
    let subjects = MAPS.each_ref().map(Subject::new);
    let varied = (0..VARIED).map(|seed| varied(&subjects, seed)).collect();
    let mut bench = Bench { subjects, varied, lines: Vec::new() };
    for _ in 0..ROUNDS {
        rows(&mut bench);
    }
    bench.print();
}

/// Every call once; then entry, owner and read for the first, the middle and the last of all entries, which have fields, and a
/// load that was broken off there. Owner by address is asked where the byte has one on every map: in the staged set, in the
/// first and in the middle entry.
#[rustfmt::skip]
fn rows(bench: &mut Bench) {
    let staged = |subject: &Subject| subject.staged;
    let active = |subject: &Subject| subject.active;
    let one_lane = |&Subject { staged, .. }: &Subject| {
        Args { call: FlatCall { lanes: 1 << (LANE - 1), ..staged.call }, ..staged }
    };
    row!(bench, "load", load::CALL, staged, |_, _| load());
    row!(bench, "entry", entry::CALL, active, |_, a| entry(a.entry));
    row!(bench, "place", place::CALL, active, |_, a| place(a.set, a.entry, a.part, a.lane));
    row!(bench, "owner", owner::CALL, active, |_, a| owner(a.set, a.offset, a.bit));
    row!(bench, "owner at", owner_at::CALL, staged, |_, a| owner_at(a.set, a.address[0], a.address[1], a.bit));
    row!(bench, "fresh", FRESH, staged, |bank, _| fresh(bank));
    row!(bench, "select", SELECT, staged, |bank, a| select(bank, a.set, a.lane, a.app));
    row!(bench, "write", WRITE, staged, |bank, a| write(bank, a.set, a.entry, a.part, a.lane, a.value));
    row!(bench, "read", READ, active, |bank, a| read(bank, a.set, a.entry, a.part, a.lane));
    row!(bench, "byte write", BYTE_WRITE, staged, |bank, a| byte_write(bank, a.set, a.offset, a.byte));
    row!(bench, "byte read", BYTE_READ, active, |bank, a| byte_read(bank, a.set, a.offset));
    row!(bench, "publish", PUBLISH, active, |bank, a| publish(bank, a.entry, a.part, a.lane, a.value));
    row!(bench, "apply, all lanes", APPLY, staged, |bank, a| apply(bank, a.set, a.lanes));
    row!(bench, "apply, one lane", APPLY, one_lane, |bank, a| apply(bank, a.set, a.lanes));
    row!(bench, "weight", WEIGHT, active, |bank, a| weight(bank, a.entry, a.lane));
    bench.row(
        "take", &take::CALL, staged,
        |case, _, a| engine::take(case.count, case.rw, a.position),
        |case, _, a| peer::take(case.count, case.rw, a.position),
    );
    row!(bench, "perform (write)", PERFORM, staged, |bank, a| perform(bank, a.call));

    let first = |subject: &Subject| subject.naming(0);
    let middle = |subject: &Subject| subject.naming(subject.entries / 2);
    let last = |subject: &Subject| subject.naming(subject.entries - 1);
    row!(bench, "entry, first entry", entry::CALL, first, |_, a| entry(a.entry));
    row!(bench, "entry, middle entry", entry::CALL, middle, |_, a| entry(a.entry));
    row!(bench, "entry, last entry", entry::CALL, last, |_, a| entry(a.entry));
    row!(bench, "owner, first entry", owner::CALL, first, |_, a| owner(a.set, a.offset, a.bit));
    row!(bench, "owner, middle entry", owner::CALL, middle, |_, a| owner(a.set, a.offset, a.bit));
    row!(bench, "owner, last entry", owner::CALL, last, |_, a| owner(a.set, a.offset, a.bit));
    row!(bench, "owner at, first", owner_at::CALL, first, |_, a| owner_at(a.set, a.address[0], a.address[1], a.bit));
    row!(bench, "owner at, middle", owner_at::CALL, middle, |_, a| owner_at(a.set, a.address[0], a.address[1], a.bit));
    row!(bench, "read, first entry", READ, first, |bank, a| read(bank, a.set, a.entry, a.part, a.lane));
    row!(bench, "read, middle entry", READ, middle, |bank, a| read(bank, a.set, a.entry, a.part, a.lane));
    row!(bench, "read, last entry", READ, last, |bank, a| read(bank, a.set, a.entry, a.part, a.lane));

    let before_middle = |subject: &Subject| subject.after(subject.entries / 2);
    let before_last = |subject: &Subject| subject.after(subject.entries - 1);
    row!(bench, "pass, first entry", resume::PASS, staged, |_, a| pass(a.state));
    row!(bench, "pass, middle entry", resume::PASS, before_middle, |_, a| pass(a.state));
    row!(bench, "pass, last entry", resume::PASS, before_last, |_, a| pass(a.state));
    row!(bench, "resume, from 0", resume::RESUME, staged, |_, a| resume(a.state));
    row!(bench, "resume, from middle", resume::RESUME, before_middle, |_, a| resume(a.state));
    row!(bench, "resume, last entry", resume::RESUME, before_last, |_, a| resume(a.state));
}
