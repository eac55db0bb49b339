//! The calls on a bank: answer and every byte after each, by engine and second program.

use std::fmt::{self, Display};

use second::Table;

use super::load;
use crate::case::{Case, Hex};
use crate::engine::{self, app_sel_at, app_sels, set_start, Answered, FlatCall, Loaded, Owned, Placed, BANK_SIZE};
use crate::random::Random;
use crate::refusals::{self, LISTS_TO_THE_END};
use crate::report::{Answer, Report};
use crate::table_4_1;
use crate::tally::Row;

pub static FRESH: Row = Row::new("fresh", refusals::FRESH);
pub static SELECT: Row = Row::new("select", refusals::SELECT);
pub static WRITE: Row = Row::new("write", refusals::WRITE);
pub static READ: Row = Row::new("read", refusals::READ);
pub static PUBLISH: Row = Row::new("publish", refusals::PUBLISH);
pub static BYTE_WRITE: Row = Row::new("byte write", refusals::BYTE_WRITE);
pub static BYTE_READ: Row = Row::new("byte read", refusals::BYTE_READ);
pub static APPLY: Row = Row::new("apply", refusals::APPLY);
pub static PERFORM: Row = Row::new("perform", refusals::PERFORM);
pub static UNKNOWN: Row = Row::new("perform: unknown kind", refusals::UNKNOWN_KIND);
pub static WEIGHT: Row = Row::new("weight", refusals::WEIGHT);

/// The end of a list after a fresh, against the plain table: the bank, twice, each number by read, and that owner tells its
/// field at the address that place gives it, each AppSel by apply.
pub static END_BANK: Row = Row { floor: 2 * LISTS_TO_THE_END, ..Row::new("end: bank", refusals::ACCEPTED) };
pub static END_READ: Row = Row::new("end: read", refusals::FIELD);
pub static END_ON_PAGE: Row = Row::new("end: owner on page", refusals::ACCEPTED);
pub static END_ON_OVERFLOW: Row = Row::new("end: owner on overflow", refusals::ACCEPTED);
pub static END_APPLY: Row = Row::new("end: apply", refusals::LANES);

/// Bytes behind a lent bank, which no call may reach.
const BEHIND: usize = 16;

/// A bank of a length, in a buffer that is `BEHIND` bytes longer; from an accepted fresh on, with the plain table beside it.
#[derive(Clone)]
pub struct Bank {
    buffer: Vec<u8>,
    length: usize,
    table: Option<Table>,
}

impl Bank {
    /// Most often of the least length, in content clear, all ones or foreign.
    pub fn new(random: &Random) -> Bank {
        let length = match random.below(16) {
            0 => {
                let [active, apps] = [set_start(2), app_sel_at(0, 1)];
                random.pick(&[0, 0, 1, active, apps, BANK_SIZE - 1, BANK_SIZE - 1, random.below(BANK_SIZE)])
            }
            1 => BANK_SIZE + 1,
            2 => random.pick(&[BANK_SIZE + 16, BANK_SIZE + 240, 1 << 16]),
            _ => BANK_SIZE,
        };
        let mut buffer = random.bytes(length + BEHIND);
        match random.below(4) {
            0 => buffer[..length].fill(0),
            1 => buffer[..length].fill(0xFF),
            // AppSels about the count
            2 if length >= BANK_SIZE => app_sels(&mut buffer).fill_with(|| random.below(20) as u8),
            _ => {}
        }
        Bank { buffer, length, table: None }
    }

    /// Of the least length, all ones.
    pub fn ones() -> Bank {
        Bank { buffer: vec![0xFF; BANK_SIZE + BEHIND], length: BANK_SIZE, table: None }
    }

    pub fn lent(&self) -> &[u8] {
        &self.buffer[..self.length]
    }

    pub fn accepted(&self) -> bool {
        self.length >= BANK_SIZE
    }
}

/// A call on a bank.
#[derive(Clone, Copy, Debug)]
pub enum Call {
    Fresh,
    Weight {
        entry: usize,
        lane: usize,
    },
    Listed(second::Call),
    /// Perform with a kind that doesn't exist.
    Unknown(FlatCall),
}

/// What a call answers.
#[derive(PartialEq, Debug)]
enum Said {
    Loaded(Loaded),
    Answered(Answered),
}

impl Said {
    /// The refusal number, 0 for none, and the entry or lane that it names.
    fn reason(&self) -> (usize, usize) {
        match self {
            Said::Loaded(loaded) => (loaded.refusal, loaded.at),
            Said::Answered(answered) => (answered.refusal, answered.at),
        }
    }

    /// The number that it answers, or 0.
    fn number(&self) -> i64 {
        match self {
            Said::Loaded(_) => 0,
            Said::Answered(answered) => answered.number,
        }
    }
}

/// The row and the engine's answer of a call.
fn of_engine(case: &Case, bank: &mut [u8], call: Call) -> (&'static Row, Said) {
    use second::Call::{Apply, ByteRead, ByteWrite, Publish, Read, Select, Write};
    let Case { count, rw, ro } = *case;
    let listed = match call {
        Call::Fresh => return (&FRESH, Said::Loaded(engine::fresh(count, rw, ro, bank))),
        Call::Weight { entry, lane } => {
            return (&WEIGHT, Said::Answered(engine::weight(count, rw, ro, bank, entry, lane)))
        }
        Call::Unknown(call) => return (&UNKNOWN, Said::Answered(engine::perform(count, rw, ro, bank, call))),
        Call::Listed(listed) => listed,
    };
    let (row, answered) = match listed {
        Select { set, lane, app } => (&SELECT, engine::select(count, rw, ro, bank, set, lane, app)),
        Write { set, entry, part, lane, value } => {
            (&WRITE, engine::write(count, rw, ro, bank, set, entry, part, lane, value))
        }
        Read { set, entry, part, lane } => (&READ, engine::read(count, rw, ro, bank, set, entry, part, lane)),
        Publish { entry, part, lane, value } => {
            (&PUBLISH, engine::publish(count, rw, ro, bank, entry, part, lane, value))
        }
        ByteWrite { set, offset, byte } => (&BYTE_WRITE, engine::byte_write(count, rw, ro, bank, set, offset, byte)),
        ByteRead { set, offset } => (&BYTE_READ, engine::byte_read(count, rw, ro, bank, set, offset)),
        Apply { set, lanes } => (&APPLY, engine::apply(count, rw, ro, bank, set, lanes)),
    };
    (row, Said::Answered(answered))
}

/// A call as data. Members that its kind ignores are as large as can be.
fn flat(call: second::Call) -> FlatCall {
    use second::Call::{Apply, ByteRead, ByteWrite, Publish, Read, Select, Write};
    const MAX: usize = usize::MAX;
    let flat = FlatCall {
        kind: MAX,
        set: MAX,
        entry: MAX,
        part: MAX,
        lane: MAX,
        offset: MAX,
        app: MAX,
        value: i64::MAX,
        byte: 0xFF,
        lanes: 0xFF,
    };
    match call {
        Select { set, lane, app } => FlatCall { kind: 0, set, lane, app, ..flat },
        Write { set, entry, part, lane, value } => FlatCall { kind: 1, set, entry, part, lane, value, ..flat },
        Read { set, entry, part, lane } => FlatCall { kind: 2, set, entry, part, lane, ..flat },
        ByteWrite { set, offset, byte } => FlatCall { kind: 3, set, offset, byte, ..flat },
        ByteRead { set, offset } => FlatCall { kind: 4, set, offset, ..flat },
        Publish { entry, part, lane, value } => FlatCall { kind: 5, entry, part, lane, value, ..flat },
        Apply { set, lanes } => FlatCall { kind: 6, set, lanes, ..flat },
    }
}

fn of_second(case: &Case, bank: &mut [u8], call: Call) -> Said {
    let Case { count, rw, ro } = *case;
    Said::Answered(as_engine(match call {
        Call::Fresh => return Said::Loaded(load::as_engine(second::fresh(count, rw, ro, bank))),
        Call::Weight { entry, lane } => second::weight(count, rw, ro, bank, entry, lane)
            .map_or_else(second::Answer::Refused, second::Answer::Number),
        Call::Listed(listed) => second::perform(count, rw, ro, bank, listed),
        // A kind that doesn't exist is refused as a set that doesn't (D60).
        Call::Unknown(_) => second::perform(count, rw, ro, bank, second::Call::ByteRead { set: 3, offset: 0 }),
    }))
}

/// An answer of the second program, as the engine gives it.
fn as_engine(answer: second::Answer) -> Answered {
    match answer {
        second::Answer::Yes => Answered::default(),
        second::Answer::Number(number) => Answered { number, ..Answered::default() },
        second::Answer::Refused(refusal) => refusal.into(),
    }
}

/// An answer and the buffer after the call; shown with the bytes that the call changed.
#[derive(PartialEq)]
struct After<'a> {
    said: Said,
    before: &'a [u8],
    buffer: &'a [u8],
}

impl Answer for After<'_> {
    fn refusal(&self) -> usize {
        self.said.reason().0
    }
}

impl fmt::Debug for After<'_> {
    fn fmt(&self, f: &mut fmt::Formatter) -> fmt::Result {
        write!(f, "{:?}, changed:", self.said)?;
        for (at, (before, after)) in self.before.iter().zip(self.buffer).enumerate() {
            if before != after {
                write!(f, " {at}: {before:02X} to {after:02X}")?;
            }
        }
        Ok(())
    }
}

/// A call that the programs agree on: its refusal number, 0 for none, the entry or lane that it names, the number that it
/// answers, and the bank before it.
pub struct Agreed {
    pub refusal: usize,
    pub at: usize,
    pub number: i64,
    pub before: Vec<u8>,
}

/// Compares one call, which the bank then has behind it; one of the seven also by perform and, after a fresh, with the answer
/// of the plain table.
pub fn compare(report: &mut Report, case: &Case, bank: &mut Bank, call: Call) -> Option<Agreed> {
    let length = bank.length;
    let before = bank.buffer.clone();
    let (row, said) = of_engine(case, &mut bank.buffer[..length], call);
    let engine = After { said, before: &before, buffer: &bank.buffer };
    let mut buffers = [before.clone(), before.clone()];
    let [second, performed] = &mut buffers;
    let said = of_second(case, &mut second[..length], call);
    let mut others = vec![("second", After { said, before: &before, buffer: second })];
    if let Call::Listed(listed) = call {
        let answered = engine::perform(case.count, case.rw, case.ro, &mut performed[..length], flat(listed));
        report.calls.count(&PERFORM, answered.refusal);
        others.push(("perform", After { said: Said::Answered(answered), before: &before, buffer: performed }));
        if let Some(table) = &mut bank.table {
            let said = Said::Answered(as_engine(table.perform(listed)));
            others.push(("table", After { said, before: &before, buffer: &bank.buffer }));
        }
    }
    let shown = format_args!("{case} bank of {length} bytes {} {call:?}", Hex(&before[..length]));
    if !report.compare(row, &shown, &engine, &others) {
        return None;
    }
    let (refusal, at) = engine.said.reason();
    if matches!(call, Call::Fresh) && refusal == 0 {
        bank.table = Table::fresh(case.count, case.rw, case.ro).ok();
    }
    let number = engine.said.number();
    Some(Agreed { refusal, at, number, before: before[..length].to_vec() })
}

/// Compares the bank with the plain table, if a fresh was accepted: every byte, then through the engine the numbers of these
/// entries by read, and every AppSel by the apply of its lane alone.
pub fn compare_end(report: &mut Report, case: &Case, bank: &Bank, entries: &[usize]) {
    let Some(mut table) = bank.table.clone() else {
        return;
    };
    let mut lent = bank.lent().to_vec();
    let hex = Hex(bank.lent());
    compare_bytes(report, case, &lent, &table);
    for (set, &entry) in (0..3).flat_map(|set| entries.iter().map(move |entry| (set, entry))) {
        for (part, lane) in (0..2).flat_map(|part| (1..=8).map(move |lane| (part, lane))) {
            let call = second::Call::Read { set, entry, part, lane };
            let answered = engine::read(case.count, case.rw, case.ro, &lent, set, entry, part, lane);
            let others = [("table", as_engine(table.perform(call)))];
            let shown = format_args!("{case} bank {hex} {call:?}");
            report.compare(&END_READ, &shown, &answered, &others);
            compare_address(report, case, &shown, [set, entry, part, lane]);
        }
    }
    for (set, lane) in (0..2).flat_map(|set| (0..8).map(move |lane| (set, lane))) {
        let call = second::Call::Apply { set, lanes: 1 << lane };
        let answered = engine::apply(case.count, case.rw, case.ro, &mut lent, set, 1 << lane);
        let others = [("table", as_engine(table.perform(call)))];
        report.compare(&END_APPLY, &format_args!("{case} bank {hex} {call:?}"), &answered, &others);
    }
    compare_bytes(report, case, &lent, &table);
}

/// Compares what owner tells at the address and bit that place gives a field, if it gives an address, with that field: the one
/// whose number is read.
fn compare_address(report: &mut Report, case: &Case, shown: &dyn Display, [set, entry, part, lane]: [usize; 4]) {
    let Case { count, rw, ro } = *case;
    let Placed { offset, page, byte, bit, .. } = engine::place(count, rw, ro, set, entry, part, lane);
    if [page, byte] != [0, 0] {
        let owned = engine::owner_at(count, rw, ro, set, page, byte, bit);
        let field = Owned { entry, part, lane, looked_at: entry + 1, ..Owned::default() };
        let row = if offset < table_4_1::overflow(set) { &END_ON_PAGE } else { &END_ON_OVERFLOW };
        report.compare(row, shown, &owned, &[("the field", field)]);
    }
}

/// Compares every byte of a bank with the bank that shows the table.
fn compare_bytes(report: &mut Report, case: &Case, lent: &[u8], table: &Table) {
    let bank = |buffer| After { said: Said::Answered(Answered::default()), before: &[0; BANK_SIZE], buffer };
    let shown = format_args!("{case} end of a list");
    report.compare(&END_BANK, &shown, &bank(&lent[..BANK_SIZE]), &[("table", bank(&table.bank()))]);
}
