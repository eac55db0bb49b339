//! The load: engine, second program and peer on one map.

use crate::case::Case;
use crate::engine::{self, Loaded};
use crate::peer;
use crate::refusals;
use crate::report::Report;
use crate::tally::Row;

pub static CALL: Row = Row::new("load", refusals::LOAD);

/// The second program's answer of a load, as the engine gives it.
pub fn as_engine(answer: Result<second::Loaded, second::Refusal>) -> Loaded {
    match answer {
        Ok(loaded) => Loaded {
            refusal: 0,
            at: 0,
            rw_count: loaded.rw_entries,
            ro_count: loaded.ro_entries,
            staged_length: loaded.staged_length,
            active_length: loaded.active_length,
        },
        Err(refusal) => refusal.into(),
    }
}

/// The second program's load.
pub fn of_second(case: &Case) -> Loaded {
    as_engine(second::load(case.count, case.rw, case.ro))
}

/// Compares the load, also with further answers that are known. The answer, if all agree.
pub fn compare(report: &mut Report, case: &Case, known: &[(&str, Loaded)]) -> Option<Loaded> {
    let loaded = engine::load(case.count, case.rw, case.ro);
    let mut others = vec![("second", of_second(case)), ("peer", peer::load(case.count, case.rw, case.ro))];
    others.extend_from_slice(known);
    let agree = report.compare(&CALL, case, &loaded, &others);
    if agree {
        report.reached.count(case, loaded);
    }
    agree.then_some(loaded)
}
