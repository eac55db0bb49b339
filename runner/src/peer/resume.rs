//! The walk broken off after an entry and taken up again, to the end or by one entry.

use super::rows::{IN_RO, IN_RW};
use super::walk::{from_ro, from_rw, sized, Map, Refusal, Walk};
use crate::engine::State;

impl From<State> for Walk {
    #[inline(always)]
    fn from(State { media, entries, before, sum, .. }: State) -> Walk {
        let before = usize::from(before);
        Walk { number: before + usize::from(entries), before, sum: sum.into(), media: media != 0 }
    }
}

/// The rest of the walk.
#[inline(always)]
pub fn resume(count: usize, rw: &[u8], ro: &[u8], state: State) -> Result<Map, Refusal> {
    sized(count, rw, ro)?;
    if count <= 8 {
        rest::<1>(rw, ro, state)
    } else {
        rest::<2>(rw, ro, state)
    }
}

#[inline(always)]
fn rest<const A: usize>(rw: &[u8], ro: &[u8], state: State) -> Result<Map, Refusal> {
    if state.string == 0 {
        from_rw::<A>(state.into(), rw, ro, &mut ())
    } else {
        from_ro::<A>(state.into(), state.staged_length.into(), ro, &mut ())
    }
}

/// One entry: its Length and the state after it, or nothing at the end.
#[inline(always)]
pub fn pass(count: usize, rw: &[u8], ro: &[u8], state: State) -> Result<Option<(usize, State)>, Refusal> {
    sized(count, rw, ro)?;
    if count <= 8 {
        one::<1>(rw, ro, state)
    } else {
        one::<2>(rw, ro, state)
    }
}

#[inline(always)]
fn one<const A: usize>(rw: &[u8], ro: &[u8], state: State) -> Result<Option<(usize, State)>, Refusal> {
    let (mut walk, mut staged_length) = (Walk::from(state), state.staged_length);
    let (string, side) = if state.string == 0 && !rw.is_empty() { (rw, IN_RW) } else { (ro, IN_RO) };
    if string.is_empty() {
        return Ok(None);
    }
    if state.string == 0 && side == IN_RO {
        staged_length = state.sum;
        walk.enter_ro();
    }
    let length = walk.entry::<A>(side, 0, string, &mut ()).map_err(|number| (number, walk.number))?;
    let after = State {
        string: u8::from(side == IN_RO),
        media: walk.media.into(),
        // At most 16 entries and a sum of 256 after one that was passed.
        entries: walk.entries() as u8,
        before: walk.before as u8,
        sum: walk.sum as u16,
        staged_length,
    };
    Ok(Some((length, after)))
}
