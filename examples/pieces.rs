//! Loads a module over a slow bus: the host receives one entry at a time, has it passed and forgets its bytes. Then it breaks
//! the load off after every entry and takes it up again.
//!
//!     ./build
//!     rustc --edition 2021 -L target/staticlib -l static=vcs examples/pieces.rs -o target/pieces-rust
//!     target/pieces-rust 2 examples/linear.rw examples/linear.ro

#[path = "../include/vcs.rs"]
mod vcs;

use std::{env, error::Error, fs};

/// Receives an entry, the next bytes of a string: ID and Length, then what Length tells; less where the string ends.
fn receive<'a>(string: &mut &'a [u8]) -> &'a [u8] {
    let told = string.get(1).map_or(2, |&length| usize::from(length).max(2));
    let (entry, left) = string.split_at(told.min(string.len()));
    *string = left;
    entry
}

/// The load: entry by entry, but at most so many, then with all that is left at once.
fn load(count: usize, mut rw: &[u8], mut ro: &[u8], pieces: usize, shown: bool) -> vcs::Loaded {
    let mut state = vcs::State::default(); // All that the host keeps between two entries.
    for _ in 0..pieces {
        let next = match rw.is_empty() {
            false => vcs::pass(count, receive(&mut rw), &[], state),
            true => vcs::pass(count, &[], receive(&mut ro), state),
        };
        if next.refusal != 0 {
            return vcs::Loaded { refusal: next.refusal, at: next.at, ..Default::default() };
        }
        if next.end != 0 {
            break;
        }
        state = next.state;
        if shown {
            let vcs::State { string, media, entries, before, sum, staged_length } = state;
            print!("{} bytes; kept: string {string}, media {media}, entries {entries}, before {before}, ", next.length);
            println!("sum {sum}, staged length {staged_length}");
        }
    }
    vcs::resume(count, rw, ro, state)
}

fn main() -> Result<(), Box<dyn Error>> {
    let words: Vec<String> = env::args().collect();
    let [_, count, rw, ro] = &words[..] else { return Err("usage: pieces COUNT RW-FILE RO-FILE".into()) };
    let (count, rw, ro) = (count.parse()?, fs::read(rw)?, fs::read(ro)?);

    // All entries one by one: no byte is left for resume, which answers by the state. Both calls ask 9 of what they are lent;
    // that no string is over 120 bytes, the host sees to.
    let answer = match rw.len() > 120 || ro.len() > 120 {
        true => vcs::Loaded { refusal: 9, ..Default::default() },
        false => load(count, &rw, &ro, usize::MAX, true),
    };
    let vcs::Loaded { refusal, at, rw_count, ro_count, staged_length, active_length } = answer;
    print!("refusal {refusal} at {at}; {rw_count} and {ro_count} entries, ");
    println!("staged length {staged_length}, active length {active_length}");

    // Broken off after any entry and taken up again, it gives the answer or refusal of the load.
    let whole = vcs::load(count, &rw, &ro);
    let entries = if refusal == 0 { rw_count + ro_count } else { at };
    let same = (0..=entries).filter(|&pieces| load(count, &rw, &ro, pieces, false) == whole).count();
    println!("taken up again after 0 to {entries} entries: the load's answer in {same} of {}", entries + 1);
    Ok(())
}
