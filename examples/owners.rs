//! Prints the active record byte by byte, by page and byte and then by offset: how many entries owner looked at until one
//! covered the byte, and whose its bits are.
//!
//!     ./build
//!     rustc --edition 2021 -L target/staticlib -l static=vcs examples/owners.rs -o target/owners-rust
//!     target/owners-rust 2 examples/linear.rw examples/linear.ro

#[path = "../include/vcs.rs"]
mod vcs;

use std::{env, error::Error, fs, process};

/// A byte's bits in runs of one field or gap. All bits of a byte are in one entry's space.
fn print_bits(owners: &[vcs::Owned]) {
    print!(": looked at {};", owners[0].looked_at);
    let mut first = 0;
    for run in owners.chunk_by(|owner, next| owner == next) {
        let last = first + run.len() - 1;
        print!("{}", if first == 0 { " " } else { ", " });
        match run.len() {
            1 => print!("bit {first}"),
            _ => print!("bits {first} to {last}"),
        }
        match run[0] {
            vcs::Owned { gap: 0, entry, part, lane, .. } => print!(" entry {entry} part {part} lane {lane}"),
            _ => print!(" gap"),
        }
        first = last + 1;
    }
    println!();
}

fn main() -> Result<(), Box<dyn Error>> {
    let words: Vec<String> = env::args().collect();
    let [_, count, rw, ro] = &words[..] else { return Err("usage: owners COUNT RW-FILE RO-FILE".into()) };
    let (count, rw, ro) = (count.parse()?, fs::read(rw)?, fs::read(ro)?);

    let vcs::Loaded { refusal, at, rw_count, ro_count, active_length, .. } = vcs::load(count, &rw, &ro);
    if refusal != 0 {
        println!("refusal {refusal} at {at}");
        process::exit(1);
    }
    println!("{rw_count} and {ro_count} entries, active length {active_length}");

    // The page and the overflow page of the active set, 2. An address outside the set is refused with 10. As many offsets as
    // bytes are found there have an address.
    let bits = [0, 1, 2, 3, 4, 5, 6, 7];
    let mut found = 0;
    for (page, byte) in [0x11, 0x19].into_iter().flat_map(|page| (0..=255).map(move |byte| (page, byte))) {
        let owners = bits.map(|bit| vcs::owner_at(count, &rw, &ro, 2, page, byte, bit));
        if owners[0].refusal == 0 {
            print!("page {page:02X}h byte {byte}");
            print_bits(&owners);
            found += 1;
        }
    }
    for offset in found..active_length {
        print!("offset {offset}");
        print_bits(&bits.map(|bit| vcs::owner(count, &rw, &ro, 2, offset, bit)));
    }
    Ok(())
}
