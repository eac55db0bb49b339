//! Commissions a module: loads it, places a field, stages settings, applies them and prints the active record.
//!
//!     ./build
//!     rustc --edition 2021 -L target/staticlib -l static=vcs examples/commission.rs -o target/commission-rust
//!     target/commission-rust 2 examples/linear.rw examples/linear.ro

#[path = "../include/vcs.rs"]
mod vcs;

use std::{env, error::Error, fs, process};

/// What is staged in every lane: values for RW entries of the linear module. Those of 09h, 0Ah and 0Dh count steps; a number
/// outside the entry's Min and Max would be refused with 12. The 0 of a fresh bank isn't one of entry 6.
const SETTINGS: [(usize, i64); 8] = [
    (1, 20),  // 09h, input equalizer: 5 dB
    (2, -6),  // 0Ah, output equalizer: -3 dB
    (3, 1),   // 0Bh, output precoding on
    (5, -14), // 0Dh, index -1: -0.14
    (6, 86),  // 0Dh, index 0: 0.86
    (7, 9),   // 0Eh, output amplitude: 700 mV
    (8, 12),  // 0Fh, the host's channel loss for Rx: 12 dB
    (9, 9),   // 10h, for Tx: 9 dB
];

/// Ends the program if a call was refused. Refusals 16 and 1 to 7 name an entry, 13 and 14 a lane, the others nothing.
fn accepted(call: &str, vcs::Answer { refusal, at, .. }: vcs::Answer) {
    match refusal {
        0 => return,
        16 | 1..=7 => println!("{call}: refused with {refusal}, entry {at}"),
        13 | 14 => println!("{call}: refused with {refusal}, lane {at}"),
        _ => println!("{call}: refused with {refusal}"),
    }
    process::exit(1)
}

fn main() -> Result<(), Box<dyn Error>> {
    let words: Vec<String> = env::args().collect();
    let [_, count, rw, ro] = &words[..] else { return Err("usage: commission COUNT RW-FILE RO-FILE".into()) };

    // Every call is given the count of applications and both strings; a call on a bank, then the bank.
    let (count, rw, ro, mut bank) = (count.parse()?, fs::read(rw)?, fs::read(ro)?, [0; vcs::BANK_SIZE]);

    // Fresh clears the bank and answers as the load does.
    let map = vcs::fresh(count, &rw, &ro, &mut bank);
    accepted("fresh", vcs::Answer { refusal: map.refusal, at: map.at, number: 0 });
    let entries = map.rw_count + map.ro_count;
    println!("{entries} entries, staged length {}, active length {}", map.staged_length, map.active_length);

    // Entry 8 is the host's channel loss for Rx (0Fh): where does its field of lane 3 stand in staged set 0?
    let vcs::Placed { refusal, at, offset, page, byte, bit } = vcs::place(count, &rw, &ro, 0, 8, 0, 3);
    accepted("place", vcs::Answer { refusal, at, number: 0 });
    println!("entry 8, part 0, lane 3: offset {offset}, page {page:02X}h, byte {byte}, bit {bit}");

    // Staged set 0: application 1 in lanes 1 to 4, 2 in the others, and the settings.
    for lane in 1..=8 {
        accepted("select", vcs::select(count, &rw, &ro, &mut bank, 0, lane, if lane <= 4 { 1 } else { 2 }));
        for (entry, value) in SETTINGS {
            accepted("write", vcs::write(count, &rw, &ro, &mut bank, 0, entry, 0, lane, value));
        }
    }
    // All eight lanes: each takes the fields that its application has.
    accepted("apply", vcs::apply(count, &rw, &ro, &mut bank, 0, 0xFF));

    // The active record, set 2. A part that an entry doesn't have is refused.
    for entry in 0..entries {
        for part in (0..2).take_while(|&part| vcs::read(count, &rw, &ro, &bank, 2, entry, part, 1).refusal == 0) {
            print!("entry {entry}, part {part}, lanes 1 to 8:");
            for lane in 1..=8 {
                print!(" {}", vcs::read(count, &rw, &ro, &bank, 2, entry, part, lane).number);
            }
            println!();
        }
    }
    Ok(())
}
