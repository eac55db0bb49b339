//! Maps and values whose answers are known from document 01 and the notes 1 and 7 of document 02 alone: examples, the
//! agreement's appendices, the limits of each check.

use crate::calls::{self, bank};
use crate::case::Case;
use crate::engine::{self, Answered, Loaded, BANK_SIZE};
use crate::report::Report;
use crate::strings::Flat;

pub const MAP_INPUT: &[u8] = include_bytes!("../../examples/document-01.map");
pub const MAP_OUTPUT: &[u8] = include_bytes!("../../examples/document-01.out");
const APPENDIX_A: &[u8] = include_bytes!("../../examples/appendix-a.rw");
pub const APPENDIX_B: [&[u8]; 2] =
    [include_bytes!("../../examples/appendix-b.rw"), include_bytes!("../../examples/appendix-b.ro")];
const LINEAR: [&[u8]; 2] = [include_bytes!("../../examples/linear.rw"), include_bytes!("../../examples/linear.ro")];

/// The modules of examples/ as inputs of the map program: count, RW size, RW bytes, RO size, RO bytes.
pub const INPUTS: [&[u8]; 4] = [
    MAP_INPUT,
    include_bytes!("../../examples/appendix-a.map"),
    include_bytes!("../../examples/appendix-b.map"),
    include_bytes!("../../examples/linear.map"),
];

/// 16 RW entries and RO, with every ID of the table, every code in the masks, a gap after 10h and one between the RO fields,
/// and a 12h entry of each step; for count 4. Of 09h, 0Ah and the two 0Dh, one range is whole; the others are across 0,
/// above 0 and below 0.
pub const WHOLE: [&str; 2] = [
    "02 05 0F 01 00 03 05 0F 02 00 04 07 0F 04 00 FF FF 05 05 0F 01 00 06 05 0F 01 00 \
     07 08 0F 08 00 00 FF FF 08 07 0F 04 00 FF FF 0F 05 0F 08 00 10 05 0F 0A 00 \
     09 09 0F 08 00 00 F8 06 01 0A 09 0F 08 00 01 03 14 04 0B 05 0F 01 00 0C 05 0F 01 00 \
     0D 09 0F 08 00 FF FD E2 00 0D 09 0F 08 00 00 7F 80 03 0E 07 0F 04 00 FF FF",
    "11 05 0F 10 00 00 04 00 02 \
     12 07 0F 08 00 00 00 12 07 0F 08 00 00 01 12 07 0F 08 00 00 02 12 07 0F 08 00 00 03",
];

/// The same without the IDs of note 1.
const BASE: [&str; 2] = [
    "02 05 0F 01 00 03 05 0F 02 00 04 07 0F 04 00 FF FF 05 05 0F 01 00 06 05 0F 01 00 \
     07 08 0F 08 00 00 FF FF 08 07 0F 04 00 FF FF 0F 05 0F 08 00 10 05 0F 0A 00",
    WHOLE[1],
];

/// Entries of MemoryLength 0 before, between and behind others, in both strings; for count 4. 02h has the offset 0, 03h 1 to 3
/// with a gap, 12h 4 to 11, 13h 12 and 13.
pub const SPARSE: [&str; 2] = [
    "13 04 00 00 02 05 0F 01 00 00 04 00 00 FF 04 00 00 03 05 0F 03 00 01 04 00 00",
    "00 04 00 00 12 07 0F 08 00 00 00 13 04 00 02 20 04 00 00",
];

/// Both entry counts, staged and active length.
pub fn accepted(rw_count: usize, ro_count: usize, staged_length: usize, active_length: usize) -> Loaded {
    Loaded { refusal: 0, at: 0, rw_count, ro_count, staged_length, active_length }
}

pub fn refused(number: usize, at: usize) -> Loaded {
    Loaded::refused(number, at)
}

pub fn compare(report: &mut Report) {
    let mut expect = |name: &str, count: usize, rw: &[u8], ro: &[u8], known: Loaded| {
        calls::compare_all(report, &Case { count, rw, ro }, &[(name, known)]);
    };
    let map = MAP_INPUT;
    expect("the map program's map", map[0].into(), &map[2..17], &[], accepted(3, 0, 4, 4));
    expect("appendix A", 4, APPENDIX_A, &[], refused(4, 5));
    expect("appendix B", 1, APPENDIX_B[0], APPENDIX_B[1], accepted(3, 2, 11, 35));
    expect("a linear module", 2, LINEAR[0], LINEAR[1], accepted(10, 5, 75, 120));
    for id in 0..=0xFF {
        for count in [4, 9] {
            expect("P8", count, &[id, 0], &[], refused(2, 0));
            expect("P8, RO", count, &[], &[id, 0], refused(2, 0));
            expect("one byte left", count, &[id], &[], refused(1, 0));
        }
    }
    for Setting { name, map, known } in settings() {
        let Case { count, rw, ro } = map.case();
        expect(name, count, rw, ro, known);
    }
    for (name, rw, value, refusal) in values() {
        let case = Case { count: 4, rw: &hex(rw), ro: &[] };
        let answered = engine::write(4, case.rw, &[], &mut [0; BANK_SIZE], 0, 0, 0, 1, value);
        let others = [(name, Answered::refused(refusal, 0))];
        report.compare(&bank::WRITE, &format_args!("{case} value {value}"), &answered, &others);
    }
}

/// A map, and the load's answer.
pub struct Setting {
    name: &'static str,
    pub map: Flat,
    pub known: Loaded,
}

impl Setting {
    fn new(name: &'static str, count: usize, rw: Vec<u8>, ro: Vec<u8>, known: Loaded) -> Setting {
        Setting { name, map: Flat { count, strings: [rw, ro] }, known }
    }
}

pub fn settings() -> Vec<Setting> {
    let setting = |&(name, count, rw, ro, known): &InHex| Setting::new(name, count, hex(rw), hex(ro), known);
    few_entries().iter().map(setting).chain(sixteen_entries()).collect()
}

/// Name, count, RW and RO in hex, answer.
type InHex = (&'static str, usize, &'static str, &'static str, Loaded);

/// The checks 9 and 1 to 7.
#[rustfmt::skip]
fn few_entries() -> Vec<InHex> {
    vec![
        ("P9, MemoryLength 3", 4, "04 07 01 03 00 00 04", "", refused(4, 0)),
        ("P9, MemoryLength 4", 4, "04 07 01 04 00 00 04", "", accepted(1, 0, 4, 4)),
        ("P9, MemoryLength 5", 4, "04 07 01 05 00 00 04", "", accepted(1, 0, 5, 5)),
        ("P12, 255 and 1", 4, "00 04 00 FF 00 04 00 01", "", accepted(2, 0, 256, 256)),
        ("P12, 255 and 2", 4, "00 04 00 FF 00 04 00 02", "", refused(7, 1)),
        ("P12 over both strings, 255 and 1", 4, "00 04 00 FF", "00 04 00 01", accepted(1, 1, 255, 256)),
        ("P12 over both strings, 255 and 2", 4, "00 04 00 FF", "00 04 00 02", refused(7, 1)),
        ("an entry at offset 256", 4, "00 04 00 FF 00 04 00 01 13 04 00 00", "FF 04 00 00", accepted(3, 1, 256, 256)),
        ("no entry", 15, "", "", accepted(0, 0, 0, 0)),
        ("count 0", 0, "", "", refused(9, 0)),
        ("count 16", 16, "", "", refused(9, 0)),
        ("9 before 1", 16, "02", "02", refused(9, 0)),
        ("A is 1 for count 8", 8, "00 04 00 01", "", accepted(1, 0, 1, 1)),
        ("A is 2 for count 9", 9, "00 04 00 01", "", refused(2, 0)),
        ("A is 2, MemoryLength in byte 4", 9, "00 05 00 01 07", "", accepted(1, 0, 7, 7)),
        ("1 before 2: Length 3 of 2", 4, "02 03", "", refused(1, 0)),
        ("2 before 3, by the ID's own row", 4, "11 04 00 10", "", refused(2, 0)),
        ("3 before 4", 4, "11 05 00 00 00", "", refused(3, 0)),
        ("4 before 5", 4, "", "12 07 00 07 00 00 04", refused(4, 0)),
        ("5 before 7", 4, "00 04 00 FF", "12 07 00 08 00 00 04", refused(5, 1)),
        ("6 before 7", 4, "0F 05 00 FF 01 03 05 00 02 00", "", refused(6, 1)),
        ("a lower entry before a lower number", 4, "02 05 00 00 00 02", "", refused(4, 0)),
        ("RW before RO", 4, "00 04 00 FF 00 04 00 02", "02", refused(7, 1)),
        ("an RO entry's number", 4, "00 04 00 00 13 04 00 00", "00 04 00 00 01 04 00 00", refused(3, 3)),
        ("index any, step 3", 4, "", "12 07 00 08 00 FF 03", accepted(0, 1, 0, 8)),
        ("index any, step 4", 4, "", "12 07 00 08 00 FF 04", refused(5, 0)),
        ("step in byte 7 with A 2", 9, "", "12 08 00 00 08 00 00 04", refused(5, 0)),
        ("bytes past the step are skipped", 4, "", "12 08 00 08 00 00 03 FF", accepted(0, 1, 0, 8)),
        ("an opaque entry's flags are not read", 4, "13 05 00 00 01 02 05 00 01 00", "", accepted(2, 0, 1, 1)),
        ("01h, likewise", 4, "01 05 00 00 01 02 05 00 01 00", "", accepted(2, 0, 1, 1)),
        ("00h, likewise", 4, "00 05 00 00 01 02 05 00 01 00", "", accepted(2, 0, 1, 1)),
        ("a media 0Fh counts for check 6", 4, "0F 05 00 08 01 02 05 00 01 00", "", refused(6, 1)),
        ("anywhere before", 4, "10 05 00 08 01 00 04 00 01 0F 05 00 08 00 08 07 00 04 FE 00 00", "", refused(6, 3)),
        ("media after media", 4, "0F 05 00 08 01 02 05 00 01 01", "", accepted(2, 0, 9, 9)),
        ("flag bits 1 to 7 are ignored", 4, "0F 05 00 08 FE 02 05 00 01 00", "", accepted(2, 0, 9, 9)),
        ("media side in RO", 4, "", "11 05 00 10 01 12 07 00 08 00 00 00", accepted(0, 2, 0, 24)),
        ("every ID of the table", 4, WHOLE[0], WHOLE[1], accepted(16, 6, 77, 127)),
        ("every ID of the table but note 1's", 4, BASE[0], BASE[1], accepted(9, 6, 39, 89)),
        ("entries of MemoryLength 0", 4, SPARSE[0], SPARSE[1], accepted(6, 4, 4, 14)),
        ("P10, P11 and 07h without 12", 9,
         "04 08 01 FF 04 00 1F FF 08 08 01 FF 05 00 FF FF 07 09 01 FF 08 00 FF EF FF", "", accepted(3, 0, 17, 17)),
        ("09h", 4, "09 09 0F 08 00 00 F8 06 01", "", accepted(1, 0, 8, 8)),
        ("09h, Length 8", 4, "09 08 0F 08 00 00 F8 06", "", refused(2, 0)),
        ("09h as an opaque entry", 4, "09 04 0F 00", "", refused(2, 0)),
        ("09h, two mask bytes", 9, "09 0A 01 FF 08 00 00 F8 06 01", "", accepted(1, 0, 8, 8)),
        ("09h, two mask bytes, Length 9", 9, "09 09 01 FF 08 00 00 F8 06", "", refused(2, 0)),
        ("09h, bytes past the step are skipped", 4, "09 0B 0F 08 00 00 F8 06 01 00 FF", "", accepted(1, 0, 8, 8)),
        ("09h in RO", 4, "", "09 09 0F 08 00 00 F8 06 01", refused(3, 0)),
        ("09h, MemoryLength 7", 4, "09 09 0F 07 00 00 F8 06 01", "", refused(4, 0)),
        ("09h, MemoryLength 9", 4, "09 09 0F 09 00 00 F8 06 01", "", accepted(1, 0, 9, 9)),
        ("09h, 4 before 5", 4, "09 09 0F 07 00 00 F8 06 00", "", refused(4, 0)),
        ("09h, 3 before 5", 4, "", "09 09 0F 08 00 00 F8 06 00", refused(3, 0)),
        ("09h, step 0", 4, "09 09 0F 08 00 00 F8 06 00", "", refused(5, 0)),
        ("09h, step 4, EqualizerTarget any", 4, "09 09 0F 08 00 FF F8 06 04", "", accepted(1, 0, 8, 8)),
        ("09h, step 5", 4, "09 09 0F 08 00 01 F8 06 05", "", refused(5, 0)),
        ("09h, step in byte 9 with A 2", 9, "09 0A 00 00 08 00 01 01 01 05", "", refused(5, 0)),
        ("09h, 5 before 7", 4, "00 04 00 FF 09 09 0F 08 00 00 F8 06 FF", "", refused(5, 1)),
        ("09h, Min above Max", 4, "09 09 0F 08 00 00 06 F8 01", "", accepted(1, 0, 8, 8)),
        ("0Ah", 4, "0A 09 0F 08 00 00 F8 06 02", "", accepted(1, 0, 8, 8)),
        ("0Ah, Length 8", 4, "0A 08 0F 08 00 00 F8 06", "", refused(2, 0)),
        ("0Ah in RO", 4, "", "0A 09 0F 08 00 00 F8 06 02", refused(3, 0)),
        ("0Ah, MemoryLength 7", 4, "0A 09 0F 07 00 00 F8 06 02", "", refused(4, 0)),
        ("0Ah, step 0", 4, "0A 09 0F 08 00 00 F8 06 00", "", refused(5, 0)),
        ("0Ah, step 5", 4, "0A 09 0F 08 00 00 F8 06 05", "", refused(5, 0)),
        ("0Bh", 4, "0B 05 0F 01 00", "", accepted(1, 0, 1, 1)),
        ("0Bh, Length 4", 4, "0B 04 0F 01", "", refused(2, 0)),
        ("0Bh in RO", 4, "", "0B 05 0F 01 00", refused(3, 0)),
        ("0Bh, MemoryLength 0", 4, "0B 05 0F 00 00", "", refused(4, 0)),
        ("0Bh has no step", 4, "0B 09 0F 01 00 FF FF FF FF", "", accepted(1, 0, 1, 1)),
        ("0Ch", 4, "0C 05 0F 01 00", "", accepted(1, 0, 1, 1)),
        ("0Ch, Length 4", 4, "0C 04 0F 01", "", refused(2, 0)),
        ("0Ch in RO", 4, "", "0C 05 0F 01 00", refused(3, 0)),
        ("0Ch, MemoryLength 0", 4, "0C 05 0F 00 00", "", refused(4, 0)),
        ("0Dh", 4, "0D 09 0F 08 00 FF 06 F8 00", "", accepted(1, 0, 8, 8)),
        ("0Dh, Length 8", 4, "0D 08 0F 08 00 FF 06 F8", "", refused(2, 0)),
        ("0Dh in RO", 4, "", "0D 09 0F 08 00 FF 06 F8 00", refused(3, 0)),
        ("0Dh, MemoryLength 7", 4, "0D 09 0F 07 00 FF 06 F8 00", "", refused(4, 0)),
        ("0Dh, step 3", 4, "0D 09 0F 08 00 FF 06 F8 03", "", accepted(1, 0, 8, 8)),
        ("0Dh, step 4", 4, "0D 09 0F 08 00 FF 06 F8 04", "", refused(5, 0)),
        ("0Dh, Max below Min", 4, "0D 09 0F 08 00 FF F8 06 00", "", accepted(1, 0, 8, 8)),
        ("0Dh, two indexes", 4, "0D 09 0F 08 00 FF 06 F8 00 0D 09 0F 08 00 01 06 F8 01", "", accepted(2, 0, 16, 16)),
        ("0Dh, one index twice", 4, "0D 09 0F 08 00 FF 06 F8 00 0D 09 0F 08 00 FF 0A 05 03", "", accepted(2, 0, 16, 16)),
        ("0Eh", 4, "0E 07 0F 04 00 00 00", "", accepted(1, 0, 4, 4)),
        ("0Eh, Length 6", 4, "0E 06 0F 04 00 00", "", refused(2, 0)),
        ("0Eh in RO", 4, "", "0E 07 0F 04 00 00 00", refused(3, 0)),
        ("0Eh, MemoryLength 3", 4, "0E 07 0F 03 00 00 00", "", refused(4, 0)),
        ("0Eh has no step", 4, "0E 09 0F 04 00 00 00 FF FF", "", accepted(1, 0, 4, 4)),
        ("a media 09h counts for check 6", 4, "09 09 00 08 01 00 F8 06 01 02 05 00 01 00", "", refused(6, 1)),
        ("a media 0Ah", 4, "0A 09 00 08 01 00 F8 06 01 03 05 00 02 00", "", refused(6, 1)),
        ("a media 0Bh", 4, "0B 05 00 01 01 04 07 00 04 00 00 00", "", refused(6, 1)),
        ("a media 0Ch", 4, "0C 05 00 01 01 05 05 00 01 00", "", refused(6, 1)),
        ("a media 0Dh", 4, "0D 09 00 08 01 00 06 F8 01 07 08 00 08 00 00 00 00", "", refused(6, 1)),
        ("a media 0Eh", 4, "0E 07 00 04 01 00 00 08 07 00 04 00 00 00", "", refused(6, 1)),
        ("a host 09h with other flags doesn't", 4, "09 09 00 08 FE 00 F8 06 01 02 05 00 01 00", "", accepted(2, 0, 9, 9)),
        ("host-side 09h to 0Eh after a media 06h", 4,
         "06 05 00 01 01 09 09 00 08 00 00 00 00 01 0A 09 00 08 00 00 00 00 01 0B 05 00 01 00 0C 05 00 01 00 \
          0D 09 00 08 00 00 00 00 01 0E 07 00 04 00 00 00", "", accepted(7, 0, 31, 31)),
        ("host-side 0Dh after a media 0Dh", 4,
         "0D 09 00 08 01 00 00 00 01 0D 09 00 08 00 00 00 00 01", "", accepted(2, 0, 16, 16)),
    ]
}

/// Note 7: 15 to 17 entries and more, alike but for the one that a setting is about.
#[rustfmt::skip]
fn sixteen_entries() -> Vec<Setting> {
    // An entry that reserves a byte, with one mask byte and with two.
    const SMALL: &str = "13 04 0F 01 ";
    const WIDE: &str = "13 05 01 FF 01 ";
    let many = |entries: usize| hex(&SMALL.repeat(entries));
    let then = |entries: usize, rest: &str| [many(entries), hex(rest)].concat();
    let wide = |entries: usize| hex(&WIDE.repeat(entries));
    let four = |name, rw, ro, known| Setting::new(name, 4, rw, ro, known);
    let rw_alone = |name, rw, known| four(name, rw, Vec::new(), known);
    vec![
        rw_alone("16 RW entries", many(16), accepted(16, 0, 16, 16)),
        four("16 RO entries", many(0), many(16), accepted(0, 16, 0, 16)),
        four("16 and 16 entries", many(16), many(16), accepted(16, 16, 16, 32)),
        rw_alone("17 RW entries", many(17), refused(16, 16)),
        four("17 RO entries after none", many(0), many(17), refused(16, 16)),
        four("17 RO entries after 5", many(5), many(17), refused(16, 21)),
        four("17 RO entries after 16", many(16), many(17), refused(16, 32)),
        four("17 and 17 entries", many(17), many(17), refused(16, 16)),
        rw_alone("30 RW entries", many(30), refused(16, 16)),
        four("30 RO entries after 16", many(16), many(30), refused(16, 32)),
        rw_alone("one byte after 15 RW entries", then(15, "02"), refused(1, 15)),
        rw_alone("one byte after 16 RW entries", then(16, "02"), refused(16, 16)),
        four("one byte after 15 RO entries", many(3), then(15, "02"), refused(1, 18)),
        four("one byte after 16 RO entries", many(3), then(16, "02"), refused(16, 19)),
        rw_alone("16 before 1", then(16, "13 05 0F 01"), refused(16, 16)),
        rw_alone("16 before 2", then(16, "02 04 0F 01"), refused(16, 16)),
        rw_alone("16 before 2, Length 0", then(16, "02 00"), refused(16, 16)),
        rw_alone("16 before 3", then(16, "11 05 0F 10 00"), refused(16, 16)),
        four("16 before 3 in RO", many(1), then(16, "02 05 0F 01 00"), refused(16, 17)),
        rw_alone("16 before 4", then(16, "04 07 0F 03 00 FF FF"), refused(16, 16)),
        rw_alone("16 before 5", then(16, "09 09 0F 08 00 00 F8 06 00"), refused(16, 16)),
        four("16 before 5 in RO", many(1), then(16, "12 07 0F 08 00 00 04"), refused(16, 17)),
        rw_alone("6 in a 16th entry", then(14, "0F 05 0F 08 01 02 05 0F 01 00 13 04 0F 01"), refused(6, 15)),
        rw_alone("16 before 6", then(15, "0F 05 0F 08 01 02 05 0F 01 00"), refused(16, 16)),
        rw_alone("7 in a 16th entry", then(15, "00 04 00 F2 13 04 0F 01"), refused(7, 15)),
        rw_alone("256 by 16 entries", then(15, "00 04 00 F1"), accepted(16, 0, 256, 256)),
        rw_alone("16 before 7", then(15, "00 04 00 F1 13 04 0F 01"), refused(16, 16)),
        rw_alone("an earlier entry's fault", [then(5, "02 05 0F 00 00"), many(11)].concat(), refused(4, 5)),
        rw_alone("a 16th entry's fault", then(15, "02 05 0F 00 00 13 04 0F 01"), refused(4, 15)),
        four("RW's fault before a 17th RO entry", then(15, "02 05 0F 00 00"), many(17), refused(4, 15)),
        four("a 17th RW entry before RO's fault", many(17), hex("02"), refused(16, 16)),
        Setting::new("9 before 16, count 0", 0, many(17), many(17), refused(9, 0)),
        Setting::new("9 before 16, count 16", 16, wide(17), wide(17), refused(9, 0)),
        rw_alone("9 before 16, 121 bytes", then(30, "13"), refused(9, 0)),
        Setting::new("16 and 16 entries, two mask bytes", 9, wide(16), wide(16), accepted(16, 16, 16, 32)),
        Setting::new("17 RW entries, two mask bytes", 9, wide(17), wide(0), refused(16, 16)),
        Setting::new("17 RO entries, two mask bytes", 9, wide(16), wide(17), refused(16, 32)),
        Setting::new("24 entries, two mask bytes", 9, wide(2), wide(24), refused(16, 18)),
        rw_alone("surplus bytes are no 17th entry", then(15, "13 08 0F 01 13 04 0F 01"), accepted(16, 0, 16, 16)),
        rw_alone("a byte after surplus bytes is", then(15, "13 08 0F 01 13 04 0F 01 13"), refused(16, 16)),
        rw_alone("17 entries that reserve nothing", hex(&"00 04 00 00 ".repeat(17)), refused(16, 16)),
        rw_alone("17 01h entries", hex(&"01 04 00 00 ".repeat(17)), refused(16, 16)),
        rw_alone("17 02h entries", hex(&"02 05 0F 01 00 ".repeat(17)), refused(16, 16)),
        four("16 12h entries", many(0), hex(&"12 07 0F 08 00 00 00 ".repeat(16)), accepted(0, 16, 0, 128)),
        four("17 12h entries", many(0), hex(&"12 07 0F 08 00 00 00 ".repeat(17)), refused(16, 16)),
        four("a 17th after every ID of the table", [hex(WHOLE[0]), many(1)].concat(), hex(WHOLE[1]), refused(16, 16)),
    ]
}

/// Name, RW in hex, a value for its first entry, and the refusal of its write, 0 for none; for count 4.
#[rustfmt::skip]
fn values() -> Vec<(&'static str, &'static str, i64, usize)> {
    const NUMERIC_TX: &str = "09 09 0F 08 00 00 F8 06 01";
    const NUMERIC_RX: &str = "0A 09 0F 08 00 00 F8 06 01";
    const CURSOR: &str = "0D 09 0F 08 00 FF 06 F8 01";
    vec![
        ("09h, Min - 1", NUMERIC_TX, -9, 12),
        ("09h, Min", NUMERIC_TX, -8, 0),
        ("09h, 0", NUMERIC_TX, 0, 0),
        ("09h, Max", NUMERIC_TX, 6, 0),
        ("09h, Max + 1", NUMERIC_TX, 7, 12),
        ("09h, Min as a pattern", NUMERIC_TX, 248, 12),
        ("09h, Min above Max", "09 09 0F 08 00 00 06 F8 01", 0, 12),
        ("09h, Min above Max, its Min", "09 09 0F 08 00 00 06 F8 01", 6, 12),
        ("09h, the step doesn't scale", "09 09 0F 08 00 00 F8 06 04", 6, 0),
        ("0Ah, Min - 1", NUMERIC_RX, -9, 12),
        ("0Ah, Min", NUMERIC_RX, -8, 0),
        ("0Ah, Max", NUMERIC_RX, 6, 0),
        ("0Ah, Max + 1", NUMERIC_RX, 7, 12),
        ("0Dh, Min - 1", CURSOR, -9, 12),
        ("0Dh, Min", CURSOR, -8, 0),
        ("0Dh, Max", CURSOR, 6, 0),
        ("0Dh, Max + 1", CURSOR, 7, 12),
        ("0Dh, Min as a pattern", CURSOR, 248, 12),
        ("0Dh, Min above Max", "0D 09 0F 08 00 FF F8 06 01", 0, 12),
        ("0Dh, -128", "0D 09 0F 08 00 FF 7F 80 00", -128, 0),
        ("0Dh, -129", "0D 09 0F 08 00 FF 7F 80 00", -129, 12),
        ("0Dh, 127", "0D 09 0F 08 00 FF 7F 80 00", 127, 0),
        ("0Dh, 128", "0D 09 0F 08 00 FF 7F 80 00", 128, 12),
        ("0Dh without 0", "0D 09 0F 08 00 00 64 32 00", 0, 12),
        ("0Dh of one number", "0D 09 0F 08 00 00 F2 F2 00", -14, 0),
        ("0Bh, 1", "0B 05 0F 01 00", 1, 0),
        ("0Bh, 2", "0B 05 0F 01 00", 2, 12),
        ("0Ch, 1", "0C 05 0F 01 00", 1, 0),
        ("0Ch, -1", "0C 05 0F 01 00", -1, 12),
        ("0Eh, 9 in the mask", "0E 07 0F 04 00 03 FF", 9, 0),
        ("0Eh, 10 not in the mask", "0E 07 0F 04 00 03 FF", 10, 12),
        ("0Eh, 15 in the mask", "0E 07 0F 04 00 80 00", 15, 0),
        ("0Eh, 16", "0E 07 0F 04 00 FF FF", 16, 12),
        ("0Eh, -1", "0E 07 0F 04 00 FF FF", -1, 12),
    ]
}

/// The bytes of a hex text; `#` starts a comment.
pub fn hex(text: &str) -> Vec<u8> {
    let words = text.lines().flat_map(|line| line.split('#').next().unwrap_or("").split_whitespace());
    words.map(|word| u8::from_str_radix(word, 16).expect("two hex digits")).collect()
}
