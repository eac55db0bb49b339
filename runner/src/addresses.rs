//! Fields whose address, and bytes whose owner by address, are known from document 01, note 2 of document 02 and Table 4-1
//! alone.

use crate::calls::{owner_at, place};
use crate::case::Case;
use crate::engine::{Owned, Placed};
use crate::fixed::{hex, APPENDIX_B};
use crate::owners::{field, gap, refused};
use crate::report::Report;

pub fn compare(report: &mut Report) {
    for Known { name, count, rw, ro, places, owners } in known() {
        let case = Case { count, rw: &rw, ro: &ro };
        for (field, placed) in places {
            place::compare(report, &case, field, &[(name, placed)]);
        }
        for (bit, owned) in owners {
            owner_at::compare(report, &case, bit, &[(name, owned)]);
        }
    }
}

/// A map; set, entry, part and lane with what place answers; set, page, byte and bit with what owner answers.
struct Known {
    name: &'static str,
    count: usize,
    rw: Vec<u8>,
    ro: Vec<u8>,
    places: Vec<([usize; 4], Placed)>,
    owners: Vec<([usize; 4], Owned)>,
}

fn at(offset: usize, page: usize, byte: usize, bit: usize) -> Placed {
    Placed { refusal: 0, at: 0, offset, page, byte, bit }
}

/// A field without an address.
fn past(offset: usize, bit: usize) -> Placed {
    at(offset, 0, 0, bit)
}

/// Refusals that name no entry: 9, 10 and 11.
fn not_placed(number: usize) -> Placed {
    Placed::refused(number, 0)
}

fn ten() -> Owned {
    refused(10, 0)
}

#[rustfmt::skip]
fn known() -> Vec<Known> {
    // An entry that reserves a byte.
    const SMALL: &str = "13 04 0F 01 ";
    let of = |name, count, rw: &str, ro: &str, places: &[_], owners: &[_]| {
        Known { name, count, rw: hex(rw), ro: hex(ro), places: places.to_vec(), owners: owners.to_vec() }
    };
    let mut maps = vec![
        // 02h at 0, 03h at 1, 04h at 3, 05h at 7, 06h at 8, 07h at 9, 08h at 17: Table A-2 has these bytes of page 10h.
        of("the layout of Table A-2", 4,
           "02 05 0F 01 00 03 05 0F 02 00 04 07 0F 04 00 FF FF 05 05 0F 01 00 06 05 0F 01 00 \
            07 08 0F 08 00 00 FF FF 08 07 0F 04 00 FF FF 00 04 00 02", "",
           &[([0, 0, 0, 1], at(0, 0x10, 153, 0)), ([0, 1, 0, 5], at(2, 0x10, 155, 0)), ([0, 2, 0, 1], at(3, 0x10, 156, 0)),
             ([0, 2, 0, 8], at(6, 0x10, 159, 4)), ([0, 3, 0, 8], at(7, 0x10, 160, 7)), ([0, 4, 0, 1], at(8, 0x10, 161, 0)),
             ([0, 5, 0, 1], at(9, 0x10, 162, 0)), ([0, 5, 0, 8], at(12, 0x10, 165, 4)), ([0, 5, 1, 1], at(13, 0x10, 166, 0)),
             ([0, 5, 1, 8], at(16, 0x10, 169, 4)), ([0, 6, 0, 1], at(17, 0x10, 170, 0)), ([0, 6, 0, 8], at(20, 0x10, 173, 4)),
             ([1, 0, 0, 8], at(0, 0x10, 188, 7)), ([1, 6, 0, 7], at(20, 0x10, 208, 0)), ([2, 0, 0, 1], at(0, 0x11, 214, 0)),
             ([2, 5, 1, 3], at(14, 0x11, 228, 0)), ([2, 6, 0, 8], at(20, 0x11, 234, 4)), ([0, 7, 0, 1], not_placed(10))],
           &[([0, 0x10, 152, 0], ten()), ([0, 0x10, 153, 0], field(0, 0, 1, 1)), ([0, 0x10, 155, 1], field(1, 0, 5, 2)),
             ([0, 0x10, 169, 7], field(5, 1, 8, 6)), ([0, 0x10, 173, 3], field(6, 0, 7, 7)), ([0, 0x10, 174, 0], gap(8)),
             ([0, 0x10, 175, 7], gap(8)), ([0, 0x10, 176, 0], ten()), ([0, 0x18, 144, 0], ten()), ([0, 0x10, 175, 8], ten()),
             ([1, 0x10, 187, 0], ten()), ([1, 0x10, 188, 7], field(0, 0, 8, 1)), ([1, 0x10, 210, 0], gap(8)),
             ([1, 0x10, 211, 0], ten()), ([1, 0x18, 200, 0], ten()), ([2, 0x11, 213, 0], ten()),
             ([2, 0x11, 214, 3], field(0, 0, 4, 1)), ([2, 0x11, 234, 7], field(6, 0, 8, 7)), ([2, 0x11, 235, 0], ten()),
             ([2, 0x19, 151, 0], ten()), ([2, 0x19, 152, 0], gap(8)), ([2, 0x19, 153, 7], gap(8)), ([2, 0x19, 154, 0], ten()),
             ([1, 0x10, 153, 0], ten()), ([0, 0x10, 188, 0], ten()), ([2, 0x10, 153, 0], ten()), ([0, 0x11, 214, 0], ten())]),
        // 0Fh at 15 to 22, 10h at 23 to 30: the staged pages end between them, the active page in 0Fh's lane 6.
        of("the page's end between two entries", 4, "00 04 00 0F 0F 05 0F 08 00 10 05 0F 08 00", "",
           &[([0, 1, 0, 1], at(15, 0x10, 168, 0)), ([0, 1, 0, 7], at(21, 0x10, 174, 0)), ([0, 1, 0, 8], at(22, 0x10, 175, 0)),
             ([0, 2, 0, 1], at(23, 0x18, 144, 0)), ([0, 2, 0, 2], at(24, 0x18, 145, 0)), ([0, 2, 0, 8], at(30, 0x18, 151, 0)),
             ([1, 1, 0, 1], at(15, 0x10, 203, 0)), ([1, 1, 0, 8], at(22, 0x10, 210, 0)), ([1, 2, 0, 1], at(23, 0x18, 200, 0)),
             ([1, 2, 0, 8], at(30, 0x18, 207, 0)), ([2, 1, 0, 1], at(15, 0x11, 229, 0)), ([2, 1, 0, 6], at(20, 0x11, 234, 0)),
             ([2, 1, 0, 7], at(21, 0x19, 152, 0)), ([2, 1, 0, 8], at(22, 0x19, 153, 0)), ([2, 2, 0, 1], at(23, 0x19, 154, 0)),
             ([2, 2, 0, 8], at(30, 0x19, 161, 0))],
           &[([0, 0x10, 167, 7], gap(1)), ([0, 0x10, 168, 0], field(1, 0, 1, 2)), ([0, 0x10, 175, 7], field(1, 0, 8, 2)),
             ([0, 0x18, 143, 0], ten()), ([0, 0x18, 144, 0], field(2, 0, 1, 3)), ([0, 0x18, 151, 7], field(2, 0, 8, 3)),
             ([0, 0x18, 152, 0], ten()), ([0, 0x18, 200, 0], ten()), ([1, 0x10, 210, 0], field(1, 0, 8, 2)),
             ([1, 0x18, 199, 0], ten()), ([1, 0x18, 200, 0], field(2, 0, 1, 3)), ([1, 0x18, 144, 0], ten()),
             ([1, 0x18, 208, 0], ten()), ([2, 0x11, 234, 0], field(1, 0, 6, 2)), ([2, 0x19, 152, 0], field(1, 0, 7, 2)),
             ([2, 0x19, 153, 7], field(1, 0, 8, 2)), ([2, 0x19, 154, 0], field(2, 0, 1, 3)),
             ([2, 0x19, 161, 0], field(2, 0, 8, 3)), ([2, 0x19, 162, 0], ten()), ([2, 0x11, 235, 0], ten()),
             ([2, 0x18, 144, 0], ten())]),
        // 07h at 21 to 28, four bytes a part: on both pages of a staged set, on the overflow page alone of the active set.
        of("an entry on both pages", 4, "00 04 00 15 07 08 0F 08 00 00 FF FF", "",
           &[([0, 1, 0, 1], at(21, 0x10, 174, 0)), ([0, 1, 0, 2], at(21, 0x10, 174, 4)), ([0, 1, 0, 4], at(22, 0x10, 175, 4)),
             ([0, 1, 0, 5], at(23, 0x18, 144, 0)), ([0, 1, 0, 8], at(24, 0x18, 145, 4)), ([0, 1, 1, 1], at(25, 0x18, 146, 0)),
             ([1, 1, 0, 4], at(22, 0x10, 210, 4)), ([1, 1, 0, 5], at(23, 0x18, 200, 0)), ([1, 1, 1, 8], at(28, 0x18, 205, 4)),
             ([2, 1, 0, 1], at(21, 0x19, 152, 0)), ([2, 1, 0, 4], at(22, 0x19, 153, 4)), ([2, 1, 1, 8], at(28, 0x19, 159, 4))],
           &[([0, 0x10, 173, 7], gap(1)), ([0, 0x10, 175, 3], field(1, 0, 3, 2)), ([0, 0x18, 144, 3], field(1, 0, 5, 2)),
             ([0, 0x18, 146, 4], field(1, 1, 2, 2)), ([0, 0x18, 149, 7], field(1, 1, 8, 2)), ([0, 0x18, 150, 0], ten()),
             ([1, 0x10, 209, 0], field(1, 0, 1, 2)), ([1, 0x18, 201, 7], field(1, 0, 8, 2)), ([2, 0x11, 234, 7], gap(1)),
             ([2, 0x19, 152, 5], field(1, 0, 2, 2)), ([2, 0x19, 160, 0], ten())]),
        // 0Fh at 70 to 77, 10h at 78 to 85: the table ends after 78 in a staged set, after 76 in the active set.
        of("the table's end", 4, "00 04 00 46 0F 05 0F 08 00 10 05 0F 08 00", "",
           &[([0, 1, 0, 1], at(70, 0x18, 191, 0)), ([0, 1, 0, 7], at(76, 0x18, 197, 0)), ([0, 1, 0, 8], at(77, 0x18, 198, 0)),
             ([0, 2, 0, 1], at(78, 0x18, 199, 0)), ([0, 2, 0, 2], past(79, 0)), ([0, 2, 0, 8], past(85, 0)),
             ([1, 1, 0, 1], at(70, 0x18, 247, 0)), ([1, 1, 0, 8], at(77, 0x18, 254, 0)), ([1, 2, 0, 1], at(78, 0x18, 255, 0)),
             ([1, 2, 0, 2], past(79, 0)), ([2, 1, 0, 1], at(70, 0x19, 201, 0)), ([2, 1, 0, 7], at(76, 0x19, 207, 0)),
             ([2, 1, 0, 8], past(77, 0)), ([2, 2, 0, 1], past(78, 0)), ([2, 2, 0, 8], past(85, 0)),
             ([3, 2, 0, 8], not_placed(10)), ([0, 2, 1, 1], not_placed(10))],
           &[([0, 0x10, 153, 0], gap(1)), ([0, 0x18, 144, 7], gap(1)), ([0, 0x18, 190, 0], gap(1)),
             ([0, 0x18, 198, 0], field(1, 0, 8, 2)), ([0, 0x18, 199, 7], field(2, 0, 1, 3)), ([0, 0x18, 200, 0], ten()),
             ([0, 0, 0, 0], ten()), ([1, 0x18, 200, 0], gap(1)), ([1, 0x18, 254, 0], field(1, 0, 8, 2)),
             ([1, 0x18, 255, 7], field(2, 0, 1, 3)), ([1, 0x18, 256, 0], ten()), ([1, 0x18, 0, 0], ten()),
             ([1, 0x19, 0, 0], ten()), ([1, 0, 0, 0], ten()), ([2, 0x19, 206, 0], field(1, 0, 6, 2)),
             ([2, 0x19, 207, 7], field(1, 0, 7, 2)), ([2, 0x19, 208, 0], ten()), ([2, 0, 0, 0], ten())]),
        // 02h of 2 bytes, 12h at 2 to 9, 11h at 10 to 25: the active set alone goes on.
        of("RO in the active set", 4, "02 05 0F 02 00", "12 07 0F 08 00 00 00 11 05 0F 10 00",
           &[([2, 1, 0, 1], at(2, 0x11, 216, 0)), ([2, 2, 0, 1], at(10, 0x11, 224, 0)), ([2, 2, 0, 8], at(17, 0x11, 231, 0)),
             ([2, 2, 1, 3], at(20, 0x11, 234, 0)), ([2, 2, 1, 4], at(21, 0x19, 152, 0)), ([2, 2, 1, 8], at(25, 0x19, 156, 0)),
             ([0, 1, 0, 1], not_placed(11)), ([1, 2, 1, 8], not_placed(11)), ([0, 1, 0, 9], not_placed(10))],
           &[([0, 0x10, 154, 0], gap(1)), ([0, 0x10, 155, 0], ten()), ([1, 0x10, 190, 0], ten()), ([0, 0x18, 144, 0], ten()),
             ([2, 0x11, 215, 7], gap(1)), ([2, 0x11, 216, 0], field(1, 0, 1, 2)), ([2, 0x11, 234, 7], field(2, 1, 3, 3)),
             ([2, 0x19, 152, 0], field(2, 1, 4, 3)), ([2, 0x19, 156, 7], field(2, 1, 8, 3)), ([2, 0x19, 157, 0], ten())]),
        of("numbers with the bits of an address", 4, "0F 05 0F 08 00", "", &[],
           &[([0, 0x10, 153, 0], field(0, 0, 1, 1)), ([0, 0x110, 153, 0], ten()), ([0, 0x10, 256 + 153, 0], ten()),
             ([0, (1 << 32) + 0x10, 153, 0], ten()), ([0, 0x10, (1 << 32) + 153, 0], ten()), ([0, 0x10, 153, 256], ten()),
             ([256, 0x10, 153, 0], ten()), ([3, 0x10, 153, 0], ten()), ([3, 0x11, 214, 0], ten()), ([3, 0, 0, 0], ten()),
             ([0, 0, 153, 0], ten()), ([0, 0x10, 0, 0], ten()), ([0, 153, 0x10, 0], ten()),
             ([0, usize::MAX, usize::MAX, usize::MAX], ten()), ([usize::MAX, usize::MAX, usize::MAX, 0], ten())]),
        of("two mask bytes, MemoryLength 0 before", 9, "13 05 00 00 00 00 05 00 00 16 02 06 01 FF 02 00", "",
           &[([0, 2, 0, 8], at(22, 0x10, 175, 7)), ([1, 2, 0, 1], at(22, 0x10, 210, 0)), ([2, 2, 0, 3], at(22, 0x19, 153, 2))],
           &[([0, 0x10, 175, 6], field(2, 0, 7, 3)), ([0, 0x18, 144, 0], gap(3)), ([1, 0x18, 200, 7], gap(3)),
             ([2, 0x19, 153, 2], field(2, 0, 3, 3)), ([2, 0x19, 154, 2], gap(3)), ([2, 0x19, 155, 2], ten())]),
        of("no entry", 4, "", "", &[([0, 0, 0, 1], not_placed(10))],
           &[([0, 0x10, 153, 0], ten()), ([1, 0x18, 255, 0], ten()), ([2, 0x11, 214, 0], ten()), ([2, 0, 0, 0], ten())]),
        of("9 before an address outside", 16, "02 05 0F 01 00", "", &[([3, 9, 9, 9], not_placed(9))],
           &[([0, 0x10, 153, 0], refused(9, 0)), ([0, 0, 0, 0], refused(9, 0)), ([9, 9, 9, 9], refused(9, 0))]),
        of("1 before an address outside", 4, "02 05 0F 01 00 02", "", &[([0, 0, 0, 1], Placed::refused(1, 1))],
           &[([0, 0x10, 153, 0], refused(1, 1)), ([1, 0x10, 153, 0], refused(1, 1)), ([2, 0, 0, 8], refused(1, 1))]),
        of("a fault in RO, behind the byte", 4, "02 05 0F 01 00", "02 05 0F 01 00", &[],
           &[([0, 0x10, 153, 0], refused(3, 1)), ([0, 0x11, 214, 0], refused(3, 1))]),
        of("16 before an address outside", 4, &SMALL.repeat(17), "", &[],
           &[([0, 0x10, 153, 0], refused(16, 16)), ([0, 0, 0, 0], refused(16, 16))]),
    ];
    maps.push(appendix_b());
    maps.extend(LENGTHS.map(of_length));
    maps
}

/// 01h of 3 bytes, 04h at 3, 0Eh at 7; 11h at 11 to 26, 12h at 27 to 34. Tables B-3 and B-4 have the RW bytes. Table B-5 moves
/// a part of 11h, and with it 12h, on to the overflow page; document 02 leaves every offset where it is.
#[rustfmt::skip]
fn appendix_b() -> Known {
    let [rw, ro] = APPENDIX_B.map(<[u8]>::to_vec);
    let places = vec![
        ([0, 1, 0, 1], at(3, 0x10, 156, 0)), ([0, 2, 0, 8], at(10, 0x10, 163, 4)), ([2, 1, 0, 1], at(3, 0x11, 217, 0)),
        ([2, 2, 0, 8], at(10, 0x11, 224, 4)), ([2, 3, 0, 1], at(11, 0x11, 225, 0)), ([2, 3, 0, 8], at(18, 0x11, 232, 0)),
        ([2, 3, 1, 2], at(20, 0x11, 234, 0)), ([2, 3, 1, 3], at(21, 0x19, 152, 0)), ([2, 3, 1, 8], at(26, 0x19, 157, 0)),
        ([2, 4, 0, 1], at(27, 0x19, 158, 0)), ([2, 4, 0, 8], at(34, 0x19, 165, 0)),
    ];
    let owners = vec![
        ([0, 0x10, 155, 7], gap(1)), ([0, 0x10, 163, 7], field(2, 0, 8, 3)), ([0, 0x10, 164, 0], ten()),
        ([2, 0x11, 234, 0], field(3, 1, 2, 4)), ([2, 0x19, 152, 0], field(3, 1, 3, 4)), ([2, 0x19, 165, 7], field(4, 0, 8, 5)),
        ([2, 0x19, 166, 0], ten()),
    ];
    Known { name: "appendix B", count: 1, rw, ro, places, owners }
}

/// A set's length; then by set, the address of its last byte, and the one that the next byte would have. 0 and 0: none.
type Length = (u8, [[[usize; 2]; 2]; 3]);

#[rustfmt::skip]
const LENGTHS: [Length; 12] = [
    (1, [[[0x10, 153], [0x10, 154]], [[0x10, 188], [0x10, 189]], [[0x11, 214], [0x11, 215]]]),
    (20, [[[0x10, 172], [0x10, 173]], [[0x10, 207], [0x10, 208]], [[0x11, 233], [0x11, 234]]]),
    (21, [[[0x10, 173], [0x10, 174]], [[0x10, 208], [0x10, 209]], [[0x11, 234], [0x19, 152]]]),
    (22, [[[0x10, 174], [0x10, 175]], [[0x10, 209], [0x10, 210]], [[0x19, 152], [0x19, 153]]]),
    (23, [[[0x10, 175], [0x18, 144]], [[0x10, 210], [0x18, 200]], [[0x19, 153], [0x19, 154]]]),
    (24, [[[0x18, 144], [0x18, 145]], [[0x18, 200], [0x18, 201]], [[0x19, 154], [0x19, 155]]]),
    (76, [[[0x18, 196], [0x18, 197]], [[0x18, 252], [0x18, 253]], [[0x19, 206], [0x19, 207]]]),
    (77, [[[0x18, 197], [0x18, 198]], [[0x18, 253], [0x18, 254]], [[0x19, 207], [0, 0]]]),
    (78, [[[0x18, 198], [0x18, 199]], [[0x18, 254], [0x18, 255]], [[0, 0], [0, 0]]]),
    (79, [[[0x18, 199], [0, 0]], [[0x18, 255], [0, 0]], [[0, 0], [0, 0]]]),
    (80, [[[0, 0], [0, 0]], [[0, 0], [0, 0]], [[0, 0], [0, 0]]]),
    (255, [[[0, 0], [0, 0]], [[0, 0], [0, 0]], [[0, 0], [0, 0]]]),
];

/// A map of one 00h entry: the last byte is a gap where it has an address, the next is refused with or without one.
fn of_length((length, sets): Length) -> Known {
    let mut owners = Vec::new();
    for (set, [last, next]) in sets.into_iter().enumerate() {
        for bit in [0, 7] {
            let owned = if last == [0, 0] { ten() } else { gap(1) };
            owners.push(([set, last[0], last[1], bit], owned));
            owners.push(([set, next[0], next[1], bit], ten()));
        }
    }
    let (rw, ro, places) = (vec![0x00, 0x04, 0x00, length], Vec::new(), Vec::new());
    Known { name: "one 00h entry", count: 4, rw, ro, places, owners }
}
