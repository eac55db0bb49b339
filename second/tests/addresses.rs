//! Note 2, "Register addresses": "page, byte and lowest bit beside the offset".

mod common;
use common::*;
use second::*;

/// What place answers for an offset that has no address.
const NONE: (usize, usize) = (0, 0);

/// Set, offset and address: both ends of the six ranges of Table 4-1, what
/// stands before and after each border, and offsets past the last byte.
#[rustfmt::skip]
const BORDERS: [(usize, usize, (usize, usize)); 36] = [
    (0, 0, (0x10, 153)), (0, 1, (0x10, 154)), (0, 21, (0x10, 174)), (0, 22, (0x10, 175)),
    (0, 23, (0x18, 144)), (0, 24, (0x18, 145)), (0, 77, (0x18, 198)), (0, 78, (0x18, 199)),
    (0, 79, NONE), (0, 80, NONE), (0, 153, NONE), (0, 255, NONE),
    (1, 0, (0x10, 188)), (1, 1, (0x10, 189)), (1, 21, (0x10, 209)), (1, 22, (0x10, 210)),
    (1, 23, (0x18, 200)), (1, 24, (0x18, 201)), (1, 77, (0x18, 254)), (1, 78, (0x18, 255)),
    (1, 79, NONE), (1, 80, NONE), (1, 188, NONE), (1, 255, NONE),
    (2, 0, (0x11, 214)), (2, 1, (0x11, 215)), (2, 19, (0x11, 233)), (2, 20, (0x11, 234)),
    (2, 21, (0x19, 152)), (2, 22, (0x19, 153)), (2, 75, (0x19, 206)), (2, 76, (0x19, 207)),
    (2, 77, NONE), (2, 78, NONE), (2, 214, NONE), (2, 255, NONE),
];

/// Table 4-1 by sums: the address of an offset.
fn by_sums(set: usize, offset: usize) -> (usize, usize) {
    match (set, offset) {
        (0, 0..=22) => (0x10, 153 + offset),
        (0, 23..=78) => (0x18, 144 - 23 + offset),
        (1, 0..=22) => (0x10, 188 + offset),
        (1, 23..=78) => (0x18, 200 - 23 + offset),
        (2, 0..=20) => (0x11, 214 + offset),
        (2, 21..=76) => (0x19, 152 - 21 + offset),
        _ => NONE,
    }
}

/// The fields of width `w` that fill bytes, given as page, first and last byte:
/// page, byte and lowest bit of each.
fn filling(w: usize, spans: &[(usize, usize, usize)]) -> Vec<(usize, usize, usize)> {
    let bytes = |&(page, first, last): &(usize, usize, usize)| {
        (first..=last).flat_map(move |byte| (0..8).step_by(w).map(move |bit| (page, byte, bit)))
    };
    spans.iter().flat_map(bytes).collect()
}

/// Page, byte and lowest bit of lanes 1 to 8. Owner tells each field back at
/// every one of its bits, by offset and, page 0 and byte 0 aside, by address.
fn lanes(
    count: usize,
    rw: &[u8],
    ro: &[u8],
    set: usize,
    (number, part): (usize, usize),
) -> Vec<(usize, usize, usize)> {
    let w = columns(entries(count, rw, ro).unwrap()[number].id).3;
    let of_lane = |lane: usize| {
        let at = place(count, rw, ro, set, number, part, lane).unwrap();
        let address = (at.page, at.byte);
        for bit in at.bit..at.bit + w {
            let told = Ok(owned((number, part, lane), number + 1));
            assert_eq!(owner_of(count, rw, ro, set, at.offset, bit), told);
            let told = if address == NONE { Err(caller(10)) } else { told };
            assert_eq!(owner_at(count, rw, ro, set, address, bit), told);
        }
        (at.page, at.byte, at.bit)
    };
    (1..=8).map(of_lane).collect()
}

/// One field in each bit of the byte.
#[test]
fn borders() {
    for (set, offset, address) in BORDERS {
        let (page, byte) = address;
        let rw = [reserved(offset as u8), entry(0x02, 1, 1, &[0])].concat();
        for lane in 1..=8 {
            let bit = lane - 1;
            let placed = Placed { offset, page, byte, bit };
            assert_eq!(place(4, &rw, &[], set, 1, 0, lane), Ok(placed));
            let told = Ok(owned((1, 0, lane), 2));
            assert_eq!(owner(4, &rw, &[], set, Byte::Offset(offset), bit), told);
            let told = if address == NONE { Err(caller(10)) } else { told };
            assert_eq!(owner(4, &rw, &[], set, Byte::Address { page, byte }, bit), told);
        }
        assert_eq!(owner_at(4, &rw, &[], set, address, 8), Err(caller(10)));
        assert_eq!(by_sums(set, offset), address);
    }
}

/// P2 to P5 as page, byte and lowest bit; their "byte" is the offset.
#[test]
fn p2_to_p5() {
    let behind = |memory, last| [reserved(memory), last].concat();
    let p2 = behind(1, entry(0x03, 1, 2, &[0]));
    let p3_p4 = behind(3, entry(0x04, 1, 4, &[0, 0xFF, 0xFF]));
    let p5 = behind(9, entry(0x07, 1, 8, &[0, 0, 0xFF, 0xFF]));
    for (rw, part, lane, offset, bit, bytes) in [
        (&p2, 0, 5, 2, 0, [155, 190, 216]),
        (&p3_p4, 0, 2, 3, 4, [156, 191, 217]),
        (&p3_p4, 0, 7, 6, 0, [159, 194, 220]),
        (&p5, 1, 1, 13, 0, [166, 201, 227]),
    ] {
        for set in 0..3 {
            let (page, byte) = ([0x10, 0x10, 0x11][set], bytes[set]);
            let placed = Placed { offset, page, byte, bit };
            assert_eq!(place(4, rw, &[], set, 1, part, lane), Ok(placed));
        }
    }
}

/// Bytes of one entry on both sides of a page's border, and of the last byte:
/// nothing is moved onto the overflow page, and nothing is refused.
#[test]
fn across_a_border() {
    type Span = (usize, usize, usize);
    type Case = (u8, u8, usize, usize, &'static [Span]);
    const NO: Span = (0, 0, 0);
    let of = |id: u8| match id {
        0x03 => entry(id, 1, 2, &[0]),
        0x04 => entry(id, 1, 4, &[0, 0, 0]),
        0x07 => entry(id, 1, 8, &[0, 0, 0, 0]),
        _ => entry(id, 1, 8, &[0]),
    };
    // ID, bytes before it, set, part, and the bytes that the part fills
    let cases: [Case; 34] = [
        (0x0F, 20, 0, 0, &[(0x10, 173, 175), (0x18, 144, 148)]),
        (0x0F, 20, 1, 0, &[(0x10, 208, 210), (0x18, 200, 204)]),
        (0x0F, 20, 2, 0, &[(0x11, 234, 234), (0x19, 152, 158)]),
        (0x0F, 15, 0, 0, &[(0x10, 168, 175)]),
        (0x0F, 16, 1, 0, &[(0x10, 204, 210), (0x18, 200, 200)]),
        (0x0F, 13, 2, 0, &[(0x11, 227, 234)]),
        (0x0F, 14, 2, 0, &[(0x11, 228, 234), (0x19, 152, 152)]),
        (0x0F, 23, 0, 0, &[(0x18, 144, 151)]),
        (0x0F, 21, 2, 0, &[(0x19, 152, 159)]),
        (0x03, 22, 0, 0, &[(0x10, 175, 175), (0x18, 144, 144)]),
        (0x03, 22, 1, 0, &[(0x10, 210, 210), (0x18, 200, 200)]),
        (0x03, 22, 2, 0, &[(0x19, 153, 154)]),
        (0x03, 20, 0, 0, &[(0x10, 173, 174)]),
        (0x03, 20, 2, 0, &[(0x11, 234, 234), (0x19, 152, 152)]),
        (0x07, 19, 0, 0, &[(0x10, 172, 175)]),
        (0x07, 19, 0, 1, &[(0x18, 144, 147)]),
        (0x07, 19, 1, 0, &[(0x10, 207, 210)]),
        (0x07, 19, 1, 1, &[(0x18, 200, 203)]),
        (0x07, 19, 2, 0, &[(0x11, 233, 234), (0x19, 152, 153)]),
        (0x07, 19, 2, 1, &[(0x19, 154, 157)]),
        (0x07, 17, 1, 0, &[(0x10, 205, 208)]),
        (0x07, 17, 1, 1, &[(0x10, 209, 210), (0x18, 200, 201)]),
        (0x0F, 75, 0, 0, &[(0x18, 196, 199), NO, NO, NO, NO]),
        (0x0F, 75, 1, 0, &[(0x18, 252, 255), NO, NO, NO, NO]),
        (0x0F, 75, 2, 0, &[(0x19, 206, 207), NO, NO, NO, NO, NO, NO]),
        (0x07, 75, 0, 0, &[(0x18, 196, 199)]),
        (0x07, 75, 0, 1, &[NO, NO, NO, NO]),
        (0x07, 71, 2, 1, &[(0x19, 206, 207), NO, NO]),
        (0x04, 76, 1, 0, &[(0x18, 253, 255), NO]),
        (0x04, 76, 2, 0, &[(0x19, 207, 207), NO, NO, NO]),
        (0x03, 78, 0, 0, &[(0x18, 199, 199), NO]),
        (0x03, 77, 1, 0, &[(0x18, 254, 255)]),
        (0x03, 77, 2, 0, &[NO, NO]),
        (0x0F, 79, 0, 0, &[NO; 8]),
    ];
    for (id, before, set, part, spans) in cases {
        let rw = [reserved(before), of(id)].concat();
        let wanted = filling(columns(id).3, spans);
        assert_eq!(lanes(4, &rw, &[], set, (1, part)), wanted, "{id} {before} {set} {part}");
        let list = entries(4, &rw, &[]).unwrap();
        assert_eq!(list[1].offset, usize::from(before));
    }
}

/// RO fields lie in the active set alone, behind the RW bytes.
#[test]
fn ro_fields() {
    let rw = [entry(0x0F, 1, 8, &[0]), reserved(5)].concat();
    let ro = [entry(0x11, 1, 16, &[0]), entry(0x12, 1, 8, &[0, 0, 0])].concat();
    // 13 staged bytes, 37 active ones
    let said = |set, part| lanes(4, &rw, &ro, set, part);
    assert_eq!(said(0, (0, 0)), filling(8, &[(0x10, 153, 160)]));
    assert_eq!(said(1, (0, 0)), filling(8, &[(0x10, 188, 195)]));
    assert_eq!(said(2, (0, 0)), filling(8, &[(0x11, 214, 221)]));
    assert_eq!(said(2, (2, 0)), filling(8, &[(0x11, 227, 234)]));
    assert_eq!(said(2, (2, 1)), filling(8, &[(0x19, 152, 159)]));
    assert_eq!(said(2, (3, 0)), filling(8, &[(0x19, 160, 167)]));
    for set in 0..2 {
        assert_eq!(place(4, &rw, &ro, set, 2, 0, 1), Err(caller(11)));
        assert_eq!(place(4, &rw, &ro, set, 3, 0, 8), Err(caller(11)));
        assert_eq!(place(4, &rw, &ro, set, 3, 1, 8), Err(caller(10)));
    }
    for (set, address, told) in [
        (0, (0x10, 165), Ok(gap(2))),
        (0, (0x10, 166), Err(caller(10))),
        (1, (0x10, 200), Ok(gap(2))),
        (1, (0x10, 201), Err(caller(10))),
        (0, (0x11, 227), Err(caller(10))),
        (1, (0x19, 152), Err(caller(10))),
        (2, (0x11, 226), Ok(gap(2))),
        (2, (0x11, 227), Ok(owned((2, 0, 1), 3))),
        (2, (0x19, 167), Ok(owned((3, 0, 8), 4))),
        (2, (0x19, 168), Err(caller(10))),
    ] {
        assert_eq!(owner_at(4, &rw, &ro, set, address, 3), told, "{set} {address:?}");
    }
    // RO fields on both sides of the last byte: 70 bytes before them.
    let said = |part| lanes(4, &reserved(70), &ro, 2, (1, part));
    assert_eq!(said(0), filling(8, &[(0x19, 201, 207), (0, 0, 0)]));
    assert_eq!(said(1), filling(8, &[(0, 0, 0); 8]));
    assert_eq!(place(4, &reserved(70), &ro, 0, 1, 1, 1), Err(caller(11)));
}

/// Tables A-2, B-3 and B-4 of the agreement where they follow the rules; its
/// bytes left free at the end of a page "yield to the rules here".
#[test]
fn appendices() {
    let rw = [
        entry(0x02, 0x0F, 1, &[0]),
        entry(0x00, 0, 2, &[]),
        entry(0x04, 0x08, 4, &[0, 0, 4]),
        entry(0x00, 0, 1, &[]),
        entry(0x00, 0, 1, &[]),
        entry(0x07, 0x0F, 8, &[0, 0xFF, 0, 2]),
        entry(0x08, 0x0F, 4, &[0, 0, 7]),
        entry(0x07, 0x0F, 8, &[1, 1, 0, 4]),
    ]
    .concat();
    let said = |part| lanes(4, &rw, &[], 0, part);
    assert_eq!(said((0, 0)), filling(1, &[(0x10, 153, 153)]));
    assert_eq!(said((2, 0)), filling(4, &[(0x10, 156, 159)]));
    assert_eq!(said((5, 0)), filling(4, &[(0x10, 162, 165)]));
    assert_eq!(said((5, 1)), filling(4, &[(0x10, 166, 169)]));
    assert_eq!(said((6, 0)), filling(4, &[(0x10, 170, 173)]));
    assert_eq!(said((7, 0)), filling(4, &[(0x10, 174, 175), (0x18, 144, 145)]));
    assert_eq!(said((7, 1)), filling(4, &[(0x18, 146, 149)]));
    for (byte, looked_at) in [(154, 2), (155, 2), (160, 4), (161, 5)] {
        assert_eq!(owner_at(4, &rw, &[], 0, (0x10, byte), 0), Ok(gap(looked_at)));
    }

    let rw = [
        entry(0x01, 1, 3, &[0, 2]),
        entry(0x04, 1, 4, &[0, 0, 2]),
        entry(0x0E, 1, 4, &[0, 0, 2]),
    ]
    .concat();
    let ro = [entry(0x11, 1, 16, &[0]), entry(0x12, 1, 8, &[0, 0xFF, 0])].concat();
    let said = |set, part| lanes(1, &rw, &ro, set, part);
    assert_eq!(said(0, (1, 0)), filling(4, &[(0x10, 156, 159)]));
    assert_eq!(said(0, (2, 0)), filling(4, &[(0x10, 160, 163)]));
    assert_eq!(said(2, (1, 0)), filling(4, &[(0x11, 217, 220)]));
    assert_eq!(said(2, (2, 0)), filling(4, &[(0x11, 221, 224)]));
    assert_eq!(said(2, (3, 0)), filling(8, &[(0x11, 225, 232)]));
    assert_eq!(said(2, (3, 1)), filling(8, &[(0x11, 233, 234), (0x19, 152, 157)]));
    assert_eq!(said(2, (4, 0)), filling(8, &[(0x19, 158, 165)]));
}

/// "an address outside its set is refusal 10": beside the ranges, of another
/// set, in no range, of page 0, with page and byte misread. Here every set has
/// all the bytes that it can have.
#[test]
fn outside_the_set() {
    let rw = [entry(0x0F, 1, 8, &[0]), reserved(248)].concat();
    #[rustfmt::skip]
    let outside = [
        // beside the ranges
        (0, 0x10, 152), (0, 0x10, 176), (0, 0x18, 143), (0, 0x18, 200),
        (1, 0x10, 187), (1, 0x10, 211), (1, 0x18, 199), (1, 0x18, 256),
        (2, 0x11, 213), (2, 0x11, 235), (2, 0x19, 151), (2, 0x19, 208),
        // of another set
        (0, 0x10, 188), (0, 0x10, 210), (0, 0x18, 255), (0, 0x11, 214), (0, 0x19, 207),
        (1, 0x10, 153), (1, 0x10, 175), (1, 0x18, 144), (1, 0x11, 234), (1, 0x19, 152),
        (2, 0x10, 153), (2, 0x10, 210), (2, 0x18, 144), (2, 0x18, 255),
        // another page with bytes of the set
        (0, 0x11, 153), (0, 0x19, 144), (0, 0x10, 144), (1, 0x11, 188), (1, 0x19, 255),
        (1, 0x10, 255), (2, 0x10, 214), (2, 0x18, 207), (2, 0x11, 207), (2, 0x19, 214),
        // in no range
        (0, 0x10, 0), (0, 0x10, 187), (0, 0x10, 255), (0, 0x0F, 153), (0, 0x12, 153),
        (0, 0x17, 144), (0, 0x1A, 144), (1, 0x01, 161), (1, 0, 188), (2, 0x9F, 136), (2, 0, 8),
        (2, 0x19, 255),
        // page 0, byte 0
        (0, 0, 0), (1, 0, 0), (2, 0, 0),
        // 10 for 10h, 153h for 153, page and byte exchanged, more than a byte
        (0, 10, 153), (1, 18, 200), (2, 11, 214), (0, 0x10, 0x153), (0, 153, 0x10), (2, 214, 0x11),
        (0, 0x110, 153), (0, 0x10, 153 + 256), (2, 0x119, 152), (2, 0x19, 152 + 256),
    ];
    for (set, page, byte) in outside {
        for bit in 0..8 {
            let told = owner_at(4, &rw, &[], set, (page, byte), bit);
            assert_eq!(told, Err(caller(10)), "{set} {page} {byte}");
        }
    }
}

/// Every page and byte up to beyond what a byte holds: the set's own addresses
/// are told, and they alone.
#[test]
fn every_address() {
    let rw = [reserved(255), reserved(1)].concat();
    for set in 0..3 {
        let mut own = 0;
        for page in (0..=0x20).chain([0xFF, 0x100, 0x110, 0x111, 0x118, 0x119]) {
            for byte in 0..=0x200 {
                let inside = match (set, page) {
                    (0, 0x10) => (153..=175).contains(&byte),
                    (0, 0x18) => (144..=199).contains(&byte),
                    (1, 0x10) => (188..=210).contains(&byte),
                    (1, 0x18) => (200..=255).contains(&byte),
                    (2, 0x11) => (214..=234).contains(&byte),
                    (2, 0x19) => (152..=207).contains(&byte),
                    _ => false,
                };
                let told = if inside { Ok(gap(1)) } else { Err(caller(10)) };
                assert_eq!(owner_at(4, &rw, &[], set, (page, byte), 5), told);
                own += usize::from(inside);
            }
        }
        assert_eq!(own, [79, 79, 77][set]);
    }
}

/// "An offset is judged against its own set's length", and so is the offset
/// that an address stands for.
#[test]
fn not_below_the_length() {
    for staged in (0..=82).chain([100, 200, 255]) {
        for more in [0, 1, 2, 21, 56, 78] {
            let (rw, ro) = (reserved(staged as u8), reserved(more as u8));
            if staged + more > 256 {
                continue;
            }
            for set in 0..3 {
                let length = if set == 2 { staged + more } else { staged };
                for offset in 0..79 {
                    let told = match offset < length {
                        true => Ok(gap(1 + usize::from(offset >= staged))),
                        false => Err(caller(10)),
                    };
                    assert_eq!(owner_of(4, &rw, &ro, set, offset, 7), told);
                    let address = by_sums(set, offset);
                    let told = if address == NONE { Err(caller(10)) } else { told };
                    assert_eq!(owner_at(4, &rw, &ro, set, address, 7), told);
                }
            }
        }
    }
    // Empty strings: no byte, so no address.
    for (set, _, address) in BORDERS {
        assert_eq!(owner_at(1, &[], &[], set, address, 0), Err(caller(10)));
    }
}

/// Numbers of any size in each argument.
#[test]
fn large_numbers() {
    let rw = [entry(0x02, 1, 1, &[0]), reserved(255)].concat();
    let huge = usize::MAX;
    let large = [huge, huge - 1, huge / 2, huge / 8, huge / 8 + 1, 1 << 32, 1 << 16, 512, 256];
    for set in 0..3 {
        let (page, byte) = by_sums(set, 0);
        assert_eq!(owner_at(4, &rw, &[], set, (page, byte), 7), Ok(owned((0, 0, 8), 1)));
        for n in large {
            for address in [
                (n, n), (n, byte), (page, n), (n, 0), (0, n), (page.wrapping_add(n), byte),
                (page, byte.wrapping_add(n)), (page.wrapping_add(n), byte.wrapping_add(n)),
            ] {
                assert_eq!(owner_at(4, &rw, &[], set, address, 7), Err(caller(10)));
            }
            assert_eq!(owner_of(4, &rw, &[], set, n, 7), Err(caller(10)));
            for bit in [8, 9, 15, n] {
                assert_eq!(owner_of(4, &rw, &[], set, 0, bit), Err(caller(10)));
                assert_eq!(owner_at(4, &rw, &[], set, (page, byte), bit), Err(caller(10)));
            }
            assert_eq!(place(4, &rw, &[], set, n, 0, 1), Err(caller(10)));
            assert_eq!(place(4, &rw, &[], set, 0, n, 1), Err(caller(10)));
            assert_eq!(place(4, &rw, &[], set, 0, 0, n), Err(caller(10)));
        }
        for n in large.into_iter().chain([3, 4, 5]) {
            assert_eq!(owner_of(4, &rw, &[], n, 0, 7), Err(caller(10)));
            assert_eq!(owner_at(4, &rw, &[], n, (page, byte), 7), Err(caller(10)));
            assert_eq!(owner_at(4, &rw, &[], n, (n, n), n), Err(caller(10)));
            assert_eq!(place(4, &rw, &[], n, 0, 0, 1), Err(caller(10)));
        }
    }
}

/// "Order: 9, 8, 1 to 7, 10": the strings are refused before an address, good or
/// bad; 10 has no extras and no count.
#[test]
fn refusals_in_order() {
    let huge = usize::MAX;
    // Set, address and bit, and whether a map of 3 bytes has them.
    let asked = [
        (0, (0x10, 153), 0, true),
        (1, (0x10, 188), 7, true),
        (2, (0x11, 214), 3, true),
        (0, (0, 0), 0, false),
        (1, (0x10, 153), 0, false),
        (1, (0x18, 255), 7, false),
        (2, (huge, huge), 0, false),
        (2, (0x11, 214), 8, false),
        (3, (0x10, 153), 0, false),
        (huge, (huge, huge), huge, false),
    ];
    let said = |count: usize, rw: &[u8], ro: &[u8], wanted: Refusal| {
        for (set, address, bit, _) in asked {
            assert_eq!(owner_at(count, rw, ro, set, address, bit), Err(wanted));
            assert_eq!(place(count, rw, ro, set, address.0, address.1, bit), Err(wanted));
        }
    };
    for fault in faults() {
        for at in 1..LIMIT {
            let string = with_fault(&fault, at, 0);
            match fault.in_ro {
                true => said(4, &space(4, 3, false), &string, maker(fault.number, 3 + at)),
                false => said(4, &string, &space(4, 3, true), maker(fault.number, at)),
            }
        }
    }
    let (good, bad) = (space(4, 3, false), [0x02]);
    said(4, &space(4, 17, false), &bad, maker(16, 16));
    said(4, &good, &space(4, 17, true), maker(16, 19));
    said(4, &bad, &[], maker(1, 0));
    said(4, &good, &bad, maker(1, 3));
    said(4, &[0; 121], &bad, caller(9));
    said(4, &bad, &[0; 121], caller(9));
    for count in [0, 16, huge] {
        said(count, &good, &[], caller(9));
        said(count, &bad, &bad, caller(9));
    }
    // With good strings a bad set, address or bit, or several of them, is 10.
    for (set, address, bit, has) in asked {
        let told = if has { Ok(gap(1)) } else { Err(caller(10)) };
        assert_eq!(owner_at(4, &good, &[], set, address, bit), told);
    }
}

/// No address is no refusal of place: its checks are those of read.
#[test]
fn place_past_the_last_byte() {
    let rw = [reserved(200), entry(0x02, 1, 1, &[0])].concat();
    let ro = [entry(0x12, 1, 8, &[0, 0, 0]), entry(0x11, 1, 16, &[0])].concat();
    let placed = |offset, bit| Ok(Placed { offset, page: 0, byte: 0, bit });
    for set in 0..3 {
        assert_eq!(place(4, &rw, &ro, set, 1, 0, 6), placed(200, 5));
        assert_eq!(owner_of(4, &rw, &ro, set, 200, 5), Ok(owned((1, 0, 6), 2)));
        assert_eq!(owner_at(4, &rw, &ro, set, NONE, 5), Err(caller(10)));
        assert_eq!(place(4, &rw, &ro, set, 1, 1, 6), Err(caller(10)));
        assert_eq!(place(4, &rw, &ro, set, 0, 0, 6), Err(caller(10)));
        assert_eq!(place(4, &rw, &ro, set, 4, 0, 6), Err(caller(10)));
        let in_active = |wanted| if set == 2 { wanted } else { Err(caller(11)) };
        assert_eq!(place(4, &rw, &ro, set, 2, 0, 8), in_active(placed(208, 0)));
        assert_eq!(place(4, &rw, &ro, set, 3, 1, 8), in_active(placed(224, 0)));
    }
}

/// "byte calls keep offsets": 153 is the byte of that offset, and not byte 153 of
/// page 10h, which is offset 0.
#[test]
fn byte_calls() {
    let rw = [entry(0x02, 1, 1, &[0]), reserved(152), entry(0x0F, 1, 8, &[0])].concat();
    let mut pair = Pair::fresh(4, &rw, &[]);
    let at_0 = Placed { offset: 0, page: 0x10, byte: 153, bit: 0 };
    let at_153 = Placed { offset: 153, page: 0, byte: 0, bit: 0 };
    assert_eq!(place(4, &rw, &[], 0, 0, 0, 1), Ok(at_0));
    assert_eq!(place(4, &rw, &[], 0, 2, 0, 1), Ok(at_153));
    assert_eq!(pair.byte_write(0, 153, 0x5A), Answer::Yes);
    assert_eq!(pair.read(0, 2, 0, 1), Answer::Number(0x5A));
    assert_eq!(pair.byte_read(0, 153), Answer::Number(0x5A));
    assert_eq!(pair.byte_read(0, 0), Answer::Number(0));
    assert_eq!(pair.byte_write(0, 160, 0xFF), Answer::Yes);
    assert_eq!(pair.byte_write(0, 161, 0xFF), refused(caller(10)));
    for (set, offset) in [(0, 175), (1, 188), (2, 214)] {
        assert_eq!(pair.byte_read(set, offset), refused(caller(10)));
    }
}

// ---------------------------------------------------------------------------
// On random maps
// ---------------------------------------------------------------------------

/// An accepted map, behind up to 100 bytes of space.
fn any_map(random: &mut Random) -> (usize, Vec<u8>, Vec<u8>, Loaded) {
    loop {
        let (count, rw, ro, _) = random_map(random);
        let memory = random.below(101) as u8;
        let first = if count > 8 { entry2(0x00, 0, memory, &[]) } else { reserved(memory) };
        let rw = if random.chance(3) { rw } else { [first, rw].concat() };
        if let Ok(loaded) = load(count, &rw, &ro) {
            return (count, rw, ro, loaded);
        }
    }
}

/// Owner by address and by offset agree with each other and with place, from
/// every bit of every set and from every field.
#[test]
fn both_ways() {
    let mut random = Random(21);
    let (mut on_page, mut on_overflow, mut nowhere, mut in_ro, mut astride) = (0, 0, 0, 0, 0);
    for _ in 0..150 {
        let (count, rw, ro, loaded) = any_map(&mut random);
        let list = entries(count, &rw, &ro).unwrap();
        for set in 0..3 {
            let length = if set == 2 { loaded.active_length } else { loaded.staged_length };
            for offset in 0..length {
                let address = by_sums(set, offset);
                for bit in 0..8 {
                    let told = owner_of(count, &rw, &ro, set, offset, bit);
                    let by_address = owner_at(count, &rw, &ro, set, address, bit);
                    assert_eq!(by_address, if address == NONE { Err(caller(10)) } else { told });
                    if let Some((number, part, lane)) = told.unwrap().field {
                        let at = place(count, &rw, &ro, set, number, part, lane).unwrap();
                        assert_eq!((at.offset, (at.page, at.byte)), (offset, address));
                        assert!((at.bit..at.bit + columns(list[number].id).3).contains(&bit));
                    }
                }
            }
            for offset in length..80 {
                let address = by_sums(set, offset);
                assert_eq!(owner_at(count, &rw, &ro, set, address, 0), Err(caller(10)));
            }
            for (number, info) in list.iter().enumerate() {
                let (_, _, parts, w) = columns(info.id);
                let mut pages = Vec::new();
                for part in 0..parts {
                    if set < 2 && info.in_ro {
                        let said = place(count, &rw, &ro, set, number, part, 1);
                        assert_eq!(said, Err(caller(11)));
                        continue;
                    }
                    let said = lanes(count, &rw, &ro, set, (number, part));
                    for (i, (page, byte, bit)) in said.into_iter().enumerate() {
                        let b = i * w;
                        let offset = info.offset + part * w + b / 8;
                        assert_eq!(((page, byte), bit), (by_sums(set, offset), b % 8));
                        pages.push(page);
                        on_page += usize::from(matches!(page, 0x10 | 0x11));
                        on_overflow += usize::from(matches!(page, 0x18 | 0x19));
                        nowhere += usize::from(page == 0);
                        in_ro += usize::from(info.in_ro && page != 0);
                    }
                }
                pages.dedup();
                astride += usize::from(pages.len() > 1);
            }
        }
    }
    // The maps are worth something.
    let seen = [on_page, on_overflow, nowhere, in_ro, 10 * astride];
    assert!(seen.iter().all(|&fields| fields > 500), "{seen:?}");
}

/// "A user who asks owner at the address and bit that place gives for a field ..
/// is told that field, and read gives the number that the plain table holds":
/// after a list of calls, and as the bank has the bits.
#[test]
fn told_and_read() {
    let mut random = Random(22);
    let mut other_than_0 = 0;
    for _ in 0..80 {
        let (count, rw, ro, loaded) = any_map(&mut random);
        let mut pair = Pair::fresh(count, &rw, &ro);
        for _ in 0..150 {
            pair.call(random_call(&mut random, count, &loaded));
        }
        let list = entries(count, &rw, &ro).unwrap();
        for (number, info) in list.iter().enumerate() {
            let (_, _, parts, w) = columns(info.id);
            for n in 0..3 * parts * 8 {
                let (set, part, lane) = (n % 3, n / 3 % parts, n / 3 / parts + 1);
                let at = match place(count, &rw, &ro, set, number, part, lane) {
                    Ok(at) if (at.page, at.byte) != NONE => at,
                    _ => continue,
                };
                let told = owner_at(count, &rw, &ro, set, (at.page, at.byte), at.bit).unwrap();
                assert_eq!(told, owned((number, part, lane), number + 1));
                let (entry, part, lane) = told.field.unwrap();
                // The pair compares the bank's answer with the table's.
                let Answer::Number(read) = pair.read(set, entry, part, lane) else {
                    panic!("a field that place gives is read");
                };
                let bits = pair.bank[256 * set + at.offset] >> at.bit;
                let pattern = i64::from(bits) % (1 << w);
                assert_eq!(read.rem_euclid(1 << w), pattern);
                other_than_0 += usize::from(read != 0);
            }
        }
    }
    assert!(other_than_0 > 500, "{other_than_0}");
}
