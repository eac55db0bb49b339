//! The paper's own examples: the map program, P1 to P12.

mod common;
use common::*;
use second::*;

#[test]
fn map_program_example() {
    let input = [
        0x04, 0x0F, 0x02, 0x05, 0x0B, 0x01, 0x00, 0x00, 0x05, 0x00, 0x02, 0x00, 0x05, 0x05, 0x0F,
        0x01, 0x00, 0x00,
    ];
    let wanted = "entry id offset length\n0 2 0 1\n1 0 1 2\n2 5 3 1\nend 4 4\n";
    assert_eq!(String::from_utf8(map_program(&input)).unwrap(), wanted);

    // "Input that is short or long prints `refused 9`"
    for size in 0..input.len() {
        assert_eq!(map_program(&input[..size]), b"refused 9\n");
    }
    let mut long = input.to_vec();
    long.push(0);
    assert_eq!(map_program(&long), b"refused 9\n");
}

#[test]
fn map_program_refusals() {
    let program = |input: &[u8]| String::from_utf8(map_program(input)).unwrap();
    assert_eq!(program(&[1, 0, 0]), "entry id offset length\nend 0 0\n");
    assert_eq!(program(&[0, 0, 0]), "refused 9\n");
    assert_eq!(program(&[16, 0, 0]), "refused 9\n");
    assert_eq!(program(&[255, 1, 0, 0]), "refused 9\n");
    assert_eq!(program(&[1, 1, 0, 0]), "refused 1\n");
    assert_eq!(program(&[1, 2, 0, 0, 0]), "refused 2\n");
    assert_eq!(program(&[1, 0, 5, 2, 5, 1, 1, 0]), "refused 3\n");
    // A size over 120 is a string over 120.
    let mut input = vec![1, 121];
    input.extend([0, 0x79, 0, 0].iter().chain([0; 117].iter()));
    input.push(0);
    assert_eq!(program(&input), "refused 9\n");
    // Long and a bad entry: 9.
    assert_eq!(program(&[1, 1, 0, 0, 0]), "refused 9\n");
    // RO entries are numbered on and lie after the RW sum.
    let mut input = vec![9, 6];
    input.extend(entry2(0x10, 1, 9, &[0]));
    input.push(8);
    input.extend(entry2(0x12, 1, 8, &[0, 0, 3]));
    assert_eq!(program(&input), "entry id offset length\n0 16 0 9\n1 18 9 8\nend 9 17\n");
}

/// "P1 mask 0Bh, count 4: AppSel 1, 2, 4."
#[test]
fn p1() {
    let rw = entry(0x02, 0x0B, 1, &[0]);
    for app in 1..=4 {
        let mut pair = Pair::fresh(4, &rw, &[]);
        pair.write(0, 0, 0, 3, 1);
        assert_eq!(pair.select(0, 3, app), Answer::Yes);
        assert_eq!(pair.apply(0, 0b100), Answer::Yes);
        let copied = i64::from(matches!(app, 1 | 2 | 4));
        assert_eq!(pair.read(2, 0, 0, 3), Answer::Number(copied));
    }
}

/// "P2 03h at offset 1, lane 5: byte 2, bit 0."
#[test]
fn p2() {
    let rw = [entry(0x00, 0, 1, &[]), entry(0x03, 1, 2, &[0])].concat();
    assert_eq!(place_of(4, &rw, &[], 0, 1, 0, 5), Ok((2, 0)));
    assert_eq!(owner_of(4, &rw, &[], 1, 2, 0), Ok(owned((1, 0, 5), 2)));
}

/// "P3 04h at 3, lane 2: byte 3, bit 4. P4 04h at 3, lane 7: byte 6, bit 0."
#[test]
fn p3_p4() {
    let rw = [entry(0x00, 0, 3, &[]), entry(0x04, 1, 4, &[0, 0xFF, 0xFF])].concat();
    assert_eq!(place_of(4, &rw, &[], 1, 1, 0, 2), Ok((3, 4)));
    assert_eq!(place_of(4, &rw, &[], 2, 1, 0, 7), Ok((6, 0)));
}

/// "P5 07h at 9, part 1, lane 1: byte 13, bit 0."
#[test]
fn p5() {
    let rw = [entry(0x00, 0, 9, &[]), entry(0x07, 1, 8, &[0, 0, 0xFF, 0xFF])].concat();
    assert_eq!(place_of(4, &rw, &[], 0, 1, 1, 1), Ok((13, 0)));
}

/// "P6 −14 is stored F2h and at step 0 weighs −140. P7 −128 is 80h."
#[test]
fn p6_p7() {
    for (step, factor) in [(0, 10), (1, 20), (2, 25), (3, 40)] {
        let ro = entry(0x12, 1, 8, &[0, 0, step]);
        let mut pair = Pair::fresh(1, &[], &ro);
        assert_eq!(pair.publish(0, 0, 4, -14), Answer::Yes);
        assert_eq!(pair.bank[512 + 3], 0xF2);
        assert_eq!(pair.byte_read(2, 3), Answer::Number(0xF2));
        assert_eq!(pair.weight(0, 4), Ok(-14 * factor));
        assert_eq!(pair.publish(0, 0, 8, -128), Answer::Yes);
        assert_eq!(pair.bank[512 + 7], 0x80);
        assert_eq!(pair.read(2, 0, 0, 8), Answer::Number(-128));
        assert_eq!(pair.weight(0, 8), Ok(-128 * factor));
    }
}

/// "P8 Length 0, two bytes left: refusal 2."
#[test]
fn p8() {
    for id in 0..=255 {
        assert_eq!(load(4, &[id, 0], &[]), Err(maker(2, 0)));
        assert_eq!(load(4, &[], &[id, 0]), Err(maker(2, 0)));
    }
}

/// "P9 04h with MemoryLength 3: refusal 4; with 5: accepted."
#[test]
fn p9() {
    let rw = |memory| entry(0x04, 1, memory, &[0, 0, 0]);
    assert_eq!(load(4, &rw(3), &[]), Err(maker(4, 0)));
    let loaded = Loaded { rw_entries: 1, ro_entries: 0, staged_length: 5, active_length: 5 };
    assert_eq!(load(4, &rw(5), &[]), Ok(loaded));
}

/// "P10 04h, mask 1FFFh: 12 accepted, 13 not."
#[test]
fn p10() {
    let mut pair = Pair::fresh(4, &entry(0x04, 1, 4, &[0, 0x1F, 0xFF]), &[]);
    assert_eq!(pair.write(0, 0, 0, 1, 12), Answer::Yes);
    assert_eq!(pair.write(0, 0, 0, 1, 13), refused(caller(12)));
    assert_eq!(pair.read(0, 0, 0, 1), Answer::Number(12));
}

/// "P11 08h, mask FFFFh: 3 and 15 accepted, 4 not."
#[test]
fn p11() {
    let mut pair = Pair::fresh(4, &entry(0x08, 1, 4, &[0, 0xFF, 0xFF]), &[]);
    assert_eq!(pair.write(1, 0, 0, 1, 3), Answer::Yes);
    assert_eq!(pair.write(1, 0, 0, 2, 15), Answer::Yes);
    assert_eq!(pair.write(1, 0, 0, 3, 4), refused(caller(12)));
    assert_eq!(pair.byte_read(1, 0), Answer::Number(0xF3));
}

/// "P12 two 00h entries reserving 255 and 1: accepted; 255 and 2: refusal 7."
#[test]
fn p12() {
    let two = |last| [entry(0, 0, 255, &[]), entry(0, 0, last, &[])].concat();
    let loaded = Loaded { rw_entries: 2, ro_entries: 0, staged_length: 256, active_length: 256 };
    assert_eq!(load(4, &two(1), &[]), Ok(loaded));
    assert_eq!(load(4, &two(2), &[]), Err(maker(7, 1)));
    // The sum goes on through the RO string.
    assert_eq!(load(4, &two(1), &entry(0, 0, 0, &[])).map(|l| l.active_length), Ok(256));
    assert_eq!(load(4, &two(1), &entry(0, 0, 1, &[])), Err(maker(7, 2)));
}
