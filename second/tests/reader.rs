//! The reader's step over one string.

mod common;
use common::*;
use second::*;

#[test]
fn steps_of_the_example() {
    let string = [0x02, 0x05, 0x0B, 0x01, 0, 0, 0x05, 0, 0x02, 0, 0x05, 0x05, 0x0F, 0x01, 0];
    assert_eq!(reader_step(4, &string, 0), (Step::Entry { start: 0, length: 5 }, 5));
    assert_eq!(reader_step(4, &string, 5), (Step::Entry { start: 5, length: 5 }, 10));
    assert_eq!(reader_step(4, &string, 10), (Step::Entry { start: 10, length: 5 }, 15));
    assert_eq!(reader_step(4, &string, 15), (Step::End, 15));
    assert_eq!(reader_step(4, &string, 14), (Step::Refused(1), 14));
    assert_eq!(reader_step(9, &string, 0), (Step::Refused(2), 0));
}

#[test]
fn checks_9_1_2_alone_in_that_order() {
    for count in [0, 16, usize::MAX] {
        assert_eq!(reader_step(count, &[], 0), (Step::Refused(9), 0));
        assert_eq!(reader_step(count, &[1], 0), (Step::Refused(9), 0));
    }
    let long = [0u8; 121];
    assert_eq!(reader_step(1, &long, 121), (Step::Refused(9), 121));
    assert_eq!(reader_step(1, &long, usize::MAX), (Step::Refused(9), usize::MAX));
    // "the end (no byte left from its position on, after check 9)"
    for position in [0, 1, 120, usize::MAX] {
        assert_eq!(reader_step(15, &[], position), (Step::End, position));
    }
    // 1 before 2
    assert_eq!(reader_step(1, &[4], 0), (Step::Refused(1), 0));
    assert_eq!(reader_step(1, &[4, 3], 0), (Step::Refused(1), 0));
    assert_eq!(reader_step(1, &[4, 2], 0), (Step::Refused(2), 0));
    // 3 to 7 are no checks of the reader: a step above 3, no memory.
    let ro = [0x12, 7, 0, 0, 0, 0, 9];
    assert_eq!(reader_step(1, &ro, 0), (Step::Entry { start: 0, length: 7 }, 7));
}

/// Over accepted strings the steps are the entries.
#[test]
fn steps_are_the_entries() {
    let mut random = Random(11);
    for _ in 0..500 {
        let (count, rw, ro, _) = random_map(&mut random);
        let list = entries(count, &rw, &ro).unwrap();
        for (string, in_ro) in [(&rw, false), (&ro, true)] {
            let mut reader = Reader { string, position: 0 };
            for entry in list.iter().filter(|e| e.in_ro == in_ro) {
                let wanted = Step::Entry { start: entry.start, length: entry.length };
                assert_eq!(reader.step(count), wanted);
            }
            assert_eq!(reader.step(count), Step::End);
            assert_eq!(reader.position, string.len());
        }
    }
}
