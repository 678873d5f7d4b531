//! The rows of a list: of canonical lists, and of arbitrary words.

use crate::support::Generator;
use upbit::{pack, List};

/// The rows by document 01's words, one group after the other.
fn rows_one_by_one(words: &[u32], length: u32) -> Vec<u32> {
    let mut rows = Vec::new();
    let mut next = 0;
    for &word in words {
        let (group, times) = match word >> 30 {
            0 | 1 => (word, 1),
            2 => (0, word & 0x3FFF_FFFF),
            _ => (0x7FFF_FFFF, word & 0x3FFF_FFFF),
        };
        let end = (u64::from(next) + 31 * u64::from(times)).min(length.into()) as u32;
        let holds = |row: &u32| group >> (30 - (row - next) % 31) & 1 == 1;
        rows.extend((next..end).filter(holds));
        next = end;
    }
    rows
}

/// That the rows are these, and that the rest is announced exactly at each.
fn gives(list: &List, expected: &[u32]) {
    let mut rows = list.rows();
    for (given, row) in expected.iter().enumerate() {
        let left = expected.len() - given;
        assert_eq!(rows.size_hint(), (left, Some(left)));
        assert_eq!(rows.next(), Some(*row));
    }
    assert_eq!(rows.size_hint(), (0, Some(0)));
    assert_eq!((rows.next(), rows.next()), (None, None));
}

/// Literals, short fills, and now and then a fill of no groups or of very many.
fn any_word(generator: &mut Generator) -> u32 {
    match generator.below(12) {
        0..=5 => generator.word() & 0x7FFF_FFFF,
        6..=9 => 0x8000_0000 | (generator.word() & 0x4000_0003),
        10 => 0x8000_0000 | generator.below(2) << 30,
        _ => generator.word() | 0x8000_0000,
    }
}

#[test]
fn of_canonical_lists() {
    let mut generator = Generator::new(3);
    for _ in 0..300 {
        let length = generator.below(400);
        let density = 1 + generator.below(40);
        let bytes: Vec<u8> = (0..length)
            .map(|row| u8::from((row + generator.below(2)) % density < 2))
            .collect();
        let expected: Vec<u32> = (0..length)
            .filter(|&row| bytes[row as usize] == 1)
            .collect();
        gives(&pack(&bytes).expect("bytes of 0 and 1"), &expected);
    }
}

#[test]
fn of_arbitrary_words() {
    let mut generator = Generator::new(4);
    for _ in 0..2000 {
        let count = generator.below(12);
        let words: Vec<u32> = (0..count).map(|_| any_word(&mut generator)).collect();
        let length = generator.below(500);
        let expected = rows_one_by_one(&words, length);
        gives(&List::from_words(words, length), &expected);
    }
}

#[test]
fn of_the_longest_fills() {
    let ones = List::from_words(vec![0xFFFF_FFFF; 8], u32::MAX);
    assert_eq!(ones.rows().len(), u32::MAX as usize);
    assert_eq!(ones.rows().next(), Some(0));
    let covered_by_zeros = List::from_words(vec![0xBFFF_FFFF, 0xFFFF_FFFF], 31 * 0x03FF_FFFF);
    gives(&covered_by_zeros, &[]);
    let nothing = List::from_words(vec![0x8000_0000; 1000], u32::MAX);
    gives(&nothing, &[]);
    let no_length = List::from_words(vec![0xFFFF_FFFF, 1], 0);
    gives(&no_length, &[]);
}
