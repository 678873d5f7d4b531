//! Document 01's numbers to check by hand, against the model; and what it says of walks and checks.

use crate::console::Console;
use crate::fault::Fault;
use crate::printing::print;
use crate::rows::{decode, encode, GROUP};

/// A console that has answered each line as written beside it.
fn console(lines: &[(&str, &str)]) -> Console {
    let mut console = Console::new(Fault::None);
    for (line, expected) in lines {
        let answer = console.answer(line);
        assert_eq!(answer.as_deref(), Some(*expected), "{line}");
    }
    console
}

/// Rows from runs of 0 and 1.
fn runs(runs: &[(usize, bool)]) -> Vec<bool> {
    let each = runs.iter();
    each.flat_map(|&(count, row)| std::iter::repeat_n(row, count))
        .collect()
}

fn packs(rows: &[bool], list: &[u32]) {
    assert_eq!(encode(rows), list);
    assert_eq!(decode(list, rows.len()).as_deref(), Some(rows));
}

#[test]
fn lists() {
    packs(&[], &[]);
    packs(&[true; 30], &[0x7fff_fffe]);
    packs(&[true; 31], &[0xc000_0001]);
    packs(&[true; 62], &[0xc000_0002]);
    packs(&[false; 32], &[0x8000_0002]);
    let row_40 = runs(&[(40, false), (1, true), (52, false)]);
    packs(&row_40, &[0x8000_0001, 0x0020_0000, 0x8000_0001]);
    let figure = runs(&[(1, true), (20, false), (4, true), (78, false), (30, true)]);
    packs(
        &figure,
        &[0x4000_03c0, 0x8000_0002, 0x001f_ffff, 0x7fc0_0000],
    );
}

#[test]
fn lists_that_are_not_canonical() {
    assert_eq!(decode(&[0], 31), None, "a literal of zeros");
    assert_eq!(decode(&[0x7fff_ffff], 31), None, "a literal of ones");
    assert_eq!(decode(&[0x8000_0001, 0x8000_0001], 62), None, "split fill");
    assert_eq!(decode(&[0x8000_0000, 1], 31), None, "a fill that counts 0");
    assert_eq!(decode(&[0xc000_0001], 30), None, "a bit past the last row");
    assert_eq!(decode(&[0x8000_0002], 31), None, "a group too many");
    assert_eq!(decode(&[0x8000_0001], 62), None, "a group too few");
    assert_eq!(decode(&[0x8000_0001], 0), None, "a word for no rows");
}

/// A list with k ones never needs more than 2k + 1 words, and some need as many.
#[test]
fn words_for_ones() {
    for ones in 0..6 {
        let mut rows = vec![false; GROUP * (2 * ones + 1)];
        for nth in 0..ones {
            rows[GROUP * (2 * nth + 1)] = true;
        }
        assert_eq!(encode(&rows).len(), 2 * ones + 1);
    }
}

#[test]
fn three_values() {
    console(&[
        ("load 31 3 1 1 2 1 2 0 1 0 2 1", "0 loaded 8"),
        ("query 0", "0 0a000000"),
        ("query 1", "0 24800000"),
        ("query 2", "0 51000000"),
        ("update 1 0", "0"),
        ("query 0", "0 2a000000"),
        ("query 1", "0 04800000"),
    ]);
}

#[test]
fn example_of_the_printing_program() {
    let printed = "004800000080000001\n012000000080000001\n";
    assert_eq!(print(b"0000003e020100010001ff00", Fault::None), printed);
    assert_eq!(print(b"0000003e020100010001ff00\n", Fault::None), printed);
    assert_eq!(print(b"0000003e020100010001ff0\n", Fault::None), "ff0a\n");
    console(&[
        ("load 62 2 1 1 0 1 255 0", "0 loaded 4"),
        ("update 0 1", "0"),
        ("query 0", "0 08000000 80000001"),
        ("value 0", "0 live 1 opened 4"),
        ("update 3 1", "0"),
        ("query 0", "0 80000002"),
        ("query 1", "0 68000000 80000001"),
        ("delete 2", "7 GONE"),
        ("value 4", "4 NO_ROW"),
        ("insert 0", "0 row 4"),
        ("query 0", "0 04000000 80000001"),
        ("dump", "0 1 1 - 1 0"),
        ("audit", "0"),
    ]);
}

#[test]
fn place_of_a_row() {
    assert_eq!((62_073 / GROUP, 62_073 % GROUP), (2_002, 11));
}

#[test]
fn limits_of_the_header() {
    console(&[
        ("value 0", "1 BAD_HEADER"),
        ("load 126976 1 1 1", "0 loaded 0"),
        ("update 0 0", "4 NO_ROW"),
        ("load 126977 1 1 1", "1 BAD_HEADER"),
        ("load 0 1 1 1", "1 BAD_HEADER"),
        ("load 31 1 0 1", "1 BAD_HEADER"),
        ("load 31 1 256 1", "1 BAD_HEADER"),
        ("load 31 1 1 0", "1 BAD_HEADER"),
        ("load 31 1 1 257", "1 BAD_HEADER"),
        ("load 31 0 1 1", "1 BAD_HEADER"),
        ("load 31 65 1 1", "1 BAD_HEADER"),
        ("query 0", "0 80001000"),
        ("load 31 64 255 256", "0 loaded 0"),
    ]);
}

/// The memory of a small load, word for word: M = 2, T = 1, B = 7, F = 2.
#[test]
fn memory_of_an_index() {
    let mut console = console(&[
        ("load 62 2 1 1 0 1 255 0", "0 loaded 4"),
        ("peekfence 0 5", "0 0:0 1:1 0:0 1:1 0:0"),
    ]);
    let block =
        |literal: &str| format!("00000002 00000001 {literal} 80000001 80000002 00000000 00000000");
    let expected = format!("0 {} {} 00000000", block("48000000"), block("20000000"));
    assert_eq!(console.answer("peek 0 15"), Some(expected));
}

/// A fence that leads to the group by more than G words is damage, by G words it is not.
#[test]
fn walks_of_more_than_g_words() {
    let rows: Vec<&str> = (0..124)
        .map(|row| if row % 31 == 0 { "0" } else { "1" })
        .collect();
    let load = format!("load 124 2 1 2 {}", rows.join(" "));
    console(&[
        (&load, "0 loaded 124"),
        ("peekfence 0 4", "0 0:0 2:2 0:0 2:2"),
        ("value 93", "0 live 0 opened 6"),
        ("pokefence 1 1 1", "0"),
        ("value 62", "0 live 0 opened 5"),
        ("value 93", "6 DAMAGED"),
        ("audit", "6 DAMAGED"),
        ("merge 0", "0"),
        ("audit", "0"),
    ]);
}

/// The lowest number is given, except that the whole check comes after GONE.
#[test]
fn order_of_refusals() {
    console(&[
        ("load 62 2 1 1 0 1 255 0", "0 loaded 4"),
        ("poke 2 00000000", "0"),
        ("value 0", "0 deleted opened 4"),
        ("update 2 0", "7 GONE"),
        ("update 1 0", "6 DAMAGED"),
        ("update 1 1", "0"),
        ("delete 1", "0"),
        ("query 0", "6 DAMAGED"),
        ("room 0", "0"),
        ("query 0", "6 DAMAGED"),
        ("query 1", "8 OUT_SMALL"),
        ("query 2", "3 BAD_VALUE"),
        ("update 9 2", "3 BAD_VALUE"),
        ("lend 13 4", "0"),
        ("update 9 2", "2 SMALL"),
        ("load 62 2 1 1 9", "2 SMALL"),
        ("lend 14 4", "0"),
        ("load 1 2 1 1 0 0 9", "3 BAD_VALUE"),
        ("load 1 2 1 1 0 0", "5 FULL"),
        ("pack 012", "3 BAD_VALUE"),
        ("pack 01", "8 OUT_SMALL"),
        ("unpack 126977 00000000", "5 FULL"),
        ("unpack 31 00000000", "8 OUT_SMALL"),
        ("room 31", "0"),
        ("unpack 31 00000000", "9 BAD_LIST"),
    ]);
}
