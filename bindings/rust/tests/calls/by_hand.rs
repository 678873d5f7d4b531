//! Document 01's numbers to check by hand, as far as they are calls.

use upbit::{pack, unpack, Index, Refusal, Room, Row, RowState, Shape, DELETED, MAX_ROWS};

fn packed(rows: &[u8]) -> Vec<u32> {
    let list = pack(rows).expect("rows of 0 and 1");
    assert_eq!(unpack(&list).expect("a canonical list"), rows);
    list.into_words()
}

/// So many zeros, and a one at one of them.
fn one_at(row: usize, length: usize) -> Vec<u8> {
    let mut rows = vec![0; length];
    rows[row] = 1;
    rows
}

fn queried(index: &Index, value: u32) -> Vec<u32> {
    index.query(value).expect("a sound index").into_words()
}

#[test]
fn short_lists() {
    assert_eq!(packed(&[]), []);
    assert_eq!(packed(&[1; 30]), [0x7FFF_FFFE]);
    assert_eq!(packed(&[1; 31]), [0xC000_0001]);
    assert_eq!(packed(&[1; 62]), [0xC000_0002]);
    assert_eq!(packed(&[0; 32]), [0x8000_0002]);
}

#[test]
fn three_words_for_a_single_one() {
    let list = packed(&one_at(40, 93));
    assert_eq!(list, [0x8000_0001, 0x0020_0000, 0x8000_0001]);
}

#[test]
fn rows_133_of_document_004() {
    let runs = [(1, 1), (0, 20), (1, 4), (0, 78), (1, 30)];
    let rows: Vec<u8> = runs
        .iter()
        .flat_map(|&(bit, times)| vec![bit; times])
        .collect();
    let list = packed(&rows);
    assert_eq!(list, [0x4000_03C0, 0x8000_0002, 0x001F_FFFF, 0x7FC0_0000]);
}

#[test]
fn row_62073_is_in_group_2002_at_offset_11() {
    let list = packed(&one_at(62_073, MAX_ROWS as usize));
    let groups_after = 4096 - 2003;
    assert_eq!(
        list,
        [
            0x8000_0000 + 2002,
            1 << (30 - 11),
            0x8000_0000 + groups_after
        ]
    );
}

#[test]
fn three_values_in_31_rows() {
    let shape = Shape {
        rows: 31,
        values: 3,
        threshold: 1,
        spacing: 1,
    };
    let mut index = Index::of_column(&[2, 1, 2, 0, 1, 0, 2, 1], shape).expect("a load");
    assert_eq!(queried(&index, 0), [0x0A00_0000]);
    assert_eq!(queried(&index, 1), [0x2480_0000]);
    assert_eq!(queried(&index, 2), [0x5100_0000]);
    index.update(1, 0).expect("an update");
    assert_eq!(queried(&index, 0), [0x2A00_0000]);
    assert_eq!(queried(&index, 1), [0x0480_0000]);
}

#[test]
fn example_of_the_printing_program() {
    let shape = Shape {
        rows: 62,
        values: 2,
        threshold: 1,
        spacing: 1,
    };
    let mut index = Index::of_column(&[0, 1, DELETED, 0], shape).expect("a load");
    assert_eq!(queried(&index, 0), [0x4800_0000, 0x8000_0001]);
    assert_eq!(queried(&index, 1), [0x2000_0000, 0x8000_0001]);

    index.update(0, 1).expect("an update");
    assert_eq!(queried(&index, 0), [0x0800_0000, 0x8000_0001]);
    let row = Row {
        state: RowState::Live(1),
        opened: 4,
    };
    assert_eq!(index.value(0), Ok(row));

    index.update(3, 1).expect("an update that merges");
    assert_eq!(queried(&index, 0), [0x8000_0002]);
    assert_eq!(queried(&index, 1), [0x6800_0000, 0x8000_0001]);
    assert_eq!(index.delete(2), Err(Refusal::Gone));
    assert_eq!(index.value(4), Err(Refusal::NoRow));

    assert_eq!(index.insert(0), Ok(4));
    assert_eq!(queried(&index, 0), [0x0400_0000, 0x8000_0001]);
    assert_eq!(index.dump(), Ok(vec![1, 1, DELETED, 1, 0]));
    assert_eq!(index.audit(), Ok(()));
}

#[test]
fn limits_of_the_shape() {
    let allowed = |rows, values, threshold, spacing| {
        let shape = Shape {
            rows,
            values,
            threshold,
            spacing,
        };
        let room = Room::of(shape).map(drop);
        assert_eq!(Index::of_column(&[], shape).map(drop), room);
        room
    };
    assert_eq!(allowed(126_976, 64, 255, 256), Ok(()));
    assert_eq!(allowed(1, 1, 1, 1), Ok(()));
    let outside = [
        (126_977, 1, 1, 1),
        (0, 1, 1, 1),
        (1, 0, 1, 1),
        (1, 65, 1, 1),
        (1, 1, 0, 1),
        (1, 1, 256, 1),
        (1, 1, 1, 0),
        (1, 1, 1, 257),
    ];
    for (rows, values, threshold, spacing) in outside {
        let refused = allowed(rows, values, threshold, spacing);
        assert_eq!(refused, Err(Refusal::BadHeader));
    }
}

#[test]
fn update_of_no_rows() {
    let shape = Shape {
        rows: 31,
        values: 1,
        threshold: 1,
        spacing: 1,
    };
    let mut index = Index::of_column(&[], shape).expect("a load");
    assert_eq!(index.update(0, 0), Err(Refusal::NoRow));
}
