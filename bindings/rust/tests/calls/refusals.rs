//! Each refusal, from each call that gives it, and that it changes nothing.

use crate::support::{loaded, BEYOND_WORD};
use upbit::{
    pack, pack_into, unpack, unpack_into, Header, Index, List, Refusal, Shape, DELETED, MAX_ROWS,
};

const SHAPE: Shape = Shape {
    rows: 62,
    values: 2,
    threshold: 1,
    spacing: 1,
};

/// A call on an index, of which the refusal alone matters.
type Call = fn(&mut Index) -> Result<(), Refusal>;

const COLUMN: [u8; 4] = [0, 1, DELETED, 0];

fn index() -> Index {
    loaded(&COLUMN, SHAPE)
}

fn with_header(change: impl Fn(&mut Header)) -> Index {
    let (mut header, words, fences) = index().into_parts();
    change(&mut header);
    Index::from_parts(header, words, fences)
}

/// An index whose memory was spoiled: value 0's list begins with a fill of no groups.
fn damaged() -> Index {
    let (header, mut words, fences) = index().into_parts();
    words[2] = 0x8000_0000;
    Index::from_parts(header, words, fences)
}

/// That calls on an index refuse in the way named and leave its header and all its memory as they were.
fn all_refuse(mut index: Index, refusal: Refusal, calls: &[Call]) {
    let before = index.clone();
    for call in calls {
        assert_eq!(call(&mut index), Err(refusal));
        assert_eq!(index, before);
    }
}

/// That the calls with an output refuse in the way named and leave all of it as it was.
fn outputs_stay(index: &Index, refusal: Refusal, lengths: (usize, usize)) {
    let mut words = vec![BEYOND_WORD; lengths.0];
    assert_eq!(index.query_into(0, &mut words), Err(refusal));
    assert!(words.iter().all(|&word| word == BEYOND_WORD));
    let mut bytes = vec![77; lengths.1];
    assert_eq!(index.dump_into(&mut bytes), Err(refusal));
    assert!(bytes.iter().all(|&byte| byte == 77));
}

const EVERY_CALL: [Call; 8] = [
    |index| index.insert(0).map(drop),
    |index| index.update(0, 1),
    |index| index.delete(0),
    |index| index.merge(0),
    |index| index.value(0).map(drop),
    |index| index.query(0).map(drop),
    |index| index.dump().map(drop),
    |index| index.audit(),
];

#[test]
fn bad_header() {
    let changes: [fn(&mut Header); 7] = [
        |header| *header = Header::default(),
        |header| header.rows = MAX_ROWS + 1,
        |header| header.issued = header.rows + 1,
        |header| header.values = 65,
        |header| header.threshold = 0,
        |header| header.spacing = u32::MAX,
        |header| header.rows = u32::MAX,
    ];
    for change in changes {
        all_refuse(with_header(change), Refusal::BadHeader, &EVERY_CALL);
        outputs_stay(&with_header(change), Refusal::BadHeader, (2, 4));
    }
    let bad_shape = |index: &mut Index| {
        index.load(
            &COLUMN,
            Shape {
                threshold: 0,
                ..SHAPE
            },
        )
    };
    all_refuse(index(), Refusal::BadHeader, &[bad_shape]);
}

#[test]
fn small() {
    let loading = |index: &mut Index| index.load(&COLUMN, SHAPE);
    for (words_length, fences_length) in [(13, 4), (14, 3), (0, 0)] {
        let (header, mut words, mut fences) = index().into_parts();
        words.truncate(words_length);
        fences.truncate(fences_length);
        let small = Index::from_parts(header, words, fences);
        outputs_stay(&small, Refusal::Small, (2, 4));
        all_refuse(small.clone(), Refusal::Small, &EVERY_CALL);
        all_refuse(small, Refusal::Small, &[loading]);
    }
}

#[test]
fn bad_value() {
    let calls: [Call; 5] = [
        |index| index.insert(2).map(drop),
        |index| index.update(0, 2),
        |index| index.merge(u32::MAX),
        |index| index.query(255).map(drop),
        |index| index.load(&[0, 1, 2], SHAPE),
    ];
    all_refuse(index(), Refusal::BadValue, &calls);
    assert_eq!(pack(&[0, 1, 2]), Err(Refusal::BadValue));
}

#[test]
fn no_row() {
    let calls: [Call; 4] = [
        |index| index.update(4, 0),
        |index| index.delete(4),
        |index| index.value(4).map(drop),
        |index| index.value(u32::MAX).map(drop),
    ];
    all_refuse(index(), Refusal::NoRow, &calls);
}

#[test]
fn full() {
    let calls: [Call; 2] = [
        |index| index.insert(1).map(drop),
        |index| index.load(&[1; 63], SHAPE),
    ];
    all_refuse(loaded(&[0; 62], SHAPE), Refusal::Full, &calls);
    let above = vec![0; MAX_ROWS as usize + 1];
    assert_eq!(pack(&above), Err(Refusal::Full));
    for length in [MAX_ROWS + 1, u32::MAX] {
        let list = List::from_words(vec![0x8000_1001], length);
        assert_eq!(unpack(&list), Err(Refusal::Full));
    }
}

#[test]
fn damage() {
    all_refuse(damaged(), Refusal::Damaged, &EVERY_CALL);
    outputs_stay(&damaged(), Refusal::Damaged, (2, 4));
}

#[test]
fn damage_after_gone() {
    let (header, mut words, fences) = index().into_parts();
    words[3] = 0x8000_0002; // value 0's second word, which no row issued needs
    let mut index = Index::from_parts(header, words, fences);
    assert_eq!(index.merge(0), Err(Refusal::Damaged));
    assert_eq!(index.delete(2), Err(Refusal::Gone));
    assert_eq!(index.delete(0), Err(Refusal::Damaged));
    assert_eq!(index.delete(1), Ok(()));
}

#[test]
fn gone() {
    let calls: [Call; 2] = [|index| index.update(2, 0), |index| index.delete(2)];
    all_refuse(index(), Refusal::Gone, &calls);
}

#[test]
fn out_small() {
    outputs_stay(&index(), Refusal::OutSmall, (1, 3));
    let mut no_word = [];
    assert_eq!(pack_into(&[1], &mut no_word), Err(Refusal::OutSmall));
    let mut bytes = [77; 30];
    let refused = unpack_into(&[0xC000_0001], 31, &mut bytes);
    assert_eq!(refused, Err(Refusal::OutSmall));
    assert_eq!(bytes, [77; 30]);
}

#[test]
fn bad_list() {
    let mut bytes = [77; 31];
    let refused = unpack_into(&[0x7FFF_FFFF], 31, &mut bytes);
    assert_eq!(refused, Err(Refusal::BadList));
    assert_eq!(bytes, [77; 31]);
    let list = List::from_words(vec![1], 30);
    assert_eq!(unpack(&list), Err(Refusal::BadList));
}

#[test]
fn output_past_the_result_stays() {
    let mut words = [BEYOND_WORD; 4];
    assert_eq!(index().query_into(0, &mut words), Ok(2));
    assert_eq!(words, [0x4800_0000, 0x8000_0001, BEYOND_WORD, BEYOND_WORD]);
    let mut bytes = [77; 6];
    assert_eq!(index().dump_into(&mut bytes), Ok(4));
    assert_eq!(bytes, [0, 1, DELETED, 0, 77, 77]);
    assert_eq!(pack_into(&[1; 31], &mut words), Ok(1));
    assert_eq!(words[..2], [0xC000_0001, 0x8000_0001]);
    assert_eq!(unpack_into(&[0xC000_0001], 31, &mut [0; 40]), Ok(31));
}
