//! The declarations of `include/upbit.h`, as they stand there.

use std::mem::{align_of, offset_of, size_of};

/// The header of an index, a plain value. A header of zeros, the default, is no index's: every call refuses it.
#[repr(C)]
#[derive(Clone, Copy, PartialEq, Eq, Hash, Debug, Default)]
pub struct Header {
    /// R, the row capacity: 1 to 126,976.
    pub rows: u32,
    /// n, the rows issued: 0 to R.
    pub issued: u32,
    /// d, the number of values: 1 to 64.
    pub values: u32,
    /// T, the most ones of an update list: 1 to 255.
    pub threshold: u32,
    /// G, the groups from a fence to the next: 1 to 256.
    pub spacing: u32,
}

/// A fence of a value list.
#[repr(C)]
#[derive(Clone, Copy, PartialEq, Eq, Hash, Debug, Default)]
pub struct Fence {
    /// The place within the value list of the word that covers the fence's group.
    pub place: u32,
    /// The first group which that word covers.
    pub first: u32,
}

#[repr(C)]
#[derive(Clone, Copy)]
pub struct Answer {
    pub number: u32,
    pub count: usize,
}

#[repr(C)]
#[derive(Clone, Copy)]
pub struct Changed {
    pub header: Header,
    pub answer: Answer,
}

#[repr(C)]
#[derive(Clone, Copy)]
pub struct Row {
    pub number: u32,
    pub live: u32,
    pub value: u32,
    pub opened: usize,
}

#[repr(C)]
#[derive(Clone, Copy)]
pub struct Room {
    pub number: u32,
    pub words: usize,
    pub fences: usize,
}

// The layout that the static library was made for (x86-64).
const _: () = {
    assert!(size_of::<Header>() == 20 && align_of::<Header>() == 4);
    assert!(offset_of!(Header, rows) == 0 && offset_of!(Header, issued) == 4);
    assert!(offset_of!(Header, values) == 8 && offset_of!(Header, threshold) == 12);
    assert!(offset_of!(Header, spacing) == 16);

    assert!(size_of::<Fence>() == 8 && align_of::<Fence>() == 4);
    assert!(offset_of!(Fence, place) == 0 && offset_of!(Fence, first) == 4);

    assert!(size_of::<Answer>() == 16 && align_of::<Answer>() == 8);
    assert!(offset_of!(Answer, number) == 0 && offset_of!(Answer, count) == 8);

    assert!(size_of::<Changed>() == 40 && align_of::<Changed>() == 8);
    assert!(offset_of!(Changed, header) == 0 && offset_of!(Changed, answer) == 24);

    assert!(size_of::<Row>() == 24 && align_of::<Row>() == 8);
    assert!(offset_of!(Row, number) == 0 && offset_of!(Row, live) == 4);
    assert!(offset_of!(Row, value) == 8 && offset_of!(Row, opened) == 16);

    assert!(size_of::<Room>() == 24 && align_of::<Room>() == 8);
    assert!(offset_of!(Room, number) == 0 && offset_of!(Room, words) == 8);
    assert!(offset_of!(Room, fences) == 16);
};

extern "C" {
    pub fn upbit_room_for(rows: u32, values: u32, threshold: u32, spacing: u32) -> Room;

    pub fn upbit_load(
        words: *mut u32,
        words_length: usize,
        fences: *mut Fence,
        fences_length: usize,
        column: *const u8,
        column_length: usize,
        rows: u32,
        values: u32,
        threshold: u32,
        spacing: u32,
    ) -> Changed;

    pub fn upbit_insert(
        words: *mut u32,
        words_length: usize,
        fences: *mut Fence,
        fences_length: usize,
        header: Header,
        value: u32,
    ) -> Changed;

    pub fn upbit_update(
        words: *mut u32,
        words_length: usize,
        fences: *mut Fence,
        fences_length: usize,
        header: Header,
        row: u32,
        value: u32,
    ) -> Changed;

    pub fn upbit_delete(
        words: *mut u32,
        words_length: usize,
        fences: *mut Fence,
        fences_length: usize,
        header: Header,
        row: u32,
    ) -> Changed;

    pub fn upbit_merge(
        words: *mut u32,
        words_length: usize,
        fences: *mut Fence,
        fences_length: usize,
        header: Header,
        value: u32,
    ) -> Changed;

    pub fn upbit_value(
        words: *const u32,
        words_length: usize,
        fences: *const Fence,
        fences_length: usize,
        header: Header,
        row: u32,
    ) -> Row;

    pub fn upbit_query(
        words: *const u32,
        words_length: usize,
        fences: *const Fence,
        fences_length: usize,
        out: *mut u32,
        out_length: usize,
        header: Header,
        value: u32,
    ) -> Answer;

    pub fn upbit_dump(
        words: *const u32,
        words_length: usize,
        fences: *const Fence,
        fences_length: usize,
        out: *mut u8,
        out_length: usize,
        header: Header,
    ) -> Answer;

    pub fn upbit_audit(
        words: *const u32,
        words_length: usize,
        fences: *const Fence,
        fences_length: usize,
        header: Header,
    ) -> Answer;

    pub fn upbit_pack(
        rows: *const u8,
        rows_length: usize,
        out: *mut u32,
        out_length: usize,
    ) -> Answer;

    pub fn upbit_unpack(
        list: *const u32,
        list_length: usize,
        out: *mut u8,
        out_length: usize,
        length: usize,
    ) -> Answer;
}
