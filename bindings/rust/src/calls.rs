//! The calls over slices: the only module with `unsafe`.
//!
//! `include/upbit.h` asks three things of a caller, and slices give them. A slice's pointer is aligned, never null, and
//! has as many elements behind it as its length says. Two slices of which one is `&mut` do not overlap. While a `&mut`
//! lives, no other thread touches the memory, and while a `&` lives, none writes it. The functions are proved to
//! end and to stay inside what they were lent for arbitrary contents, so nothing is asked of words, fences, bytes or
//! numbers.

#![allow(unsafe_code)]

use crate::sys::{self, Answer, Changed, Fence, Header};
use crate::Shape;

pub fn room_for(shape: Shape) -> sys::Room {
    // SAFETY: no memory is lent.
    unsafe { sys::upbit_room_for(shape.rows, shape.values, shape.threshold, shape.spacing) }
}

pub fn load(words: &mut [u32], fences: &mut [Fence], column: &[u8], shape: Shape) -> Changed {
    // SAFETY: each pointer goes with the length of its own slice.
    unsafe {
        sys::upbit_load(
            words.as_mut_ptr(),
            words.len(),
            fences.as_mut_ptr(),
            fences.len(),
            column.as_ptr(),
            column.len(),
            shape.rows,
            shape.values,
            shape.threshold,
            shape.spacing,
        )
    }
}

pub fn insert(words: &mut [u32], fences: &mut [Fence], header: Header, value: u32) -> Changed {
    let (words, words_length) = (words.as_mut_ptr(), words.len());
    let (fences, fences_length) = (fences.as_mut_ptr(), fences.len());
    // SAFETY: each pointer goes with the length of its own slice.
    unsafe { sys::upbit_insert(words, words_length, fences, fences_length, header, value) }
}

pub fn update(
    words: &mut [u32],
    fences: &mut [Fence],
    header: Header,
    row: u32,
    value: u32,
) -> Changed {
    let (words, words_length) = (words.as_mut_ptr(), words.len());
    let (fences, fences_length) = (fences.as_mut_ptr(), fences.len());
    // SAFETY: each pointer goes with the length of its own slice.
    unsafe {
        sys::upbit_update(
            words,
            words_length,
            fences,
            fences_length,
            header,
            row,
            value,
        )
    }
}

pub fn delete(words: &mut [u32], fences: &mut [Fence], header: Header, row: u32) -> Changed {
    let (words, words_length) = (words.as_mut_ptr(), words.len());
    let (fences, fences_length) = (fences.as_mut_ptr(), fences.len());
    // SAFETY: each pointer goes with the length of its own slice.
    unsafe { sys::upbit_delete(words, words_length, fences, fences_length, header, row) }
}

pub fn merge(words: &mut [u32], fences: &mut [Fence], header: Header, value: u32) -> Changed {
    let (words, words_length) = (words.as_mut_ptr(), words.len());
    let (fences, fences_length) = (fences.as_mut_ptr(), fences.len());
    // SAFETY: each pointer goes with the length of its own slice.
    unsafe { sys::upbit_merge(words, words_length, fences, fences_length, header, value) }
}

pub fn value(words: &[u32], fences: &[Fence], header: Header, row: u32) -> sys::Row {
    let (words, words_length) = (words.as_ptr(), words.len());
    let (fences, fences_length) = (fences.as_ptr(), fences.len());
    // SAFETY: each pointer goes with the length of its own slice.
    unsafe { sys::upbit_value(words, words_length, fences, fences_length, header, row) }
}

pub fn query(
    words: &[u32],
    fences: &[Fence],
    out: &mut [u32],
    header: Header,
    value: u32,
) -> Answer {
    // SAFETY: each pointer goes with the length of its own slice.
    unsafe {
        sys::upbit_query(
            words.as_ptr(),
            words.len(),
            fences.as_ptr(),
            fences.len(),
            out.as_mut_ptr(),
            out.len(),
            header,
            value,
        )
    }
}

pub fn dump(words: &[u32], fences: &[Fence], out: &mut [u8], header: Header) -> Answer {
    // SAFETY: each pointer goes with the length of its own slice.
    unsafe {
        sys::upbit_dump(
            words.as_ptr(),
            words.len(),
            fences.as_ptr(),
            fences.len(),
            out.as_mut_ptr(),
            out.len(),
            header,
        )
    }
}

pub fn audit(words: &[u32], fences: &[Fence], header: Header) -> Answer {
    let (words, words_length) = (words.as_ptr(), words.len());
    let (fences, fences_length) = (fences.as_ptr(), fences.len());
    // SAFETY: each pointer goes with the length of its own slice.
    unsafe { sys::upbit_audit(words, words_length, fences, fences_length, header) }
}

pub fn pack(rows: &[u8], out: &mut [u32]) -> Answer {
    // SAFETY: each pointer goes with the length of its own slice.
    unsafe { sys::upbit_pack(rows.as_ptr(), rows.len(), out.as_mut_ptr(), out.len()) }
}

pub fn unpack(list: &[u32], out: &mut [u8], length: usize) -> Answer {
    let (list, list_length) = (list.as_ptr(), list.len());
    let (out, out_length) = (out.as_mut_ptr(), out.len());
    // SAFETY: each pointer goes with the length of its own slice.
    unsafe { sys::upbit_unpack(list, list_length, out, out_length, length) }
}
