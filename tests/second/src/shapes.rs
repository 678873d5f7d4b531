//! Random headers and columns.

use crate::header::Header;
use crate::queries::DELETED;
use crate::rng::Rng;

/// Sizes at the edges of groups.
const EDGES: [u32; 21] = [
    1, 2, 29, 30, 31, 32, 33, 61, 62, 63, 92, 93, 94, 123, 124, 125, 154, 155, 156, 310, 311,
];

/// Sizes near the most rows.
const LARGE: [u32; 8] = [
    126_976, 126_976, 126_975, 126_946, 126_945, 63_488, 100_000, 31_745,
];

pub fn shape(rows: usize, values: usize, threshold: usize, spacing: usize) -> Header {
    Header {
        rows: rows as u32,
        issued: 0,
        values: values as u32,
        threshold: threshold as u32,
        spacing: spacing as u32,
    }
}

/// A shape whose whole memory can be looked at after each call.
pub fn small_shape(rng: &mut Rng) -> Header {
    let rows = match rng.chance(70) {
        true => rng.pick(&EDGES) as usize,
        false => rng.between(1, 700),
    };
    let values = match rng.below(20) {
        0 => 64,
        1 => rng.between(1, 64),
        _ => rng.pick(&[1, 2, 2, 3, 3, 4, 5, 8]),
    };
    shape(rows, values, small_threshold(rng), small_spacing(rng))
}

fn small_threshold(rng: &mut Rng) -> usize {
    match rng.below(25) {
        0 => 255,
        1 => rng.between(1, 255),
        _ => rng.pick(&[1, 1, 1, 2, 2, 3, 4, 8]),
    }
}

fn small_spacing(rng: &mut Rng) -> usize {
    match rng.below(12) {
        0 => 256,
        1 => rng.between(1, 256),
        _ => rng.pick(&[1, 1, 2, 2, 3, 4, 5, 8]),
    }
}

/// A shape of some thousand rows.
pub fn middle_shape(rng: &mut Rng) -> Header {
    let rows = rng.between(700, 6_000);
    let values = rng.between(1, 6);
    let threshold = rng.pick(&[1, 2, 5, 20, 100, 255]);
    let spacing = rng.pick(&[1, 2, 7, 16, 31, 64, 256]);
    shape(rows, values, threshold, spacing)
}

/// A shape near the limits.
pub fn large_shape(rng: &mut Rng) -> Header {
    let rows = rng.pick(&LARGE) as usize;
    let values = rng.pick(&[1, 2, 3, 8, 16, 63, 64]);
    let threshold = rng.pick(&[1, 2, 16, 100, 254, 255]);
    let spacing = rng.pick(&[1, 1, 2, 4, 16, 17, 32, 64, 255, 256]);
    shape(rows, values, threshold, spacing)
}

/// A shape with one number at or past a limit.
pub fn odd_shape(rng: &mut Rng) -> Header {
    let mut odd = small_shape(rng);
    match rng.below(4) {
        0 => odd.rows = rng.pick(&[0, 1, 126_976, 126_977, 126_978, 1 << 31, u32::MAX]),
        1 => odd.values = rng.pick(&[0, 1, 64, 65, 66, 255, 256, 1 << 16, u32::MAX]),
        2 => odd.threshold = rng.pick(&[0, 1, 255, 256, 257, 1 << 31, u32::MAX]),
        _ => odd.spacing = rng.pick(&[0, 1, 256, 257, 258, 512, u32::MAX]),
    }
    odd
}

/// Rows issued at the load.
pub fn issued(rng: &mut Rng, rows: usize) -> usize {
    match rng.below(8) {
        0 => 0,
        1 | 2 => rows,
        3 => rows.saturating_sub(rng.between(0, 3)),
        _ => rng.between(0, rows),
    }
}

/// A column of bytes below `values`, or 255.
pub fn column(rng: &mut Rng, count: usize, values: usize) -> Vec<u8> {
    match rng.below(5) {
        0 => uniform(rng, count, values),
        1 => skewed(rng, count, values),
        2 => sorted(rng, count, values),
        _ => clustered(rng, count, values),
    }
}

fn any_byte(rng: &mut Rng, values: usize, deleted: usize) -> u8 {
    match rng.chance(deleted) {
        true => DELETED,
        false => rng.below(values) as u8,
    }
}

fn uniform(rng: &mut Rng, count: usize, values: usize) -> Vec<u8> {
    let deleted = rng.pick(&[0, 0, 5, 30]);
    let bytes = (0..count).map(|_| any_byte(rng, values, deleted));
    bytes.collect()
}

/// One value in nearly all rows.
fn skewed(rng: &mut Rng, count: usize, values: usize) -> Vec<u8> {
    let usual = any_byte(rng, values, 10);
    let other = rng.pick(&[0, 1, 3, 10]);
    let bytes = (0..count).map(|_| match rng.chance(other) {
        true => any_byte(rng, values, 10),
        false => usual,
    });
    bytes.collect()
}

/// Each value in one run.
fn sorted(rng: &mut Rng, count: usize, values: usize) -> Vec<u8> {
    let mut bytes = uniform(rng, count, values);
    bytes.sort_unstable();
    bytes
}

/// Runs of one value; the longest run is some groups.
fn clustered(rng: &mut Rng, count: usize, values: usize) -> Vec<u8> {
    let longest = rng.pick(&[5, 40, 70, 200, 1_000]);
    let mut bytes = Vec::with_capacity(count + longest);
    while bytes.len() < count {
        let byte = any_byte(rng, values, 10);
        let run = rng.between(1, longest);
        bytes.extend(std::iter::repeat_n(byte, run));
    }
    bytes.truncate(count);
    bytes
}
