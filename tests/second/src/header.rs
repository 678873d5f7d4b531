//! The header of an index and the sizes that follow from it: "Memory of an index".

use crate::rows::{groups_of, MOST_ROWS};

#[derive(Clone, Copy, PartialEq, Eq, Debug, Default)]
pub struct Header {
    /// R
    pub rows: u32,
    /// n
    pub issued: u32,
    /// d
    pub values: u32,
    /// T
    pub threshold: u32,
    /// G
    pub spacing: u32,
}

impl Header {
    /// R, d, T and G are within their limits. The sizes below are asked of such a header only.
    pub fn shape_allowed(&self) -> bool {
        (1..=MOST_ROWS as u32).contains(&self.rows)
            && (1..=64).contains(&self.values)
            && (1..=255).contains(&self.threshold)
            && (1..=256).contains(&self.spacing)
    }

    pub fn allowed(&self) -> bool {
        self.shape_allowed() && self.issued <= self.rows
    }

    /// M
    pub fn groups(&self) -> usize {
        groups_of(self.rows as usize)
    }

    /// Words for an update list.
    pub fn update_room(&self) -> usize {
        2 * self.threshold as usize + 1
    }

    /// B
    pub fn block(&self) -> usize {
        2 + self.groups() + self.update_room()
    }

    /// F
    pub fn fences_each(&self) -> usize {
        self.groups().div_ceil(self.spacing as usize)
    }

    pub fn words_needed(&self) -> usize {
        self.values as usize * self.block()
    }

    pub fn fences_needed(&self) -> usize {
        self.values as usize * self.fences_each()
    }
}
