//! The four numbers that an index is loaded with, and the memory that they ask for.

use crate::calls;
use crate::refusal::Refusal;

/// The most rows of an index, and of a list for Pack and Unpack.
pub const MAX_ROWS: u32 = 126_976;
/// The most values of an index.
pub const MAX_VALUES: u32 = 64;
/// The largest threshold.
pub const MAX_THRESHOLD: u32 = 255;
/// The largest fence spacing.
pub const MAX_SPACING: u32 = 256;
/// The byte of a deleted row, in a column for Load and in what Dump writes.
pub const DELETED: u8 = 255;

/// The rows in a group.
pub(crate) const GROUP: u32 = 31;

/// R, d, T and G: what an index is loaded with. Any numbers may be put here; Load refuses those outside their limits.
#[derive(Clone, Copy, PartialEq, Eq, Hash, Debug)]
pub struct Shape {
    /// R, the row capacity: 1 to 126,976.
    pub rows: u32,
    /// d, the number of values: 1 to 64.
    pub values: u32,
    /// T, the most ones of an update list: 1 to 255.
    pub threshold: u32,
    /// G, the groups from a fence to the next: 1 to 256.
    pub spacing: u32,
}

/// How many words and fences an index needs. More may be lent; what is beyond is never written.
#[derive(Clone, Copy, PartialEq, Eq, Hash, Debug)]
pub struct Room {
    /// The words: d x B, where B = 2 + M + 2T + 1 and M is R / 31 rounded up.
    pub words: usize,
    /// The fences: d x F, where F is M / G rounded up.
    pub fences: usize,
}

impl Room {
    /// The room for an index of this shape.
    ///
    /// Cost: a few sums. Refuses: BAD_HEADER.
    ///
    /// ```
    /// # use upbit::{Room, Shape};
    /// let shape = Shape { rows: 62, values: 2, threshold: 1, spacing: 1 };
    /// assert_eq!(Room::of(shape), Ok(Room { words: 14, fences: 4 }));
    /// ```
    pub fn of(shape: Shape) -> Result<Room, Refusal> {
        let room = calls::room_for(shape);
        Refusal::check(room.number)?;
        Ok(Room {
            words: room.words,
            fences: room.fences,
        })
    }
}

/// The groups of so many rows, or of [`MAX_ROWS`] where they are more: as many words as a list of them can have.
pub(crate) fn groups_within_limit(rows: usize) -> usize {
    rows.min(MAX_ROWS as usize).div_ceil(GROUP as usize)
}
