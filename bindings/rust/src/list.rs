//! Packed lists, and the rows in them.

use std::iter::{Flatten, FusedIterator};
use std::ops::Range;
use std::slice;

use crate::calls;
use crate::refusal::Refusal;
use crate::shape::{groups_within_limit, GROUP, MAX_ROWS};

/// Bit 31 of a word: it is a fill.
const FILL: u32 = 1 << 31;
/// Bit 30 of a fill: the bit of its rows.
const FILL_BIT: u32 = 1 << 30;
/// Bits 29 to 0 of a fill: the number of its groups.
const FILL_COUNT: u32 = FILL_BIT - 1;

/// A packed list of rows that owns its words.
///
/// Row r is bit 30 - (r mod 31) of group r div 31. A word is a literal, which holds one group, or a fill: bit 31 set,
/// bit 30 the bit of its rows, bits 29 to 0 the number of its groups.
#[derive(Clone, PartialEq, Eq, Hash, Debug)]
pub struct List {
    words: Vec<u32>,
    length: u32,
}

impl List {
    /// Takes any words for a list that covers so many rows. It need not be canonical: [`unpack`] tells.
    pub fn from_words(words: Vec<u32>, length: u32) -> List {
        List { words, length }
    }

    /// The words of the list.
    pub fn words(&self) -> &[u32] {
        &self.words
    }

    /// The words of the list, given away.
    pub fn into_words(self) -> Vec<u32> {
        self.words
    }

    /// How many rows the list covers, whether they are in it or not; for a Query the capacity R.
    pub fn length(&self) -> u32 {
        self.length
    }

    /// The rows in the list, ascending. `rows().len()` is how many they are.
    ///
    /// Of words that are no canonical list for its length, it takes what they say of rows below the length: a fill of
    /// no groups says nothing, rows that no word covers are not in the list.
    ///
    /// Cost: each word twice, and each row given once.
    pub fn rows(&self) -> Rows<'_> {
        let runs = Runs {
            words: self.words.iter(),
            next_row: 0,
            length: self.length,
        };
        Rows {
            left: runs.clone().map(|run| run.rows_left()).sum(),
            rows: runs.flatten(),
        }
    }
}

impl<'list> IntoIterator for &'list List {
    type Item = u32;
    type IntoIter = Rows<'list>;

    fn into_iter(self) -> Rows<'list> {
        self.rows()
    }
}

/// The rows of a [`List`], ascending.
#[derive(Clone, Debug)]
pub struct Rows<'list> {
    rows: Flatten<Runs<'list>>,
    left: usize,
}

impl Iterator for Rows<'_> {
    type Item = u32;

    fn next(&mut self) -> Option<u32> {
        let row = self.rows.next()?;
        self.left -= 1;
        Some(row)
    }

    fn size_hint(&self) -> (usize, Option<usize>) {
        (self.left, Some(self.left))
    }
}

impl ExactSizeIterator for Rows<'_> {}
impl FusedIterator for Rows<'_> {}

/// What each word of a list says of rows below the list's length, until that is reached.
#[derive(Clone, Debug)]
struct Runs<'list> {
    words: slice::Iter<'list, u32>,
    next_row: u32,
    length: u32,
}

impl Iterator for Runs<'_> {
    type Item = Run;

    fn next(&mut self) -> Option<Run> {
        if self.next_row == self.length {
            return None;
        }
        let word = *self.words.next()?;
        let groups = if word & FILL == 0 {
            1
        } else {
            word & FILL_COUNT
        };
        let first = self.next_row;
        let end = groups.saturating_mul(GROUP).saturating_add(first);
        self.next_row = end.min(self.length);
        Some(Run::of_word(word, first..self.next_row))
    }
}

/// The rows that one word puts in a list, as far as they are not yet given.
#[derive(Clone, Debug)]
enum Run {
    /// All of these; none for a fill of zeros.
    Ones(Range<u32>),
    /// Those of a group that begins at row `first`, which is bit 30; `bits` has the rows not yet given.
    Literal { first: u32, bits: u32 },
}

impl Run {
    /// What a word says of the rows that it covers, less those past the list's length.
    fn of_word(word: u32, covered: Range<u32>) -> Run {
        if word & FILL == 0 {
            let past_length = GROUP - (covered.end - covered.start);
            let bits = word >> past_length << past_length;
            let first = covered.start;
            return Run::Literal { first, bits };
        }
        match word & FILL_BIT {
            0 => Run::Ones(covered.start..covered.start),
            _ => Run::Ones(covered),
        }
    }

    fn rows_left(&self) -> usize {
        match self {
            Run::Ones(rows) => rows.len(),
            Run::Literal { bits, .. } => bits.count_ones() as usize,
        }
    }
}

impl Iterator for Run {
    type Item = u32;

    fn next(&mut self) -> Option<u32> {
        match self {
            Run::Ones(rows) => rows.next(),
            Run::Literal { bits: 0, .. } => None,
            Run::Literal { first, bits } => {
                // Bit 31 of a literal is clear, so the place of its highest one in the group is one less.
                let place = bits.leading_zeros() - 1;
                *bits &= !(FILL_BIT >> place);
                Some(*first + place)
            }
        }
    }
}

/// The canonical list of some rows, a byte 0 or 1 each.
///
/// Cost: each byte twice, each word once. Refuses: BAD_VALUE, FULL.
///
/// ```
/// # use upbit::pack;
/// assert_eq!(pack(&[1; 62]).unwrap().words(), [0xC000_0002]);
/// ```
pub fn pack(rows: &[u8]) -> Result<List, Refusal> {
    let mut words = vec![0; groups_within_limit(rows.len())];
    let count = pack_into(rows, &mut words)?;
    words.truncate(count);
    Ok(List::from_words(words, rows.len() as u32))
}

/// Writes the canonical list of some rows, a byte 0 or 1 each, and gives its length in words. Output past it stays.
///
/// Cost: each byte twice, each word once. Refuses: BAD_VALUE, FULL, OUT_SMALL.
pub fn pack_into(rows: &[u8], out: &mut [u32]) -> Result<usize, Refusal> {
    let answer = calls::pack(rows, out);
    Refusal::check(answer.number)?;
    Ok(answer.count)
}

/// The rows that a list covers, a byte 0 or 1 each.
///
/// Cost: each word twice, each byte once. Refuses: FULL, BAD_LIST.
pub fn unpack(list: &List) -> Result<Vec<u8>, Refusal> {
    let mut rows = vec![0; list.length.min(MAX_ROWS) as usize];
    unpack_into(&list.words, list.length as usize, &mut rows)?;
    Ok(rows)
}

/// Writes the rows of the canonical list for `length` rows, a byte 0 or 1 each, and gives their number, which is `length`.
/// Output past them stays.
///
/// Cost: each word twice, each byte once. Refuses: FULL, OUT_SMALL, BAD_LIST.
pub fn unpack_into(list: &[u32], length: usize, out: &mut [u8]) -> Result<usize, Refusal> {
    let answer = calls::unpack(list, out, length);
    Refusal::check(answer.number)?;
    Ok(answer.count)
}
