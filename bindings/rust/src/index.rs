//! An index over memory that it owns or borrows.

use crate::calls;
use crate::list::List;
use crate::refusal::Refusal;
use crate::shape::{groups_within_limit, Room, Shape, MAX_ROWS};
use crate::sys::{Changed, Fence, Header};

/// What a row is.
#[derive(Clone, Copy, PartialEq, Eq, Hash, Debug)]
pub enum RowState {
    /// The row has this value.
    Live(u32),
    /// The row was deleted, or loaded as deleted.
    Deleted,
}

/// The state of a row, and what it took to find it.
#[derive(Clone, Copy, PartialEq, Eq, Hash, Debug)]
pub struct Row {
    /// What the row is.
    pub state: RowState,
    /// The words opened, at most d x (G + 2T + 1).
    pub opened: usize,
}

/// An index over one column of bytes: its header, its words and its fences.
///
/// The memory may be owned (`Vec<u32>` and `Vec<Fence>`, as [`Index::of_column`] makes it) or borrowed: over `&mut [u32]`
/// and `&mut [Fence]` there are all calls, over `&[u32]` and `&[Fence]` those that change nothing. Whatever stands in the
/// memory and the header, each call answers or refuses; none panics.
#[derive(Clone, PartialEq, Eq, Debug)]
pub struct Index<Words = Vec<u32>, Fences = Vec<Fence>> {
    header: Header,
    words: Words,
    fences: Fences,
}

impl Index {
    /// Loads a column into new memory of just the size that the shape asks for.
    ///
    /// Cost: that of [`Index::load`], and the memory. Refuses: BAD_HEADER, BAD_VALUE, FULL.
    pub fn of_column(column: &[u8], shape: Shape) -> Result<Index, Refusal> {
        let room = Room::of(shape)?;
        let words = vec![0; room.words];
        let fences = vec![Fence::default(); room.fences];
        let mut index = Index::from_parts(Header::default(), words, fences);
        index.load(column, shape)?;
        Ok(index)
    }
}

impl<Words, Fences> Index<Words, Fences> {
    /// Takes any header and any memory for an index; the calls refuse what is none. A header of zeros is one to load into.
    pub fn from_parts(header: Header, words: Words, fences: Fences) -> Self {
        Index {
            header,
            words,
            fences,
        }
    }

    /// The header and the memory, to be stored, moved, or taken for an index again.
    pub fn into_parts(self) -> (Header, Words, Fences) {
        (self.header, self.words, self.fences)
    }

    /// The header as the last accepted change left it.
    pub fn header(&self) -> Header {
        self.header
    }
}

/// Calls that change nothing of the index.
impl<Words: AsRef<[u32]>, Fences: AsRef<[Fence]>> Index<Words, Fences> {
    /// The words of the index, and those lent beyond.
    pub fn words(&self) -> &[u32] {
        self.words.as_ref()
    }

    /// The fences of the index, and those lent beyond.
    pub fn fences(&self) -> &[Fence] {
        self.fences.as_ref()
    }

    /// The state of a row, and the words opened to find it.
    ///
    /// Cost: at most d x (G + 2T + 1) words opened, and d fences. Refuses: BAD_HEADER, SMALL, NO_ROW, DAMAGED.
    pub fn value(&self, row: u32) -> Result<Row, Refusal> {
        let found = calls::value(self.words(), self.fences(), self.header, row);
        Refusal::check(found.number)?;
        Ok(Row {
            state: match found.live {
                0 => RowState::Deleted,
                _ => RowState::Live(found.value),
            },
            opened: found.opened,
        })
    }

    /// The canonical list of a value's rows.
    ///
    /// Cost: the words of one value, twice, and at most one new word for 31 rows. Refuses: BAD_HEADER, SMALL, BAD_VALUE,
    /// DAMAGED.
    pub fn query(&self, value: u32) -> Result<List, Refusal> {
        let mut words = vec![0; groups_within_limit(self.header.rows as usize)];
        let count = self.query_into(value, &mut words)?;
        words.truncate(count);
        Ok(List::from_words(words, self.header.rows))
    }

    /// Writes the canonical list of a value's rows, and gives its length in words. Output past it stays.
    ///
    /// Cost: the words of one value, twice. Refuses: BAD_HEADER, SMALL, BAD_VALUE, DAMAGED, OUT_SMALL.
    pub fn query_into(&self, value: u32, out: &mut [u32]) -> Result<usize, Refusal> {
        let answer = calls::query(self.words(), self.fences(), out, self.header, value);
        Refusal::check(answer.number)?;
        Ok(answer.count)
    }

    /// The column: for each row issued the byte of its value, or [`DELETED`](crate::DELETED).
    ///
    /// Cost: each word of a value list about once, those of an update list from the first one on at each fence, and
    /// 126,976 bytes of stack. Refuses: BAD_HEADER, SMALL, DAMAGED.
    pub fn dump(&self) -> Result<Vec<u8>, Refusal> {
        let mut column = vec![0; self.header.issued.min(MAX_ROWS) as usize];
        let count = self.dump_into(&mut column)?;
        column.truncate(count);
        Ok(column)
    }

    /// Writes the column, and gives the number of rows. Output past it stays.
    ///
    /// Cost: each word of a value list about once, those of an update list from the first one on at each fence, and
    /// 126,976 bytes of stack. Refuses: BAD_HEADER, SMALL, DAMAGED, OUT_SMALL.
    pub fn dump_into(&self, out: &mut [u8]) -> Result<usize, Refusal> {
        let answer = calls::dump(self.words(), self.fences(), out, self.header);
        Refusal::check(answer.number)?;
        Ok(answer.count)
    }

    /// Accepts exactly sound indexes: lists, unused words, fences, and no row in two values.
    ///
    /// Cost: each word twice, each fence once, and 32 KB of stack. Refuses: BAD_HEADER, SMALL, DAMAGED.
    pub fn audit(&self) -> Result<(), Refusal> {
        Refusal::check(calls::audit(self.words(), self.fences(), self.header).number)
    }
}

/// Calls that change the index. A refusal changes no word, no fence and not the header.
impl<Words: AsMut<[u32]>, Fences: AsMut<[Fence]>> Index<Words, Fences> {
    /// Loads a column of bytes, one a row: a value below d, or [`DELETED`](crate::DELETED). What the memory held before
    /// does not matter. A refused load leaves the header as it was.
    ///
    /// Cost: two passes over the column, and one over the groups of each value. Refuses: BAD_HEADER, SMALL, BAD_VALUE, FULL.
    pub fn load(&mut self, column: &[u8], shape: Shape) -> Result<(), Refusal> {
        let changed = calls::load(self.words.as_mut(), self.fences.as_mut(), column, shape);
        self.keep(changed).map(drop)
    }

    /// Adds a row of a value, and gives its number.
    ///
    /// Cost: [`Index::value`] of a row, and the words of one value. Refuses: BAD_HEADER, SMALL, BAD_VALUE, FULL, DAMAGED.
    pub fn insert(&mut self, value: u32) -> Result<u32, Refusal> {
        let changed = calls::insert(
            self.words.as_mut(),
            self.fences.as_mut(),
            self.header,
            value,
        );
        // The row is below R, so it is a u32.
        Ok(self.keep(changed)? as u32)
    }

    /// Gives a row another value. To the value that it has, it is accepted and changes nothing.
    ///
    /// Cost: [`Index::value`] of the row, and the words of two values. Refuses: BAD_HEADER, SMALL, BAD_VALUE, NO_ROW, DAMAGED
    /// where the row is damaged, GONE, DAMAGED where a list is.
    pub fn update(&mut self, row: u32, value: u32) -> Result<(), Refusal> {
        let (words, fences) = (self.words.as_mut(), self.fences.as_mut());
        let changed = calls::update(words, fences, self.header, row, value);
        self.keep(changed).map(drop)
    }

    /// Deletes a row; its number is not used again.
    ///
    /// Cost: [`Index::value`] of the row, and the words of one value. Refuses: BAD_HEADER, SMALL, NO_ROW, DAMAGED where the row
    /// is damaged, GONE, DAMAGED where a list is.
    pub fn delete(&mut self, row: u32) -> Result<(), Refusal> {
        let changed = calls::delete(self.words.as_mut(), self.fences.as_mut(), self.header, row);
        self.keep(changed).map(drop)
    }

    /// Merges a value's updates into its list and makes its fences anew. On a sound index it changes no query, row state
    /// or dump; only counts of opened words may change.
    ///
    /// Cost: the words of one value. Refuses: BAD_HEADER, SMALL, BAD_VALUE, DAMAGED.
    pub fn merge(&mut self, value: u32) -> Result<(), Refusal> {
        let (words, fences) = (self.words.as_mut(), self.fences.as_mut());
        let changed = calls::merge(words, fences, self.header, value);
        self.keep(changed).map(drop)
    }

    /// Keeps the header that an accepted change gives, and answers the change's count.
    fn keep(&mut self, changed: Changed) -> Result<usize, Refusal> {
        Refusal::check(changed.answer.number)?;
        self.header = changed.header;
        Ok(changed.answer.count)
    }
}
