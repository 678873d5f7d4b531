//! Random histories against a plain column of bytes, on an index that owns its memory and on one that borrows it.

use crate::support::{loaded, memory_beyond, Generator, BEYOND_FENCE, BEYOND_WORD};
use upbit::{Fence, Header, Index, Refusal, Room, RowState, Shape, DELETED};

/// The plain column: bytes made from the load and the later calls alone, with R and d.
struct PlainColumn {
    bytes: Vec<u8>,
    shape: Shape,
}

#[derive(Clone, Copy, Debug)]
enum Change {
    Insert(u32),
    Update(u32, u32),
    Delete(u32),
    Merge(u32),
}

impl PlainColumn {
    fn known_value(&self, value: u32) -> Result<u8, Refusal> {
        match value < self.shape.values {
            true => Ok(value as u8),
            false => Err(Refusal::BadValue),
        }
    }

    fn live_row(&mut self, row: u32) -> Result<&mut u8, Refusal> {
        match self.bytes.get_mut(row as usize) {
            None => Err(Refusal::NoRow),
            Some(&mut DELETED) => Err(Refusal::Gone),
            Some(byte) => Ok(byte),
        }
    }

    /// The row given by an Insert, else 0.
    fn obey(&mut self, change: Change) -> Result<u32, Refusal> {
        match change {
            Change::Insert(value) => {
                let byte = self.known_value(value)?;
                if self.bytes.len() == self.shape.rows as usize {
                    return Err(Refusal::Full);
                }
                self.bytes.push(byte);
                return Ok(self.bytes.len() as u32 - 1);
            }
            Change::Update(row, value) => {
                let byte = self.known_value(value)?;
                *self.live_row(row)? = byte;
            }
            Change::Delete(row) => *self.live_row(row)? = DELETED,
            Change::Merge(value) => drop(self.known_value(value)?),
        }
        Ok(0)
    }

    fn rows_of(&self, value: u32) -> Vec<u32> {
        let holds = |row: &u32| u32::from(self.bytes[*row as usize]) == value;
        (0..self.bytes.len() as u32).filter(holds).collect()
    }
}

fn change_index<Words, Fences>(
    index: &mut Index<Words, Fences>,
    change: Change,
) -> Result<u32, Refusal>
where
    Words: AsMut<[u32]>,
    Fences: AsMut<[Fence]>,
{
    match change {
        Change::Insert(value) => return index.insert(value),
        Change::Update(row, value) => index.update(row, value)?,
        Change::Delete(row) => index.delete(row)?,
        Change::Merge(value) => index.merge(value)?,
    }
    Ok(0)
}

fn any_shape(generator: &mut Generator) -> Shape {
    Shape {
        rows: 1 + generator.below(700),
        values: 1 + generator.below(6),
        threshold: 1 + generator.below(9),
        spacing: 1 + generator.below(5),
    }
}

/// Runs of values and of deleted rows, at most R bytes.
fn any_column(generator: &mut Generator, shape: Shape) -> Vec<u8> {
    let length = generator.below(shape.rows + 1) as usize;
    let mut column = Vec::new();
    while column.len() < length {
        let byte = match generator.below(shape.values + 1) {
            value if value == shape.values => DELETED,
            value => value as u8,
        };
        let end = column.len() + 1 + generator.below(90) as usize;
        column.resize(end.min(length), byte);
    }
    column
}

/// Most often a change of a row that is there to a value that there is.
fn any_change(generator: &mut Generator, plain: &PlainColumn) -> Change {
    let one_too_many = u32::from(generator.below(30) == 0);
    let value = generator.below(plain.shape.values + one_too_many);
    let row = generator.below(plain.bytes.len() as u32 + 1);
    match generator.below(20) {
        0..=5 => Change::Insert(value),
        6 | 7 => Change::Delete(row),
        8 => Change::Merge(value),
        _ => Change::Update(row, value),
    }
}

fn agrees_with_column(index: &Index, plain: &PlainColumn, generator: &mut Generator) {
    assert_eq!(index.audit(), Ok(()));
    assert_eq!(index.dump().as_ref(), Ok(&plain.bytes));
    for value in 0..plain.shape.values {
        let list = index.query(value).expect("a sound index");
        assert_eq!(list.rows().collect::<Vec<_>>(), plain.rows_of(value));
    }
    if plain.bytes.is_empty() {
        return;
    }
    let row = generator.below(plain.bytes.len() as u32);
    let found = index.value(row).expect("a row issued");
    match plain.bytes[row as usize] {
        DELETED => assert_eq!(found.state, RowState::Deleted),
        value => assert_eq!(found.state, RowState::Live(value.into())),
    }
    let shape = plain.shape;
    let most = shape.values * (shape.spacing + 2 * shape.threshold + 1);
    assert!(found.opened <= most as usize);
}

fn nothing_written_beyond(index: &Index, shape: Shape) {
    let room = Room::of(shape).expect("a shape within the limits");
    assert_eq!(index.words()[room.words..], [BEYOND_WORD; 5]);
    assert_eq!(index.fences()[room.fences..], [BEYOND_FENCE; 3]);
}

fn play(seed: u64, changes: usize) {
    let mut generator = Generator::new(seed);
    let shape = any_shape(&mut generator);
    let mut plain = PlainColumn {
        bytes: any_column(&mut generator, shape),
        shape,
    };
    let mut owned = loaded(&plain.bytes, shape);
    let (mut words, mut fences) = memory_beyond(shape);
    let mut lent = Index::from_parts(Header::default(), &mut words[..], &mut fences[..]);
    lent.load(&plain.bytes, shape).expect("an accepted load");
    for step in 0..changes {
        let change = any_change(&mut generator, &plain);
        let expected = plain.obey(change);
        assert_eq!(change_index(&mut owned, change), expected, "{change:?}");
        assert_eq!(change_index(&mut lent, change), expected, "{change:?}");
        if step % 16 == 0 {
            agrees_with_column(&owned, &plain, &mut generator);
        }
    }
    agrees_with_column(&owned, &plain, &mut generator);
    nothing_written_beyond(&owned, shape);
    let (header, ..) = lent.into_parts();
    let shared = Index::from_parts(header, &words[..], &fences[..]);
    assert_eq!(shared.dump(), owned.dump());
    assert_eq!(shared.header(), owned.header());
    assert_eq!(shared.words(), owned.words());
    assert_eq!(shared.fences(), owned.fences());
}

#[test]
fn forty_histories_of_250_changes() {
    for seed in 1..=40 {
        play(seed, 250);
    }
}
