//! The model against the plain column of demand 3: a list of bytes made from the load and the later
//! calls alone.

use crate::fault::Fault;
use crate::index::Index;
use crate::queries::DELETED;
use crate::refusal::Refusal;
use crate::rng::Rng;
use crate::rows::encode;
use crate::shapes::{column, issued, small_shape};

struct Plain {
    bytes: Vec<u8>,
    rows: usize,
    values: u32,
}

impl Plain {
    fn insert(&mut self, value: u32) -> Result<u32, Refusal> {
        if value >= self.values {
            return Err(Refusal::BadValue);
        }
        if self.bytes.len() == self.rows {
            return Err(Refusal::Full);
        }
        self.bytes.push(value as u8);
        Ok(self.bytes.len() as u32 - 1)
    }

    fn put(&mut self, row: u32, byte: u8) -> Result<(), Refusal> {
        match self.bytes.get_mut(row as usize) {
            None => Err(Refusal::NoRow),
            Some(&mut DELETED) => Err(Refusal::Gone),
            Some(old) => {
                *old = byte;
                Ok(())
            }
        }
    }

    fn update(&mut self, row: u32, value: u32) -> Result<(), Refusal> {
        if value >= self.values {
            return Err(Refusal::BadValue);
        }
        self.put(row, value as u8)
    }

    fn list(&self, value: u32) -> Vec<u32> {
        let mut rows: Vec<bool> = self
            .bytes
            .iter()
            .map(|&byte| u32::from(byte) == value)
            .collect();
        rows.resize(self.rows, false);
        encode(&rows)
    }
}

fn change_both(rng: &mut Rng, index: &mut Index, plain: &mut Plain) {
    let row = rng.below(plain.bytes.len() + 2) as u32;
    let value = rng.below(plain.values as usize + 1) as u32;
    match rng.below(4) {
        0 => assert_eq!(index.insert(value), plain.insert(value)),
        1 => assert_eq!(index.delete(row), plain.put(row, DELETED)),
        2 => assert_eq!(index.update(row, value), plain.update(row, value)),
        _ => assert_eq!(index.merge(value).is_ok(), value < plain.values),
    }
}

fn compare(index: &Index, plain: &Plain) {
    assert_eq!(index.audit(), Ok(()));
    assert_eq!(index.dump().as_ref(), Ok(&plain.bytes));
    for value in 0..plain.values {
        assert_eq!(index.query(value), Ok(plain.list(value)));
    }
    let header = index.header;
    let most = header.values as usize * (header.spacing as usize + header.update_room());
    for row in 0..plain.bytes.len() {
        let state = index.value(row as u32).expect("a row of a sound index");
        let byte = state.value.map_or(DELETED, |value| value as u8);
        assert_eq!(byte, plain.bytes[row]);
        assert!(state.opened <= most);
    }
}

#[test]
fn histories_of_the_model() {
    for number in 0..60 {
        let mut rng = Rng::new(11, number);
        let mut shape = small_shape(&mut rng);
        shape.values = shape.values.min(6);
        let count = issued(&mut rng, shape.rows as usize);
        let bytes = column(&mut rng, count, shape.values as usize);
        let mut index = Index::new(10_000, 1_000, Fault::None);
        assert_eq!(index.load(shape, &bytes), Ok(count));
        let mut plain = Plain {
            bytes,
            rows: shape.rows as usize,
            values: shape.values,
        };
        for _ in 0..40 {
            change_both(&mut rng, &mut index, &mut plain);
            compare(&index, &plain);
        }
    }
}
