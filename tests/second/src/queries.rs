//! The calls that change nothing: Query, Value, Dump, Pack and Unpack.

use crate::fault::Fault;
use crate::index::Index;
use crate::reading::State;
use crate::refusal::Refusal;
use crate::rows::{decode, encode, groups_of, xor, FILL, FILL_ONES, GROUP, MOST_ROWS};

/// The byte of a deleted row.
pub const DELETED: u8 = 255;

impl Index {
    pub fn known_value(&self, value: u32) -> Result<usize, Refusal> {
        if value < self.header.values {
            Ok(value as usize)
        } else {
            Err(Refusal::BadValue)
        }
    }

    pub fn issued_row(&self, row: u32) -> Result<usize, Refusal> {
        let issued = self.header.issued;
        let past_last = self.fault == Fault::RowPastLast && issued < self.header.rows;
        if row < issued || past_last && row == issued {
            Ok(row as usize)
        } else {
            Err(Refusal::NoRow)
        }
    }

    fn fits(&self, length: usize) -> Result<(), Refusal> {
        if length <= self.room {
            Ok(())
        } else {
            Err(Refusal::OutSmall)
        }
    }

    pub fn query(&self, value: u32) -> Result<Vec<u32>, Refusal> {
        self.ready()?;
        let value = self.known_value(value)?;
        let pair = self.checked(value)?;
        let list = encode(&xor(&pair.value, &pair.update));
        let wrong = usize::from(self.fault == Fault::RoomOffByOne);
        self.fits(list.len() + wrong)?;
        Ok(list)
    }

    pub fn value(&self, row: u32) -> Result<State, Refusal> {
        self.ready()?;
        let row = self.issued_row(row)?;
        self.read_row(row)
    }

    /// The column as Value finds it. A group is read once for its 31 rows: a read depends on the
    /// row's group alone.
    pub fn dump(&self) -> Result<Vec<u8>, Refusal> {
        self.ready()?;
        let issued = self.header.issued as usize;
        let mut column = Vec::with_capacity(issued);
        for group in 0..groups_of(issued) {
            let found = self.read_group(group)?;
            for row in group * GROUP..issued.min((group + 1) * GROUP) {
                let state = self.state_in(&found, row)?;
                column.push(state.value.map_or(DELETED, |value| value as u8));
            }
        }
        self.fits(issued)?;
        Ok(column)
    }

    pub fn pack(&self, digits: &[u8]) -> Result<Vec<u32>, Refusal> {
        if digits.iter().any(|&digit| digit > 1) {
            return Err(Refusal::BadValue);
        }
        if digits.len() > MOST_ROWS {
            return Err(Refusal::Full);
        }
        let mut rows: Vec<bool> = digits.iter().map(|&digit| digit == 1).collect();
        if self.fault == Fault::FillsLastGroup {
            rows.resize(groups_of(rows.len()) * GROUP, true);
        }
        let list = encode(&rows);
        self.fits(list.len())?;
        Ok(list)
    }

    pub fn unpack(&self, length: u32, list: &[u32]) -> Result<Vec<bool>, Refusal> {
        let length = length as usize;
        if length > MOST_ROWS {
            return Err(Refusal::Full);
        }
        self.fits(length)?;
        if self.fault == Fault::UnpackTakesSplitFills {
            return decode(&joined(list), length).ok_or(Refusal::BadList);
        }
        decode(list, length).ok_or(Refusal::BadList)
    }
}

/// A list with neighbouring fills of one kind made one, which is how one fault reads it.
fn joined(list: &[u32]) -> Vec<u32> {
    let mut joined: Vec<u32> = Vec::new();
    for &word in list {
        match joined.last_mut() {
            Some(last) if word & FILL != 0 && *last & FILL_ONES == word & FILL_ONES => {
                *last = last.wrapping_add(word & !FILL_ONES)
            }
            _ => joined.push(word),
        }
    }
    joined
}
