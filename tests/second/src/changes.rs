//! The calls that change the index: Load, Insert, Update, Delete and Merge.

use crate::fault::Fault;
use crate::header::Header;
use crate::index::{Index, Pair};
use crate::queries::DELETED;
use crate::refusal::Refusal;
use crate::rows::{ones, xor};

impl Index {
    /// Loads a column; `shape` has R, d, T and G.
    pub fn load(&mut self, shape: Header, column: &[u8]) -> Result<usize, Refusal> {
        let loaded = self.try_load(shape, column);
        if loaded.is_err() && self.fault == Fault::RefusedLoadKept {
            self.header = Header::default();
        }
        loaded
    }

    fn try_load(&mut self, shape: Header, column: &[u8]) -> Result<usize, Refusal> {
        if !shape.shape_allowed() {
            return Err(Refusal::BadHeader);
        }
        self.enough(&shape)?;
        let known = |&byte: &u8| byte == DELETED || u32::from(byte) < shape.values;
        let looked_at = match self.fault {
            Fault::LoadSkipsBytesPast => column.len().min(shape.rows as usize),
            _ => column.len(),
        };
        if !column[..looked_at].iter().all(known) {
            return Err(Refusal::BadValue);
        }
        if column.len() > shape.rows as usize {
            return Err(Refusal::Full);
        }
        self.header = shape;
        self.header.issued = column.len() as u32;
        for value in 0..shape.values as usize {
            let mut rows: Vec<bool> = column.iter().map(|&byte| byte as usize == value).collect();
            rows.resize(shape.rows as usize, false);
            self.write_value(value, &rows, true);
        }
        if self.fault == Fault::LoadWritesBeyond {
            self.words[shape.words_needed()] = 0;
        }
        Ok(column.len())
    }

    fn merge_checked(&mut self, value: usize, pair: &Pair) {
        let rows = xor(&pair.value, &pair.update);
        let fences = self.fault != Fault::MergeKeepsFences;
        self.write_value(value, &rows, fences);
    }

    /// Turns a row's bit in U over, merging first if U has no room for another one.
    fn flip(&mut self, value: usize, mut pair: Pair, row: usize) {
        let full = ones(&pair.update) == self.header.threshold as usize;
        let needless = self.fault == Fault::MergesWithoutNeed;
        let late = self.fault == Fault::MergesLate;
        if full && !late && (!pair.update[row] || needless) {
            self.merging_flips += 1;
            self.merge_checked(value, &pair);
            pair.update.fill(false);
        } else if self.fault == Fault::FlipWritesValue {
            self.write_value(value, &pair.value, false);
        }
        pair.update[row] = !pair.update[row];
        if late && ones(&pair.update) > self.header.threshold as usize {
            self.merge_checked(value, &pair);
            return;
        }
        self.write_update(value, &pair.update);
    }

    pub fn insert(&mut self, value: u32) -> Result<u32, Refusal> {
        let inserted = self.try_insert(value);
        if inserted == Err(Refusal::Damaged) && self.fault == Fault::RefusedInsertIssues {
            self.header.issued += 1;
        }
        inserted
    }

    fn try_insert(&mut self, value: u32) -> Result<u32, Refusal> {
        self.ready()?;
        let full = self.header.issued == self.header.rows;
        if full && self.fault == Fault::FullBeforeBadValue {
            return Err(Refusal::Full);
        }
        let value = self.known_value(value)?;
        if full {
            return Err(Refusal::Full);
        }
        let row = self.header.issued;
        self.nothing_at(row as usize, value)?;
        if self.fault == Fault::InsertChecksAll {
            let mut all = 0..self.header.values as usize;
            all.try_for_each(|value| self.checked(value).map(drop))?;
        }
        let pair = self.checked(value)?;
        self.flip(value, pair, row as usize);
        self.header.issued += 1;
        Ok(row)
    }

    /// Row n before an Insert: each read succeeds and finds 0.
    fn nothing_at(&self, row: usize, value: usize) -> Result<(), Refusal> {
        let found = match self.fault {
            Fault::InsertDoesNotLook => return Ok(()),
            fault => (self.read_row(row)?.value, fault),
        };
        match found {
            (None, _) => Ok(()),
            (Some(other), Fault::InsertLooksAtOneValue) if other != value => Ok(()),
            _ => Err(Refusal::Damaged),
        }
    }

    /// The value of a row that is there and not deleted.
    fn live_value(&self, row: usize) -> Result<usize, Refusal> {
        let state = self.read_row(row)?;
        if state.value.is_none() && self.fault == Fault::CheckBeforeGone {
            self.checked(0)?;
        }
        state.value.ok_or(Refusal::Gone)
    }

    pub fn update(&mut self, row: u32, value: u32) -> Result<(), Refusal> {
        self.ready()?;
        let new = self.known_value(value)?;
        let row = self.issued_row(row)?;
        let old = self.live_value(row)?;
        let same = old == new;
        if same && !matches!(self.fault, Fault::SameValueFlips | Fault::SameValueChecks) {
            return Ok(());
        }
        let old_pair = self.checked(old)?;
        if same && self.fault == Fault::SameValueChecks {
            return Ok(());
        }
        if self.fault == Fault::WritesBeforeSecondCheck {
            self.flip(old, old_pair, row);
            let new_pair = self.checked(new)?;
            self.flip(new, new_pair, row);
            return Ok(());
        }
        let new_pair = self.checked(new)?;
        self.flip(old, old_pair, row);
        self.flip(new, new_pair, row);
        Ok(())
    }

    pub fn delete(&mut self, row: u32) -> Result<(), Refusal> {
        self.ready()?;
        let row = self.issued_row(row)?;
        let old = self.live_value(row)?;
        let pair = self.checked(old)?;
        self.flip(old, pair, row);
        Ok(())
    }

    pub fn merge(&mut self, value: u32) -> Result<(), Refusal> {
        self.ready()?;
        let value = self.known_value(value)?;
        let pair = self.checked(value)?;
        if ones(&pair.update) == 0 && self.fault == Fault::EmptyMergeSkipped {
            return Ok(());
        }
        self.merge_checked(value, &pair);
        Ok(())
    }
}
