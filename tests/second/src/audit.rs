//! Audit: accepts exactly sound indexes.

use crate::fault::Fault;
use crate::index::{fences_of, Index, Pair, Which};
use crate::refusal::Refusal;
use crate::rows::xor;

impl Index {
    pub fn audit(&self) -> Result<(), Refusal> {
        self.ready()?;
        let mut holders = vec![0; self.header.issued as usize];
        for value in 0..self.header.values as usize {
            let rows = self.sound_value(value).ok_or(Refusal::Damaged)?;
            for (count, &holds) in holders.iter_mut().zip(&rows) {
                *count += usize::from(holds);
            }
        }
        let double = holders.iter().any(|&count| count > 1);
        if double && self.fault != Fault::AuditSkipsDoubleRows {
            return Err(Refusal::Damaged);
        }
        Ok(())
    }

    /// The rows of a value whose lists and fences are sound.
    fn sound_value(&self, value: usize) -> Option<Vec<bool>> {
        let pair = self.checked(value).ok()?;
        if self.rows_past_issued(&pair) && self.fault != Fault::AuditSkipsPastIssued {
            return None;
        }
        let unused = self.all_unused_zero(value) || self.fault == Fault::AuditSkipsUnused;
        let sound = unused && self.fences_right(value);
        sound.then(|| xor(&pair.value, &pair.update))
    }

    /// What some faults ask in the whole check although only Audit should.
    pub fn too_strict(&self, value: usize, pair: &Pair) -> bool {
        match self.fault {
            Fault::CheckSeesPastIssued => self.rows_past_issued(pair),
            Fault::CheckSeesFences => !self.fences_right(value),
            Fault::CheckSeesUnused => !self.all_unused_zero(value),
            _ => false,
        }
    }

    fn rows_past_issued(&self, pair: &Pair) -> bool {
        let issued = self.header.issued as usize;
        pair.value[issued..].contains(&true) || pair.update[issued..].contains(&true)
    }

    fn all_unused_zero(&self, value: usize) -> bool {
        self.unused_zero(value, Which::Value) && self.unused_zero(value, Which::Update)
    }

    fn unused_zero(&self, value: usize, which: Which) -> bool {
        let span = self.span(value, which);
        let length = self.words[span.length_at] as usize;
        let unused = &self.words[span.start + length..span.start + span.room];
        unused.iter().all(|&word| word == 0)
    }

    fn fences_right(&self, value: usize) -> bool {
        let Some(list) = self.list(value, Which::Value) else {
            return false;
        };
        let each = self.header.fences_each();
        let mut right = fences_of(list, &self.header);
        if self.fault == Fault::AuditSkipsLastFence {
            right.pop();
        }
        self.fences[value * each..][..right.len()] == right[..]
    }
}
