//! Reading one bit, and the value of a row.

use crate::fault::Fault;
use crate::index::{Index, Which};
use crate::refusal::Refusal;
use crate::rows::{bit_of, spread, GROUP};

/// A group's 31 bits and the words opened to find them.
#[derive(Clone, Copy)]
pub struct Found {
    pub bits: u32,
    pub opened: usize,
}

/// A row's value, if it has one, and the words opened.
#[derive(Clone, Copy, PartialEq, Eq, Debug)]
pub struct State {
    pub value: Option<usize>,
    pub opened: usize,
}

/// Where a walk begins and how many words it may open.
struct Start {
    place: usize,
    first: usize,
    most: usize,
}

/// Opens words until one covers the group; nothing when that is damage.
fn walk(list: &[u32], group: usize, start: Start, fault: Fault) -> Option<Found> {
    let mut first = start.first;
    if first > group && fault != Fault::FenceFirstUnchecked {
        return None;
    }
    for opened in 1..=start.most {
        let word = *list.get(start.place + opened - 1)?;
        let (bits, times) = spread(word);
        if times == 0 && fault != Fault::EmptyFillPasses {
            return None;
        }
        if group < first + times {
            return Some(Found { bits, opened });
        }
        first += times;
    }
    None
}

impl Index {
    /// The words that a walk may open.
    fn read_list(&self, value: usize, which: Which) -> Option<&[u32]> {
        if self.fault == Fault::ReadsPastLength {
            let span = self.span(value, which);
            return Some(&self.words[span.start..span.start + span.room]);
        }
        self.list(value, which)
    }

    fn read_value_list(&self, value: usize, group: usize) -> Option<Found> {
        let list = self.read_list(value, Which::Value)?;
        let spacing = self.header.spacing as usize;
        let fence = self.fences[value * self.header.fences_each() + group / spacing];
        let most = match self.fault {
            Fault::WalkUnbounded => list.len(),
            _ => spacing,
        };
        let start = Start {
            place: fence.place as usize,
            first: fence.first as usize,
            most,
        };
        walk(list, group, start, self.fault)
    }

    fn read_update_list(&self, value: usize, group: usize) -> Option<Found> {
        let list = self.read_list(value, Which::Update)?;
        let start = Start {
            place: 0,
            first: 0,
            most: self.header.update_room(),
        };
        let mut found = walk(list, group, start, self.fault)?;
        if self.fault == Fault::OpenedOffByOne {
            found.opened -= 1;
        }
        Some(found)
    }

    /// V xor U of one group in every value, or damage.
    pub fn read_group(&self, group: usize) -> Result<Vec<Found>, Refusal> {
        let mut all = Vec::new();
        for value in 0..self.header.values as usize {
            let from_value = self.read_value_list(value, group);
            let from_update = self.read_update_list(value, group);
            let (Some(left), Some(right)) = (from_value, from_update) else {
                return Err(Refusal::Damaged);
            };
            all.push(Found {
                bits: left.bits ^ right.bits,
                opened: left.opened + right.opened,
            });
        }
        Ok(all)
    }

    /// What a row is, given its group as `read_group` found it.
    pub fn state_in(&self, group: &[Found], row: usize) -> Result<State, Refusal> {
        let holds = |value: &usize| bit_of(group[*value].bits, row);
        let mut holders = (0..group.len()).filter(holds);
        let value = holders.next();
        if holders.next().is_some() && self.fault != Fault::TwoValuesPass {
            return Err(Refusal::Damaged);
        }
        let opened = group.iter().map(|found| found.opened).sum();
        Ok(State { value, opened })
    }

    /// What a row below R is.
    pub fn read_row(&self, row: usize) -> Result<State, Refusal> {
        let group = self.read_group(row / GROUP)?;
        self.state_in(&group, row)
    }
}
