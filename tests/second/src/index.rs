//! An index in explicit memory, and how a value's lists are taken from it and written to it.

use crate::fault::Fault;
use crate::header::Header;
use crate::refusal::Refusal;
use crate::rows::{decode, encode, ones, spread, GROUP, MOST_ROWS};

#[derive(Clone, Copy, PartialEq, Eq, Debug, Default)]
pub struct Fence {
    pub place: u32,
    pub first: u32,
}

pub struct Index {
    pub words: Vec<u32>,
    pub fences: Vec<Fence>,
    /// How many of the words and fences are lent to the calls.
    pub lent_words: usize,
    pub lent_fences: usize,
    /// Length of the output lent to the calls, in words or bytes.
    pub room: usize,
    pub header: Header,
    pub fault: Fault,
    /// Flips that merged first, for the counts of a run.
    pub merging_flips: usize,
}

/// The two lists of one value as plain rows.
pub struct Pair {
    pub value: Vec<bool>,
    pub update: Vec<bool>,
}

/// One of the two lists of a value.
#[derive(Clone, Copy, PartialEq, Eq, Debug)]
pub enum Which {
    Value,
    Update,
}

/// Where a list is in memory.
#[derive(Clone, Copy)]
pub struct Span {
    pub length_at: usize,
    pub start: usize,
    pub room: usize,
}

impl Index {
    pub fn new(words: usize, fences: usize, fault: Fault) -> Index {
        Index {
            words: vec![0; words],
            fences: vec![Fence::default(); fences],
            lent_words: words,
            lent_fences: fences,
            room: MOST_ROWS,
            header: Header::default(),
            fault,
            merging_flips: 0,
        }
    }

    /// BAD_HEADER and SMALL, which every call on an index asks first.
    pub fn ready(&self) -> Result<(), Refusal> {
        if !self.header.allowed() {
            return Err(Refusal::BadHeader);
        }
        self.enough(&self.header)
    }

    pub fn enough(&self, header: &Header) -> Result<(), Refusal> {
        let words = self.lent_words >= header.words_needed();
        let fences = self.lent_fences >= header.fences_needed();
        if words && fences {
            Ok(())
        } else {
            Err(Refusal::Small)
        }
    }

    pub fn span(&self, value: usize, which: Which) -> Span {
        let base = value * self.header.block();
        let groups = self.header.groups();
        match which {
            Which::Value => Span {
                length_at: base,
                start: base + 2,
                room: groups,
            },
            Which::Update => Span {
                length_at: base + 1,
                start: base + 2 + groups,
                room: self.header.update_room(),
            },
        }
    }

    /// The words of a list by its stored length, if that does not exceed its room.
    pub fn list(&self, value: usize, which: Which) -> Option<&[u32]> {
        let span = self.span(value, which);
        let length = self.words[span.length_at] as usize;
        (length <= span.room).then(|| &self.words[span.start..span.start + length])
    }

    /// The rows of a list, if it is canonical for R rows.
    fn rows(&self, value: usize, which: Which) -> Option<Vec<bool>> {
        let list = self.list(value, which)?;
        let capacity = self.header.rows as usize;
        if self.fault == Fault::IgnoresPastCapacity {
            let mut rows = decode(list, self.header.groups() * GROUP)?;
            rows.truncate(capacity);
            return Some(rows);
        }
        decode(list, capacity)
    }

    /// The whole check of both lists of a value, and their rows.
    pub fn checked(&self, value: usize) -> Result<Pair, Refusal> {
        let rows = self.rows(value, Which::Value);
        let update = self.rows(value, Which::Update);
        let (Some(rows), Some(update)) = (rows, update) else {
            return Err(Refusal::Damaged);
        };
        let most = self.header.threshold as usize;
        if ones(&update) > most && self.fault != Fault::UpdateOnesUnchecked {
            return Err(Refusal::Damaged);
        }
        let pair = Pair {
            value: rows,
            update,
        };
        match self.too_strict(value, &pair) {
            true => Err(Refusal::Damaged),
            false => Ok(pair),
        }
    }

    /// Writes a list's length, its words and zeros in the rest of its room.
    fn write_list(&mut self, value: usize, which: Which, list: &[u32]) {
        let span = self.span(value, which);
        self.words[span.length_at] = list.len() as u32;
        let room = &mut self.words[span.start..span.start + span.room];
        if self.fault != Fault::KeepsUnusedWords {
            room.fill(0);
        }
        let fits = list.len().min(span.room);
        room[..fits].copy_from_slice(&list[..fits]);
    }

    pub fn write_update(&mut self, value: usize, rows: &[bool]) {
        self.write_list(value, Which::Update, &encode(rows));
    }

    /// Writes V and an empty U. `fences` says whether V's fences are made anew.
    pub fn write_value(&mut self, value: usize, rows: &[bool], fences: bool) {
        let list = encode(rows);
        self.write_list(value, Which::Value, &list);
        self.write_update(value, &vec![false; rows.len()]);
        if fences {
            let each = self.header.fences_each();
            let right = fences_of(&list, &self.header);
            self.fences[value * each..(value + 1) * each].copy_from_slice(&right);
        }
    }
}

/// The right fences of a list: for every G-th group the word that covers it and that word's first
/// group. Groups that the list does not reach get a fence of zeros.
pub fn fences_of(list: &[u32], header: &Header) -> Vec<Fence> {
    let mut covering = Vec::new();
    for (place, &word) in list.iter().enumerate() {
        let first = covering.len();
        let times = spread(word).1.min(header.groups() - first);
        let fence = Fence {
            place: place as u32,
            first: first as u32,
        };
        covering.extend(std::iter::repeat_n(fence, times));
    }
    covering.resize(header.groups(), Fence::default());
    let every = covering.iter().step_by(header.spacing as usize);
    every.copied().collect()
}
