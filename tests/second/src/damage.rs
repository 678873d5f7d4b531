//! Damage to a loaded index: each kind breaks one rule, as far as that can be done alone.

use crate::console::words_text;
use crate::dialogue::Step;
use crate::header::Header;
use crate::index::{fences_of, Fence, Which};
use crate::packing::{fill_tail, loosen_fill, split_fill};
use crate::player::Player;
use crate::rows::{decode, encode, ones, xor, FILL, FILL_ONES, GROUP};

impl Player {
    /// Does one damage to an index whose header is allowed and whose memory is lent.
    pub fn damage(&mut self) -> Step {
        match self.rng.below(25) {
            0 | 1 => self.odd_memory_word(),
            2 | 3 => self.odd_length(),
            4 | 5 => self.odd_fence(),
            6 | 7 | 24 => self.other_fence(),
            8 => self.shifted_fence(),
            9 | 10 => self.empty_fill(),
            11 => self.other_count(),
            12 => self.swapped_words(),
            13 => self.loose_list(),
            14 => self.longer_list(),
            15 => self.row_past_issued(),
            16 => self.rows_past_issued_in_both(),
            17 => self.row_past_capacity(),
            18 => self.row_in_two_values(),
            19 => self.unused_word(),
            20 => self.too_many_updates(),
            21 => self.spoiled_list(),
            _ => self.other_header(),
        }
    }

    fn known_value(&mut self) -> usize {
        let values = self.header().values as usize;
        self.rng.below(values)
    }

    fn which(&mut self) -> Which {
        self.rng.pick(&[Which::Value, Which::Update])
    }

    fn poke(&mut self, at: usize, word: u32) -> Step {
        self.say(format!("poke {at} {}", words_text(&[word])))
    }

    fn poke_fence(&mut self, at: usize, fence: Fence) -> Step {
        self.say(format!("pokefence {at} {} {}", fence.place, fence.first))
    }

    fn words_of(&self, value: usize, which: Which) -> Vec<u32> {
        self.index().list(value, which).unwrap_or(&[]).to_vec()
    }

    /// The rows of a list, or none set where the list has none.
    fn rows_of(&self, value: usize, which: Which) -> Vec<bool> {
        let rows = self.header().rows as usize;
        let list = self.words_of(value, which);
        decode(&list, rows).unwrap_or_else(|| vec![false; rows])
    }

    /// Puts a list in place of another, with fences to suit and zeros behind it. A list too long for
    /// its room is cut.
    fn put_list(&mut self, value: usize, which: Which, list: &[u32]) -> Step {
        let span = self.index().span(value, which);
        let list = &list[..list.len().min(span.room)];
        self.poke(span.length_at, list.len() as u32)?;
        for place in 0..span.room {
            let word = list.get(place).copied().unwrap_or(0);
            if self.index().words[span.start + place] != word {
                self.poke(span.start + place, word)?;
            }
        }
        match which {
            Which::Value => self.put_fences(value, list),
            Which::Update => Ok(()),
        }
    }

    fn put_fences(&mut self, value: usize, list: &[u32]) -> Step {
        let header = self.header();
        let base = value * header.fences_each();
        for (place, fence) in fences_of(list, &header).into_iter().enumerate() {
            if self.index().fences[base + place] != fence {
                self.poke_fence(base + place, fence)?;
            }
        }
        Ok(())
    }

    fn odd_memory_word(&mut self) -> Step {
        let at = self.rng.below(self.header().words_needed());
        let word = self.odd_word();
        self.poke(at, word)
    }

    fn odd_length(&mut self) -> Step {
        let (value, which) = (self.known_value(), self.which());
        let span = self.index().span(value, which);
        let length = self.index().words[span.length_at];
        let room = span.room as u32;
        let odd = [
            0,
            length.wrapping_sub(1),
            length.wrapping_add(1),
            room,
            room + 1,
            u32::MAX,
            self.rng.below(span.room + 2) as u32,
        ];
        let length = self.rng.pick(&odd);
        self.poke(span.length_at, length)
    }

    fn any_fence(&mut self) -> (usize, Fence) {
        let at = self.rng.below(self.header().fences_needed());
        (at, self.index().fences[at])
    }

    fn odd_fence(&mut self) -> Step {
        let (at, mut fence) = self.any_fence();
        let most = self.header().groups() + 1;
        let odd = [0, u32::MAX, 1 << 31, self.rng.below(most) as u32];
        match self.rng.chance(50) {
            true => fence.place = self.rng.pick(&odd),
            false => fence.first = self.rng.pick(&odd),
        }
        self.poke_fence(at, fence)
    }

    /// A fence that is right for another group of the same value. An earlier one may lead there by
    /// more than G words, or by no more.
    fn other_fence(&mut self) -> Step {
        let each = self.header().fences_each();
        let (at, _) = self.any_fence();
        let base = at / each * each;
        let other = match self.rng.chance(60) {
            true => self.rng.between(base, at),
            false => base + self.rng.below(each),
        };
        let fence = self.index().fences[other];
        self.poke_fence(at, fence)
    }

    fn shifted_fence(&mut self) -> Step {
        let (at, mut fence) = self.any_fence();
        let by = self.rng.pick(&[1, u32::MAX]);
        if self.rng.chance(70) {
            fence.place = fence.place.wrapping_add(by);
        }
        if self.rng.chance(60) {
            fence.first = fence.first.wrapping_add(by);
        }
        self.poke_fence(at, fence)
    }

    /// A place in memory that holds a fill of a list in use.
    fn some_fill(&mut self) -> Option<usize> {
        let (value, which) = (self.known_value(), self.which());
        let start = self.index().span(value, which).start;
        let list = self.words_of(value, which);
        let fills = (0..list.len()).filter(|&place| list[place] & FILL != 0);
        let fills: Vec<usize> = fills.collect();
        if fills.is_empty() {
            return None;
        }
        Some(start + self.rng.pick(&fills))
    }

    fn empty_fill(&mut self) -> Step {
        let Some(at) = self.some_fill() else {
            return self.odd_memory_word();
        };
        let word = self.index().words[at];
        self.poke(at, word & FILL_ONES)
    }

    /// A fill that counts one more or less or very much, or is of the other kind.
    fn other_count(&mut self) -> Step {
        let Some(at) = self.some_fill() else {
            return self.odd_length();
        };
        let word = self.index().words[at];
        let odd = [word + 1, word - 1, word ^ 1 << 30, word | !FILL_ONES];
        let word = self.rng.pick(&odd);
        self.poke(at, word)
    }

    fn swapped_words(&mut self) -> Step {
        let (value, which) = (self.known_value(), self.which());
        let start = self.index().span(value, which).start;
        let list = self.words_of(value, which);
        if list.len() < 2 {
            return self.odd_length();
        }
        let place = self.rng.below(list.len() - 1);
        self.poke(start + place, list[place + 1])?;
        self.poke(start + place + 1, list[place])
    }

    /// The same rows in a list that is not canonical, with right fences.
    fn loose_list(&mut self) -> Step {
        let (value, which) = (self.known_value(), self.which());
        let mut list = self.words_of(value, which);
        let near = self.rng.below(list.len());
        match self.rng.chance(50) {
            true => split_fill(&mut list, near),
            false => loosen_fill(&mut list, near),
        }
        self.put_list(value, which, &list)
    }

    /// A list that goes on past the last group, or stops before it.
    fn longer_list(&mut self) -> Step {
        let (value, which) = (self.known_value(), self.which());
        let mut list = self.words_of(value, which);
        match self.rng.chance(50) {
            true => list.push(FILL | 1),
            false => drop(list.pop()),
        }
        self.put_list(value, which, &list)
    }

    fn spoiled_list(&mut self) -> Step {
        let (value, which) = (self.known_value(), self.which());
        let mut list = self.words_of(value, which);
        let rows = self.header().rows as usize;
        self.spoil(&mut list, rows);
        self.put_list(value, which, &list)
    }

    /// A row from n on, often n itself; `None` if there is no such row.
    fn unissued_row(&mut self) -> Option<usize> {
        let Header { rows, issued, .. } = self.header();
        if issued == rows {
            return None;
        }
        match self.rng.chance(50) {
            true => Some(issued as usize),
            false => Some(self.rng.between(issued as usize, rows as usize - 1)),
        }
    }

    fn turn_row(&mut self, value: usize, which: Which, row: usize) -> Step {
        let mut rows = self.rows_of(value, which);
        rows[row] = !rows[row];
        let list = encode(&rows);
        self.put_list(value, which, &list)
    }

    fn row_past_issued(&mut self) -> Step {
        let Some(row) = self.unissued_row() else {
            return self.odd_length();
        };
        let (value, which) = (self.known_value(), self.which());
        self.turn_row(value, which, row)
    }

    /// A row past n in both lists: reading it finds 0, and only Audit objects.
    fn rows_past_issued_in_both(&mut self) -> Step {
        let Some(row) = self.unissued_row() else {
            return self.odd_length();
        };
        let value = self.known_value();
        self.turn_row(value, Which::Value, row)?;
        self.turn_row(value, Which::Update, row)
    }

    fn row_past_capacity(&mut self) -> Step {
        let (value, which) = (self.known_value(), self.which());
        let header = self.header();
        if self.rng.chance(40) {
            let mut list = self.words_of(value, which);
            fill_tail(&mut list, header.rows as usize);
            return self.put_list(value, which, &list);
        }
        let mut rows = self.rows_of(value, which);
        rows.resize(header.groups() * GROUP, true);
        let list = encode(&rows);
        self.put_list(value, which, &list)
    }

    /// Gives a row a second value, or a first one if it is deleted.
    fn row_in_two_values(&mut self) -> Step {
        let issued = self.header().issued as usize;
        if issued == 0 {
            return self.odd_length();
        }
        let row = self.rng.below(issued);
        let (value, which) = (self.known_value(), self.which());
        self.turn_row(value, which, row)
    }

    fn unused_word(&mut self) -> Step {
        let (value, which) = (self.known_value(), self.which());
        let span = self.index().span(value, which);
        let length = self.words_of(value, which).len();
        if length == span.room {
            return self.odd_memory_word();
        }
        let place = self.rng.between(length, span.room - 1);
        let word = self.odd_word().max(1);
        self.poke(span.start + place, word)
    }

    /// T + 1 or more ones in U, as neighbours so that they find room, with V changed to suit.
    fn too_many_updates(&mut self) -> Step {
        let value = self.known_value();
        let held = xor(
            &self.rows_of(value, Which::Value),
            &self.rows_of(value, Which::Update),
        );
        let most = self.header().threshold as usize;
        let first = self.rng.below(held.len());
        let mut update = vec![false; held.len()];
        let more = self.rng.between(0, 2);
        update
            .iter_mut()
            .skip(first)
            .take(most + more)
            .for_each(|bit| *bit = true);
        if ones(&update) < most {
            return self.odd_length();
        }
        let list = encode(&xor(&held, &update));
        self.put_list(value, Which::Value, &list)?;
        self.put_list(value, Which::Update, &encode(&update))
    }

    /// Another header over the same memory, within its limits.
    fn other_header(&mut self) -> Step {
        let mut odd = self.header();
        match self.rng.below(6) {
            0 => odd.issued = self.rng.below(odd.rows as usize + 1) as u32,
            1 => {
                odd.rows = self
                    .rng
                    .between(odd.issued.max(1) as usize, 130.max(odd.issued as usize))
                    as u32
            }
            2 => odd.rows = (odd.rows + 1).min(126_976),
            3 => odd.values = self.rng.between(1, odd.values as usize) as u32,
            4 => odd.threshold = self.rng.between(1, odd.threshold as usize + 2) as u32,
            _ => odd.spacing = self.rng.between(1, odd.spacing as usize + 2) as u32,
        }
        self.set_header(odd)
    }
}
