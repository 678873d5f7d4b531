//! Trials of Pack and Unpack.

use crate::console::words_text;
use crate::dialogue::Step;
use crate::player::Player;
use crate::rows::{encode, groups_of, FILL, FILL_ONES, MOST_ROWS};
use crate::shapes::column;

impl Player {
    pub fn any_packing(&mut self) -> Step {
        match self.rng.below(10) {
            0 | 1 => self.good_pack(),
            2 => self.bad_pack(),
            3 => self.tight_pack(),
            4 => self.tight_unpack(),
            5 | 6 => self.good_unpack(),
            _ => self.bad_unpack(),
        }
    }

    fn length(&mut self) -> usize {
        match self.rng.below(60) {
            0 => self.rng.pick(&[MOST_ROWS, MOST_ROWS - 1, MOST_ROWS - 30]),
            1..=20 => self.rng.pick(&[0, 1, 30, 31, 32, 61, 62, 63, 93, 124]),
            _ => self.rng.between(0, 900),
        }
    }

    fn some_rows(&mut self) -> Vec<bool> {
        let length = self.length();
        let bytes = column(&mut self.rng, length, 2);
        bytes.iter().map(|&byte| byte == 1).collect()
    }

    fn good_pack(&mut self) -> Step {
        let rows = self.some_rows();
        self.say(pack_line(&digits(&rows)))
    }

    /// Digits above 1, or more rows than the most.
    fn bad_pack(&mut self) -> Step {
        let mut text = digits(&self.some_rows()).into_bytes();
        if self.rng.chance(8) {
            text.resize(MOST_ROWS + self.rng.between(0, 1), b'1');
        }
        if self.rng.chance(70) && !text.is_empty() {
            let place = self.rng.below(text.len());
            text[place] = b'0' + self.rng.between(1, 9) as u8;
        }
        self.say(pack_line(&String::from_utf8(text).expect("digits")))
    }

    fn tight_pack(&mut self) -> Step {
        let rows = self.some_rows();
        self.call_in_room(&pack_line(&digits(&rows)), encode(&rows).len())
    }

    fn tight_unpack(&mut self) -> Step {
        let rows = self.some_rows();
        let line = unpack_line(rows.len() as u32, &encode(&rows));
        self.call_in_room(&line, rows.len())
    }

    fn good_unpack(&mut self) -> Step {
        let rows = self.some_rows();
        self.say(unpack_line(rows.len() as u32, &encode(&rows)))
    }

    /// A list with one thing wrong, or another number of rows.
    fn bad_unpack(&mut self) -> Step {
        let rows = self.some_rows();
        let mut list = encode(&rows);
        let mut length = rows.len() as u32;
        match self.rng.chance(30) {
            true => length = self.other_length(length),
            false => self.spoil(&mut list, rows.len()),
        }
        if self.rng.chance(10) {
            let room = self.rng.below(rows.len() + 2);
            self.say(format!("room {}", room.min(MOST_ROWS)))?;
        }
        self.say(unpack_line(length, &list))?;
        self.room_all()
    }

    fn other_length(&mut self, length: u32) -> u32 {
        match self.rng.below(8) {
            0 => self.rng.pick(&[126_977, 126_978, 1 << 31, u32::MAX]),
            1 => 0,
            2 => self.rng.below(MOST_ROWS + 1) as u32,
            3 => length.saturating_sub(1),
            4 => length.saturating_sub(31),
            5 => length + 31,
            6 => groups_of(length as usize) as u32 * 31,
            _ => length + 1,
        }
    }

    /// Changes a list so that it is most often not canonical any more.
    pub fn spoil(&mut self, list: &mut Vec<u32>, rows: usize) {
        let place = self.rng.below(list.len());
        match self.rng.below(10) {
            0 => list.push(
                self.rng
                    .pick(&[0, 1, FILL, FILL | 1, FILL_ONES, FILL_ONES | 1]),
            ),
            1 => list.insert(place, self.rng.pick(&[FILL, FILL_ONES])),
            _ if list.is_empty() => list.push(FILL),
            2 => drop(list.pop()),
            3 => list[place] = self.odd_word(),
            4 => list[place] ^= 1 << self.rng.below(32),
            5 => split_fill(list, place),
            6 => loosen_fill(list, place),
            7 => list.swap(place, 0),
            8 => list[place] = list[place].wrapping_add(1),
            _ => fill_tail(list, rows),
        }
    }

    pub fn odd_word(&mut self) -> u32 {
        let odd = [0, 1, 2, FILL, FILL | 1, FILL_ONES, FILL_ONES | 1];
        match self.rng.below(4) {
            0 => self.rng.word(),
            1 => self
                .rng
                .pick(&[u32::MAX, i32::MAX as u32, FILL | 4096, FILL_ONES - 1]),
            _ => self.rng.pick(&odd),
        }
    }
}

/// Two fills of one kind in place of one that counts 2 or more.
pub fn split_fill(list: &mut Vec<u32>, near: usize) {
    let long = |&word: &u32| word & FILL != 0 && word & !FILL_ONES > 1;
    let found = list.iter().skip(near).position(long);
    if let Some(place) = found.map(|place| place + near) {
        list[place] -= 1;
        list.insert(place, list[place] & FILL_ONES | 1);
    }
}

/// A literal in place of a fill that counts 1, or before one that counts more.
pub fn loosen_fill(list: &mut Vec<u32>, near: usize) {
    let found = list.iter().skip(near).position(|&word| word & FILL != 0);
    let Some(place) = found.map(|place| place + near) else {
        return;
    };
    let ones = list[place] & FILL_ONES == FILL_ONES;
    let literal = if ones { !FILL } else { 0 };
    match list[place] & !FILL_ONES {
        0 | 1 => list[place] = literal,
        _ => {
            list[place] -= 1;
            list.insert(place, literal);
        }
    }
}

/// Sets the bits past the last row in a literal at the end.
pub fn fill_tail(list: &mut [u32], rows: usize) {
    let past = groups_of(rows) * 31 - rows;
    if let Some(last) = list.last_mut() {
        if *last & FILL == 0 {
            *last |= (1 << past) - 1;
        }
    }
}

fn digits(rows: &[bool]) -> String {
    let digit = |&row: &bool| if row { '1' } else { '0' };
    rows.iter().map(digit).collect()
}

fn pack_line(digits: &str) -> String {
    match digits {
        "" => "pack".to_string(),
        _ => format!("pack {digits}"),
    }
}

fn unpack_line(length: u32, list: &[u32]) -> String {
    match list {
        [] => format!("unpack {length}"),
        _ => format!("unpack {length} {}", words_text(list)),
    }
}
