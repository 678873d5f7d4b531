//! Single trials that a history strings together: ordinary changes and each kind of refusal.

use crate::dialogue::Step;
use crate::player::{load_line, Player};
use crate::shapes::{column, issued, odd_shape, small_shape};

/// Lines that the console does not take, places past its memory, and lines that get no answer.
const ODD_LINES: [&str; 39] = [
    "",
    "# no answer",
    "help",
    "query",
    "query 0 0",
    "query x",
    "value -1",
    "value 4294967296",
    "insert",
    "update 0",
    "update 0 0 0",
    "delete 0 1",
    "merge",
    "dump 1",
    "audit 0",
    "load 31 1 1",
    "load 31 1 1 1 256",
    "load 31 1 1 1 0 0 x",
    "load 31 1 1 4294967296",
    "pack 01a",
    "pack 01 01",
    "unpack",
    "unpack 31 8000000",
    "unpack 31 800000001",
    "unpack 31 C0000001",
    "poke 0",
    "poke 0 0000000g",
    "poke 300000 00000000",
    "pokefence 16384 0 0",
    "pokefence 0 0",
    "peek 300000 1",
    "peek 299999 2",
    "peek 4294967295 1",
    "peekfence 16384 1",
    "peekfence 16380 5",
    "header 1 1 1 1",
    "lend 5",
    "room",
    "nothing",
];

impl Player {
    /// One step of an ordinary history.
    pub fn step(&mut self) -> Step {
        match self.rng.below(40) {
            0..=17 => self.any_change(),
            18..=26 => self.any_read(),
            27 | 28 => self.same_value(),
            29..=31 => self.there_and_back(),
            32 => self.tight_query(),
            33 => self.tight_dump(),
            34 => self.little_memory(),
            35 => self.odd_header(),
            36 => self.refused_load(),
            37 => self.several_reasons(),
            38 => self.odd_line(),
            _ => self.any_packing(),
        }
    }

    /// Update of a row to the value it has.
    fn same_value(&mut self) -> Step {
        let row = self.row();
        let state = self.index().value(row).ok();
        let value = state.and_then(|state| state.value).unwrap_or(0);
        self.call(format!("update {row} {value}"))
    }

    /// Moves a row and moves it back, which leaves no one in either U.
    fn there_and_back(&mut self) -> Step {
        let row = self.row();
        let state = self.index().value(row).ok();
        let Some(old) = state.and_then(|state| state.value) else {
            return self.call(format!("delete {row}"));
        };
        for _ in 0..self.rng.between(1, 3) {
            let new = self.value();
            self.call(format!("update {row} {new}"))?;
            self.call(format!("update {row} {old}"))?;
        }
        Ok(())
    }

    /// Query into an output just long enough, and one too short.
    fn tight_query(&mut self) -> Step {
        let value = self.value();
        let length = self.index().query(value).map_or(0, |list| list.len());
        self.call_in_room(&format!("query {value}"), length)
    }

    fn tight_dump(&mut self) -> Step {
        let length = self.header().issued as usize;
        self.call_in_room("dump", length)
    }

    pub fn call_in_room(&mut self, line: &str, length: usize) -> Step {
        self.say(format!("room {length}"))?;
        self.call(line)?;
        if length > 0 {
            let less = self.rng.between(1, length.min(3));
            self.say(format!("room {}", length - less))?;
            self.call(line)?;
        }
        self.room_all()
    }

    /// Every call with a word or a fence too few.
    fn little_memory(&mut self) -> Step {
        let header = self.header();
        if !header.allowed() {
            return Ok(());
        }
        let (words, fences) = (header.words_needed(), header.fences_needed());
        let less = self.rng.between(1, 2);
        let lent = match self.rng.below(3) {
            0 => (words - less, fences),
            1 => (words, fences.saturating_sub(less)),
            _ => (self.rng.below(words), self.rng.below(fences)),
        };
        let before = (self.index().lent_words, self.index().lent_fences);
        self.say(format!("lend {} {}", lent.0, lent.1))?;
        match self.rng.chance(30) {
            true => self.every_call()?,
            false => self.any_call()?,
        }
        self.call(load_line(header, &[]))?;
        self.say(format!("lend {} {}", before.0, before.1))
    }

    /// Calls with a number of the header outside its limits.
    fn odd_header(&mut self) -> Step {
        let right = self.header();
        let mut odd = right;
        match self.rng.below(5) {
            0 => odd.rows = self.rng.pick(&[0, 126_977, u32::MAX]),
            1 => odd.issued = self.rng.pick(&[right.rows.wrapping_add(1), u32::MAX]),
            2 => odd.values = self.rng.pick(&[0, 65, 256, u32::MAX]),
            3 => odd.threshold = self.rng.pick(&[0, 256, u32::MAX]),
            _ => odd.spacing = self.rng.pick(&[0, 257, u32::MAX]),
        }
        self.set_header(odd)?;
        match self.rng.chance(30) {
            true => self.every_call()?,
            false => self.any_call()?,
        }
        self.set_header(right)
    }

    /// A load that is mostly refused, and a call by the header that stays.
    fn refused_load(&mut self) -> Step {
        let mut shape = match self.rng.chance(60) {
            true => odd_shape(&mut self.rng),
            false => self.header(),
        };
        if self.rng.chance(10) {
            shape = small_shape(&mut self.rng);
        }
        let values = shape.values.clamp(1, 64) as usize;
        let rows = shape.rows.min(400) as usize;
        let count = match self.rng.below(3) {
            0 => rows + self.rng.between(1, 3),
            1 => rows,
            _ => issued(&mut self.rng, rows),
        };
        let mut bytes = column(&mut self.rng, count, values);
        if self.rng.chance(45) && count > 0 {
            let place = match self.rng.chance(40) {
                true => count - 1,
                false => self.rng.below(count),
            };
            bytes[place] = self.rng.pick(&[values as u8, 64, 65, 254, 100]);
        }
        self.call(load_line(shape, &bytes))?;
        self.any_call()
    }

    /// Some reasons to refuse at once: the lowest must be named.
    fn several_reasons(&mut self) -> Step {
        let (right, words, fences) = {
            let index = self.index();
            (index.header, index.lent_words, index.lent_fences)
        };
        if self.rng.chance(25) {
            let mut odd = right;
            odd.issued = right.rows.wrapping_add(self.rng.below(2) as u32);
            self.set_header(odd)?;
        }
        if self.rng.chance(25) {
            let less = self.rng.between(1, 3);
            self.say(format!("lend {} {fences}", words.saturating_sub(less)))?;
        }
        let room = self.rng.below(3);
        self.say(format!("room {room}"))?;
        let (row, value) = (self.bad_row(), self.bad_value());
        for line in [
            format!("insert {value}"),
            format!("update {row} {value}"),
            format!("delete {row}"),
            format!("query {value}"),
            format!("value {row}"),
            format!("merge {value}"),
            "dump".to_string(),
        ] {
            self.call(line)?;
        }
        self.say(format!("lend {words} {fences}"))?;
        if self.header().issued > right.rows {
            self.set_header(right)?;
        }
        self.room_all()
    }

    fn bad_row(&mut self) -> u32 {
        match self.rng.chance(50) {
            true => self.row(),
            false => self.header().issued,
        }
    }

    fn bad_value(&mut self) -> u32 {
        match self.rng.chance(50) {
            true => self.value(),
            false => self.header().values,
        }
    }

    fn odd_line(&mut self) -> Step {
        let line = self.rng.pick(&ODD_LINES);
        self.call(line)
    }
}
