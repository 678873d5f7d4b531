//! Random histories of one console.

use crate::dialogue::{Dialogue, Difference, Step};
use crate::header::Header;
use crate::player::{load_line, Player};
use crate::process::Program;
use crate::rng::Rng;
use crate::rows::{GROUP, MOST_ROWS};
use crate::shapes::{issued, large_shape, middle_shape, odd_shape, shape, small_shape};
use crate::tally::Tally;

/// Most words that a Dump of a big index may have to open.
const DUMP_WORK: usize = 100_000_000;

/// Plays history `number` of a seed.
pub fn play(desk: &Program, seed: u64, number: usize, show: bool) -> Result<Tally, Difference> {
    let rng = Rng::new(seed, number as u64);
    let mut player = Player::new(rng, Dialogue::start(desk, show)?);
    match number {
        0 => player.example()?,
        1 => player.largest()?,
        _ => player.any_history()?,
    }
    player.look_at_all()?;
    if number < 4 || player.rng.chance(3) {
        player.look_everywhere()?;
    }
    let mut tally = player.dialogue.end()?;
    tally.histories = 1;
    Ok(tally)
}

impl Player {
    fn any_history(&mut self) -> Step {
        match self.rng.below(100) {
            0..=37 => self.ordinary(),
            38..=73 => self.damaged(),
            74..=79 => self.growing(),
            80..=83 => self.up_to_threshold(),
            84..=88 => self.lists_only(),
            89..=92 => self.unloaded(),
            93..=97 => self.middle(),
            _ => self.large(),
        }
    }

    /// Some words and fences that a Load has to write over.
    fn litter(&mut self, shape: Header) -> Step {
        if self.rng.chance(50) {
            return Ok(());
        }
        for _ in 0..self.rng.between(1, 12) {
            let at = self.rng.below(shape.words_needed() + 4);
            let word = self.odd_word();
            self.say(format!("poke {at} {word:08x}"))?;
            let at = self.rng.below(shape.fences_needed() + 4);
            let (place, first) = (self.rng.below(9), self.rng.below(9));
            self.say(format!("pokefence {at} {place} {first}"))?;
        }
        Ok(())
    }

    fn begin(&mut self, shape: Header) -> Step {
        self.litter(shape)?;
        match self.rng.chance(70) {
            true => self.lend_for(shape)?,
            false => self.lend_all()?,
        }
        let count = issued(&mut self.rng, shape.rows as usize);
        self.load(shape, count)
    }

    fn ordinary(&mut self) -> Step {
        for _ in 0..self.rng.between(1, 2) {
            let shape = small_shape(&mut self.rng);
            self.begin(shape)?;
            for _ in 0..self.rng.between(5, 45) {
                self.step()?;
            }
        }
        self.every_call()
    }

    /// Rounds of load, changes, damage and every call.
    fn damaged(&mut self) -> Step {
        for _ in 0..self.rng.between(1, 5) {
            let mut shape = small_shape(&mut self.rng);
            shape.values = shape.values.min(8);
            self.begin(shape)?;
            for _ in 0..self.rng.between(0, 8) {
                self.any_change()?;
            }
            if !self.header().allowed() {
                continue;
            }
            self.damage_round()?;
        }
        Ok(())
    }

    fn damage_round(&mut self) -> Step {
        for _ in 0..self.rng.pick(&[1, 1, 1, 2, 3]) {
            if self.index().ready().is_ok() {
                self.damage()?;
            }
        }
        self.use_header(self.header());
        if self.rng.chance(20) {
            let room = self.rng.below(4);
            self.say(format!("room {room}"))?;
        }
        self.every_call()?;
        for _ in 0..self.rng.between(0, 12) {
            self.any_call()?;
        }
        self.room_all()
    }

    /// Inserts until the index is full, and some more.
    fn growing(&mut self) -> Step {
        let mut shape = small_shape(&mut self.rng);
        shape.rows = shape.rows.min(160);
        self.lend_for(shape)?;
        let count = self.rng.below(shape.rows as usize);
        self.load(shape, count)?;
        for _ in count..shape.rows as usize + 2 {
            let value = self.value();
            self.call(format!("insert {value}"))?;
            if self.rng.chance(15) {
                self.step()?;
            }
        }
        self.every_call()
    }

    /// Brings U to T ones that need 2T + 1 words, then one row more, in two values at once.
    fn up_to_threshold(&mut self) -> Step {
        let threshold = self.rng.pick(&[1, 2, 5, 20, 64, 255]);
        let rows = GROUP * (2 * threshold + 1) + self.rng.below(70);
        let spacing = self.rng.pick(&[1, 2, 3, 16, 256]);
        let shape = shape(rows, 2, threshold, spacing);
        self.lend_for(shape)?;
        let first = self.rng.below(2) as u8;
        self.call(load_line(shape, &vec![first; rows]))?;
        let mut groups: Vec<usize> = (0..threshold).map(|nth| 2 * nth + 1).collect();
        self.rng.shuffle(&mut groups);
        for group in groups {
            let row = GROUP * group + self.rng.below(GROUP);
            self.say(format!("update {row} {}", 1 - first))?;
        }
        self.look_at_all()?;
        for _ in 0..6 {
            self.there_or_gone()?;
        }
        self.every_call()
    }

    fn there_or_gone(&mut self) -> Step {
        let row = self.row();
        let line = match self.rng.below(3) {
            0 => format!("delete {row}"),
            _ => format!("update {row} {}", self.value()),
        };
        self.call(line)
    }

    fn lists_only(&mut self) -> Step {
        for _ in 0..self.rng.between(10, 50) {
            self.any_packing()?;
        }
        Ok(())
    }

    /// Calls before any load, and on memory and headers that no load made.
    fn unloaded(&mut self) -> Step {
        self.every_call()?;
        for _ in 0..self.rng.between(2, 12) {
            let mut header = odd_shape(&mut self.rng);
            header.issued = self.rng.below(header.rows.min(200) as usize + 2) as u32;
            self.set_header(header)?;
            for _ in 0..self.rng.below(30) {
                let (at, word) = (self.rng.below(150), self.odd_word());
                self.say(format!("poke {at} {word:08x}"))?;
            }
            self.any_call()?;
            self.any_call()?;
            self.call(load_line(header, &[]))?;
        }
        self.every_call()
    }

    fn middle(&mut self) -> Step {
        let shape = middle_shape(&mut self.rng);
        self.begin(shape)?;
        for _ in 0..self.rng.between(10, 60) {
            self.step()?;
        }
        self.every_call()
    }

    fn large(&mut self) -> Step {
        let mut shape = large_shape(&mut self.rng);
        if self.rng.chance(85) {
            fit_fences(&mut shape);
        }
        let count = issued(&mut self.rng, shape.rows as usize);
        self.load(shape, count)?;
        for _ in 0..self.rng.between(10, 40) {
            self.large_step()?;
        }
        if self.header().allowed() {
            self.large_ends()?;
        }
        Ok(())
    }

    fn large_step(&mut self) -> Step {
        let line = match self.rng.below(12) {
            0..=3 => format!("value {}", self.row()),
            4 => format!("query {}", self.value()),
            5 => format!("merge {}", self.value()),
            6 | 7 => format!("insert {}", self.value()),
            8 => format!("delete {}", self.row()),
            _ => format!("update {} {}", self.row(), self.value()),
        };
        self.call(line)?;
        if self.index().ready().is_ok() && self.rng.chance(30) {
            let value = self.rng.below(self.header().values as usize);
            self.look_at_value(value)?;
        }
        Ok(())
    }

    fn large_ends(&mut self) -> Step {
        self.call("audit")?;
        if self.dump_work() <= DUMP_WORK {
            self.call("dump")?;
        }
        if self.rng.chance(50) && self.index().ready().is_ok() {
            self.damage_of_large()?;
        }
        Ok(())
    }

    /// A damage that takes few pokes, then calls that do not read all rows.
    fn damage_of_large(&mut self) -> Step {
        let at = self.rng.below(self.header().words_needed());
        let word = self.odd_word();
        self.say(format!("poke {at} {word:08x}"))?;
        for _ in 0..8 {
            self.large_step()?;
        }
        self.call("audit")
    }

    /// Words that a Dump opens at most, roughly.
    fn dump_work(&self) -> usize {
        let header = self.header();
        let each = (header.spacing + 2 * header.threshold) as usize / 2 + 1;
        header.issued as usize * header.values as usize * each
    }

    /// Document 01's example of the printing program, with its changes.
    fn example(&mut self) -> Step {
        for line in [
            "load 62 2 1 1 0 1 255 0",
            "query 0",
            "query 1",
            "update 0 1",
            "query 0",
            "value 0",
            "update 3 1",
            "query 0",
            "query 1",
            "delete 2",
            "value 4",
            "insert 0",
            "query 0",
            "dump",
            "audit",
        ] {
            self.call(line)?;
        }
        self.limits()
    }

    /// The limits of the header, each from inside and outside.
    fn limits(&mut self) -> Step {
        for line in [
            "load 126976 1 1 256",
            "update 0 0",
            "load 126977 1 1 256",
            "load 31 1 0 1",
            "load 31 1 255 1",
            "load 31 1 256 1",
            "load 31 1 1 0",
            "load 31 1 1 256",
            "load 31 1 1 257",
            "load 31 0 1 1",
            "load 31 64 1 1",
            "load 31 65 1 1",
            "audit",
        ] {
            self.call(line)?;
        }
        Ok(())
    }

    /// Every number of the header at its limit, every call, and the most rows and one more.
    fn largest(&mut self) -> Step {
        let shape = shape(MOST_ROWS, 64, 255, 256);
        self.load(shape, MOST_ROWS)?;
        self.look_everywhere()?;
        for line in [
            "update 126975 63",
            "update 0 62",
            "value 126975",
            "value 126976",
            "query 63",
            "insert 0",
            "delete 62073",
            "merge 63",
            "audit",
            "dump",
        ] {
            self.call(line)?;
        }
        self.call(load_line(shape, &vec![0; MOST_ROWS + 1]))?;
        self.say(format!("pack {}", "1".repeat(MOST_ROWS)))?;
        self.say(format!("pack {}", "1".repeat(MOST_ROWS + 1)))?;
        self.say("unpack 126976 c0001000")?;
        self.say("unpack 126977 c0001001")
    }
}

/// Widens the fence spacing, or else takes fewer values, until the console's fences suffice.
fn fit_fences(shape: &mut Header) {
    while shape.fences_needed() > crate::console::CONSOLE_FENCES {
        match shape.spacing < 256 {
            true => shape.spacing = (shape.spacing * 2).min(256),
            false => shape.values -= 1,
        }
    }
}
