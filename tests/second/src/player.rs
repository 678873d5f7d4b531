//! What all histories use: saying lines, looking at memory, random arguments and calls.

use crate::console::{CONSOLE_FENCES, CONSOLE_WORDS};
use crate::dialogue::{Dialogue, Step};
use crate::header::Header;
use crate::index::Index;
use crate::rng::Rng;
use crate::rows::MOST_ROWS;
use crate::shapes::column;

/// Most words and fences that are looked at after each call.
const SMALL_WORDS: usize = 3_000;
const SMALL_FENCES: usize = 1_000;
/// Words and fences looked at beyond those in use.
const BEYOND: usize = 6;

pub struct Player {
    pub rng: Rng,
    pub dialogue: Dialogue,
    /// Words and fences that any header of this history used.
    used_words: usize,
    used_fences: usize,
}

impl Player {
    pub fn new(rng: Rng, dialogue: Dialogue) -> Player {
        Player {
            rng,
            dialogue,
            used_words: 0,
            used_fences: 0,
        }
    }

    pub fn index(&self) -> &Index {
        self.dialogue.index()
    }

    pub fn header(&self) -> Header {
        self.dialogue.index().header
    }

    pub fn say(&mut self, line: impl AsRef<str>) -> Step {
        self.dialogue.say(line.as_ref())
    }

    /// A call, and a look at memory after it.
    pub fn call(&mut self, line: impl AsRef<str>) -> Step {
        self.say(line)?;
        self.use_header(self.header());
        self.look()
    }

    /// From now on the memory of this header is looked at too.
    pub fn use_header(&mut self, header: Header) {
        if !header.allowed() {
            return;
        }
        let index = self.dialogue.index();
        let words = header.words_needed().min(index.lent_words);
        let fences = header.fences_needed().min(index.lent_fences);
        self.used_words = self.used_words.max(words);
        self.used_fences = self.used_fences.max(fences);
    }

    fn seen_words(&self) -> usize {
        (self.used_words + BEYOND).min(CONSOLE_WORDS)
    }

    fn seen_fences(&self) -> usize {
        (self.used_fences + BEYOND).min(CONSOLE_FENCES)
    }

    /// Compares all memory in use, or of a big one two parts.
    fn look(&mut self) -> Step {
        if self.seen_words() <= SMALL_WORDS && self.seen_fences() <= SMALL_FENCES {
            return self.look_at_all();
        }
        let from = self.rng.below(self.seen_words());
        let count = (self.seen_words() - from).min(SMALL_WORDS / 3);
        self.say(format!("peek {from} {count}"))?;
        let from = self.rng.below(self.seen_fences());
        let count = (self.seen_fences() - from).min(SMALL_FENCES / 3);
        self.say(format!("peekfence {from} {count}"))
    }

    pub fn look_at_all(&mut self) -> Step {
        self.say(format!("peek 0 {}", self.seen_words()))?;
        self.say(format!("peekfence 0 {}", self.seen_fences()))
    }

    /// Compares the console's whole memory.
    pub fn look_everywhere(&mut self) -> Step {
        self.say(format!("peek 0 {CONSOLE_WORDS}"))?;
        self.say(format!("peekfence 0 {CONSOLE_FENCES}"))
    }

    /// Compares the block and fences of one value.
    pub fn look_at_value(&mut self, value: usize) -> Step {
        let header = self.header();
        let (block, each) = (header.block(), header.fences_each());
        self.say(format!("peek {} {block}", value * block))?;
        self.say(format!("peekfence {} {each}", value * each))
    }

    /// Lends just what a header needs, or a little more.
    pub fn lend_for(&mut self, header: Header) -> Step {
        let more = self.rng.pick(&[0, 0, 0, 1, 5]);
        let words = (header.words_needed() + more).min(CONSOLE_WORDS);
        let fences = (header.fences_needed() + more).min(CONSOLE_FENCES);
        self.say(format!("lend {words} {fences}"))
    }

    pub fn lend_all(&mut self) -> Step {
        self.say(format!("lend {CONSOLE_WORDS} {CONSOLE_FENCES}"))
    }

    pub fn room_all(&mut self) -> Step {
        self.say(format!("room {MOST_ROWS}"))
    }

    pub fn set_header(&mut self, header: Header) -> Step {
        self.say(format!(
            "header {} {} {} {} {}",
            header.rows, header.issued, header.values, header.threshold, header.spacing
        ))
    }

    /// Loads a random column of `count` rows.
    pub fn load(&mut self, shape: Header, count: usize) -> Step {
        let bytes = column(&mut self.rng, count, shape.values as usize);
        self.call(load_line(shape, &bytes))
    }

    /// A row, most often one that was issued, and of these often one of the first.
    pub fn row(&mut self) -> u32 {
        let Header { rows, issued, .. } = self.header();
        let count = issued as usize;
        match self.rng.below(20) {
            0 => {
                let odd = [
                    issued,
                    rows.wrapping_sub(1),
                    rows,
                    126_976,
                    1 << 31,
                    u32::MAX,
                ];
                self.rng.pick(&odd)
            }
            1..=7 => self.rng.below(count.min(4)) as u32,
            _ => self.rng.below(count) as u32,
        }
    }

    /// A value, most often one below d.
    pub fn value(&mut self) -> u32 {
        let values = self.header().values;
        if self.rng.chance(4) {
            let odd = [values, values.wrapping_add(1), 64, 255, 256, u32::MAX];
            return self.rng.pick(&odd);
        }
        self.rng.below(values as usize) as u32
    }

    /// Query, Value, Dump or Audit.
    pub fn any_read(&mut self) -> Step {
        let line = match self.rng.below(8) {
            0..=2 => format!("query {}", self.value()),
            3..=5 => format!("value {}", self.row()),
            6 => "dump".to_string(),
            _ => "audit".to_string(),
        };
        self.call(line)
    }

    /// Insert, Update, Delete or Merge.
    pub fn any_change(&mut self) -> Step {
        let line = match self.rng.below(10) {
            0..=2 => format!("insert {}", self.value()),
            3..=6 => format!("update {} {}", self.row(), self.value()),
            7 | 8 => format!("delete {}", self.row()),
            _ => format!("merge {}", self.value()),
        };
        self.call(line)
    }

    pub fn any_call(&mut self) -> Step {
        match self.rng.chance(40) {
            true => self.any_read(),
            false => self.any_change(),
        }
    }

    /// Every call at least once, those that change something last.
    pub fn every_call(&mut self) -> Step {
        self.call("audit")?;
        self.call("dump")?;
        for _ in 0..3 {
            let (row, value) = (self.row(), self.value());
            self.call(format!("value {row}"))?;
            self.call(format!("query {value}"))?;
        }
        let (row, other, value) = (self.row(), self.row(), self.value());
        let mut changes = [
            format!("insert {}", self.value()),
            format!("update {row} {value}"),
            format!("delete {other}"),
            format!("merge {}", self.value()),
        ];
        self.rng.shuffle(&mut changes);
        for change in &changes {
            self.call(change)?;
        }
        self.call("audit")
    }
}

pub fn load_line(shape: Header, column: &[u8]) -> String {
    let mut line = format!(
        "load {} {} {} {}",
        shape.rows, shape.values, shape.threshold, shape.spacing
    );
    for byte in column {
        line.push(' ');
        line.push_str(&byte.to_string());
    }
    line
}
