//! The line console as document 01's calls and its own rules give it: a line in, its answer out.

use std::fmt::Write;

use crate::fault::Fault;
use crate::header::Header;
use crate::index::{Fence, Index};
use crate::queries::DELETED;
use crate::refusal::Refusal;
use crate::rows::MOST_ROWS;

pub const CONSOLE_WORDS: usize = 300_000;
pub const CONSOLE_FENCES: usize = 16_384;

/// What a line is answered, beside "done".
pub enum Complaint {
    Refused(Refusal),
    Line,
    Range,
}

impl From<Refusal> for Complaint {
    fn from(refusal: Refusal) -> Complaint {
        Complaint::Refused(refusal)
    }
}

/// The text after `0`, or why there is none.
type Answer = Result<String, Complaint>;

pub struct Console {
    pub index: Index,
}

impl Console {
    pub fn new(fault: Fault) -> Console {
        Console {
            index: Index::new(CONSOLE_WORDS, CONSOLE_FENCES, fault),
        }
    }

    /// The answer to a line without its newline, `None` for a line that gets none.
    pub fn answer(&mut self, line: &str) -> Option<String> {
        if line.is_empty() || line.starts_with('#') {
            return None;
        }
        if line == "help" {
            return Some("# calls and trials, one a line".to_string());
        }
        Some(match self.obey(line) {
            Ok(text) if text.is_empty() => "0".to_string(),
            Ok(text) => format!("0 {text}"),
            Err(Complaint::Refused(why)) => format!("{} {}", why.number(), why.name()),
            Err(Complaint::Line) => "? line".to_string(),
            Err(Complaint::Range) => "? range".to_string(),
        })
    }

    fn obey(&mut self, line: &str) -> Answer {
        let fields: Vec<&str> = line.split(' ').collect();
        let (name, rest) = (fields[0], &fields[1..]);
        match name {
            "load" => self.load(rest),
            "pack" => self.pack(rest),
            "unpack" => self.unpack(rest),
            "poke" => self.poke(rest),
            _ => self.obey_numbers(name, &numbers(rest)?),
        }
    }

    fn obey_numbers(&mut self, name: &str, given: &[u32]) -> Answer {
        let index = &mut self.index;
        match (name, given) {
            ("query", &[value]) => Ok(words_text(&index.query(value)?)),
            ("value", &[row]) => self.value(row),
            ("insert", &[value]) => Ok(format!("row {}", index.insert(value)?)),
            ("update", &[row, value]) => Ok(nothing(index.update(row, value)?)),
            ("delete", &[row]) => Ok(nothing(index.delete(row)?)),
            ("merge", &[value]) => Ok(nothing(index.merge(value)?)),
            ("audit", &[]) => Ok(nothing(index.audit()?)),
            ("dump", &[]) => Ok(column_text(&index.dump()?)),
            _ => self.obey_trial(name, given),
        }
    }

    fn obey_trial(&mut self, name: &str, given: &[u32]) -> Answer {
        let index = &mut self.index;
        match (name, given) {
            ("room", &[length]) => {
                index.room = within(length, MOST_ROWS)?;
                Ok(String::new())
            }
            ("lend", &[words, fences]) => {
                let (words, fences) = (
                    within(words, CONSOLE_WORDS)?,
                    within(fences, CONSOLE_FENCES)?,
                );
                (index.lent_words, index.lent_fences) = (words, fences);
                Ok(String::new())
            }
            ("header", &[rows, issued, values, threshold, spacing]) => {
                index.header = Header {
                    rows,
                    issued,
                    values,
                    threshold,
                    spacing,
                };
                Ok(String::new())
            }
            ("pokefence", &[at, place, first]) => {
                let fence = index.fences.get_mut(at as usize).ok_or(Complaint::Range)?;
                *fence = Fence { place, first };
                Ok(String::new())
            }
            ("peek", &[at, count]) => self.peek(at, count),
            ("peekfence", &[at, count]) => self.peek_fence(at, count),
            _ => Err(Complaint::Line),
        }
    }

    fn load(&mut self, fields: &[&str]) -> Answer {
        if fields.len() < 4 {
            return Err(Complaint::Line);
        }
        let shape = numbers(&fields[..4])?;
        let shape = Header {
            rows: shape[0],
            issued: 0,
            values: shape[1],
            threshold: shape[2],
            spacing: shape[3],
        };
        let mut column = Vec::with_capacity(fields.len());
        for number in numbers(&fields[4..])? {
            column.push(u8::try_from(number).map_err(|_| Complaint::Line)?);
        }
        Ok(format!("loaded {}", self.index.load(shape, &column)?))
    }

    fn value(&mut self, row: u32) -> Answer {
        let state = self.index.value(row)?;
        let opened = state.opened;
        Ok(match state.value {
            Some(value) => format!("live {value} opened {opened}"),
            None => format!("deleted opened {opened}"),
        })
    }

    fn pack(&mut self, fields: &[&str]) -> Answer {
        let digits = match fields {
            [] => "",
            [digits] if !digits.is_empty() => digits,
            _ => return Err(Complaint::Line),
        };
        if !digits.bytes().all(|byte| byte.is_ascii_digit()) {
            return Err(Complaint::Line);
        }
        let digits: Vec<u8> = digits.bytes().map(|byte| byte - b'0').collect();
        Ok(words_text(&self.index.pack(&digits)?))
    }

    fn unpack(&mut self, fields: &[&str]) -> Answer {
        let (length, list) = fields.split_first().ok_or(Complaint::Line)?;
        let length = number(length)?;
        let list: Result<Vec<u32>, Complaint> = list.iter().map(|field| word(field)).collect();
        let rows = self.index.unpack(length, &list?)?;
        let digit = |&row: &bool| if row { '1' } else { '0' };
        Ok(rows.iter().map(digit).collect())
    }

    fn poke(&mut self, fields: &[&str]) -> Answer {
        let &[at, content] = fields else {
            return Err(Complaint::Line);
        };
        let (at, content) = (number(at)? as usize, word(content)?);
        *self.index.words.get_mut(at).ok_or(Complaint::Range)? = content;
        Ok(String::new())
    }

    fn peek(&self, at: u32, count: u32) -> Answer {
        let (from, count) = (at as usize, count as usize);
        let words = self.index.words.get(from..from + count);
        Ok(words_text(words.ok_or(Complaint::Range)?))
    }

    fn peek_fence(&self, at: u32, count: u32) -> Answer {
        let (from, count) = (at as usize, count as usize);
        let fences = self.index.fences.get(from..from + count);
        let mut text = String::new();
        for fence in fences.ok_or(Complaint::Range)? {
            write!(text, "{}:{} ", fence.place, fence.first).expect("text grows");
        }
        text.pop();
        Ok(text)
    }
}

fn nothing(_: ()) -> String {
    String::new()
}

fn within(number: u32, most: usize) -> Result<usize, Complaint> {
    let number = number as usize;
    (number <= most).then_some(number).ok_or(Complaint::Range)
}

fn number(field: &str) -> Result<u32, Complaint> {
    if !field.bytes().all(|byte| byte.is_ascii_digit()) {
        return Err(Complaint::Line);
    }
    field.parse().map_err(|_| Complaint::Line)
}

fn numbers(fields: &[&str]) -> Result<Vec<u32>, Complaint> {
    fields.iter().map(|field| number(field)).collect()
}

fn word(field: &str) -> Result<u32, Complaint> {
    let digit = |byte: u8| matches!(byte, b'0'..=b'9' | b'a'..=b'f');
    if field.len() != 8 || !field.bytes().all(digit) {
        return Err(Complaint::Line);
    }
    u32::from_str_radix(field, 16).map_err(|_| Complaint::Line)
}

/// Words in 8 digits each with spaces between.
pub fn words_text(words: &[u32]) -> String {
    const DIGITS: &[u8; 16] = b"0123456789abcdef";
    let mut text = String::with_capacity(words.len() * 9);
    for word in words {
        for shift in (0..8).rev() {
            text.push(char::from(DIGITS[(word >> (4 * shift) & 15) as usize]));
        }
        text.push(' ');
    }
    text.pop();
    text
}

fn column_text(column: &[u8]) -> String {
    let mut text = String::with_capacity(column.len() * 3);
    for &byte in column {
        match byte {
            DELETED => text.push_str("- "),
            value => write!(text, "{value} ").expect("text grows"),
        }
    }
    text.pop();
    text
}
