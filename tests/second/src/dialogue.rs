//! One console and the model side by side: each line goes to both, and the answers must agree.

use crate::console::Console;
use crate::fault::Fault;
use crate::index::Index;
use crate::process::{Program, Talk};
use crate::tally::Tally;

/// A line to which the console did not answer what the model did.
pub struct Difference {
    pub line_number: usize,
    pub sent: String,
    pub expected: String,
    pub got: String,
}

pub type Step = Result<(), Difference>;

pub struct Dialogue {
    console: Talk,
    model: Console,
    sent: usize,
    pub tally: Tally,
    /// Prints each line, and its answer as a comment, so that the whole can be given to a console.
    show: bool,
}

impl Dialogue {
    pub fn start(desk: &Program, show: bool) -> Result<Dialogue, Difference> {
        let console = Talk::start(desk).map_err(|why| Difference {
            line_number: 0,
            sent: String::new(),
            expected: "a console".into(),
            got: why,
        })?;
        Ok(Dialogue {
            console,
            model: Console::new(Fault::None),
            sent: 0,
            tally: Tally::default(),
            show,
        })
    }

    /// The model's index, from which a history takes its next line.
    pub fn index(&self) -> &Index {
        &self.model.index
    }

    pub fn say(&mut self, line: &str) -> Step {
        self.sent += 1;
        let told = self.console.tell(line);
        let answer = self.model.answer(line);
        let Some(expected) = answer.filter(|text| !text.starts_with('#')) else {
            return told.map_err(|why| self.difference(line, "no answer", &why));
        };
        let heard = told.and_then(|()| self.console.hear());
        let got = heard.unwrap_or_else(|why| format!("({why})"));
        if self.show {
            println!("{line}\n# {got}");
        }
        if got != expected {
            return Err(self.difference(line, &expected, &got));
        }
        self.count(line, &expected);
        Ok(())
    }

    fn count(&mut self, line: &str, answer: &str) {
        self.tally.lines += 1;
        let name = line.split(' ').next().unwrap_or("");
        let number = answer.split(' ').next().unwrap_or("");
        if let Ok(number) = number.parse() {
            self.tally.count(name, number);
        }
        if name.starts_with("peek") {
            self.tally.looked_at += answer.split(' ').count() - 1;
        }
    }

    fn difference(&self, line: &str, expected: &str, got: &str) -> Difference {
        Difference {
            line_number: self.sent,
            sent: line.to_string(),
            expected: expected.to_string(),
            got: got.to_string(),
        }
    }

    /// Ends the console and gives what was counted.
    pub fn end(self) -> Result<Tally, Difference> {
        let sent = self.sent;
        self.console.end().map_err(|why| Difference {
            line_number: sent,
            sent: "(end of input)".into(),
            expected: "the console's end".into(),
            got: why,
        })?;
        let mut tally = self.tally;
        tally.merging_flips = self.model.index.merging_flips;
        Ok(tally)
    }
}

impl Difference {
    /// The difference in a few lines; of long texts the part around the first differing byte.
    pub fn text(&self) -> String {
        let (left, right) = (self.expected.as_bytes(), self.got.as_bytes());
        let same = left.iter().zip(right).take_while(|(l, r)| l == r).count();
        format!(
            "line {}\n  sent:     {}\n  expected: {}\n  got:      {}\n  (first difference at byte {same})",
            self.line_number,
            part(&self.sent, 0),
            part(&self.expected, same),
            part(&self.got, same)
        )
    }
}

/// A text, or 200 bytes of it around a place with its start.
fn part(text: &str, place: usize) -> String {
    if text.len() <= 300 || !text.is_ascii() {
        return text.to_string();
    }
    let from = place.saturating_sub(100).min(text.len());
    let to = (from + 200).min(text.len());
    let head = match from {
        0 => String::new(),
        _ => format!("{} .. ", &text[..20]),
    };
    let tail = text.len() - to;
    format!("{head}{} .. ({tail} bytes more)", &text[from..to])
}
