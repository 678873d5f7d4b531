//! Counts of what a run tried, so that a reader sees that nothing was left out.

use std::fmt::Write;

/// The calls, and the refusals that each can give. The refusals of the printing program are counted
/// as those of a call `print`.
pub const CALLS: [(&str, &[usize]); 12] = [
    ("load", &[1, 2, 3, 5]),
    ("query", &[1, 2, 3, 6, 8]),
    ("value", &[1, 2, 4, 6]),
    ("insert", &[1, 2, 3, 5, 6]),
    ("update", &[1, 2, 3, 4, 6, 7]),
    ("delete", &[1, 2, 4, 6, 7]),
    ("merge", &[1, 2, 3, 6]),
    ("dump", &[1, 2, 6, 8]),
    ("audit", &[1, 2, 6]),
    ("pack", &[3, 5, 8]),
    ("unpack", &[5, 8, 9]),
    ("print", &[1, 2, 3, 5, 10]),
];

#[derive(Default, Clone)]
pub struct Tally {
    pub histories: usize,
    pub frames: usize,
    /// Lines that were answered, with pokes and peeks.
    pub lines: usize,
    /// Words and fences looked at after calls.
    pub looked_at: usize,
    /// Flips that had to merge first.
    pub merging_flips: usize,
    /// For each call how often each number was the answer; 0 is done.
    answers: [[usize; 11]; CALLS.len()],
}

impl Tally {
    /// Counts the answer number of a call; other lines are not calls.
    pub fn count(&mut self, name: &str, number: usize) {
        if let Some(call) = CALLS.iter().position(|call| call.0 == name) {
            self.answers[call][number] += 1;
        }
    }

    pub fn add(&mut self, other: &Tally) {
        self.histories += other.histories;
        self.frames += other.frames;
        self.lines += other.lines;
        self.looked_at += other.looked_at;
        self.merging_flips += other.merging_flips;
        for (mine, theirs) in self.answers.iter_mut().zip(&other.answers) {
            for (count, more) in mine.iter_mut().zip(theirs) {
                *count += more;
            }
        }
    }

    /// The answers that a call can give and that were not seen.
    pub fn unseen(&self) -> Vec<String> {
        let mut unseen = Vec::new();
        for ((name, refusals), counts) in CALLS.iter().zip(&self.answers) {
            for &number in std::iter::once(&0).chain(refusals.iter()) {
                if counts[number] == 0 {
                    unseen.push(format!("{name} {number}"));
                }
            }
        }
        unseen
    }

    /// One line: for each call how often it was done, then its refusals as number:count.
    pub fn text(&self) -> String {
        let mut text = format!(
            "{} histories, {} frames, {} lines, {} words and fences looked at, {} merging flips;",
            self.histories, self.frames, self.lines, self.looked_at, self.merging_flips
        );
        for ((name, _), counts) in CALLS.iter().zip(&self.answers) {
            write!(text, " {name} {}", counts[0]).expect("text grows");
            let refused = counts.iter().enumerate().skip(1);
            let refused: Vec<String> = refused
                .filter(|(_, &count)| count > 0)
                .map(|(number, count)| format!("{number}:{count}"))
                .collect();
            write!(text, " ({})", refused.join(" ")).expect("text grows");
        }
        text
    }
}
