//! A run: all histories and frames of a seed, on some threads, to the first difference.

use std::process::ExitCode;
use std::sync::atomic::{AtomicBool, AtomicUsize, Ordering};
use std::sync::Mutex;
use std::thread;

use crate::dialogue::Difference;
use crate::frames::try_frame;
use crate::history::play;
use crate::options::Options;
use crate::tally::Tally;

/// From so many histories and frames on, each answer that a call can give must have been seen.
const ENOUGH_HISTORIES: usize = 1_000;
const ENOUGH_FRAMES: usize = 250;

/// What the threads of a run share.
struct Shared {
    next: AtomicUsize,
    stop: AtomicBool,
    tally: Mutex<Tally>,
}

pub fn compare(options: &Options) -> ExitCode {
    println!("second: seed {}", options.seed);
    let shared = Shared {
        next: AtomicUsize::new(0),
        stop: AtomicBool::new(false),
        tally: Mutex::new(Tally::default()),
    };
    thread::scope(|scope| {
        for _ in 0..options.jobs {
            scope.spawn(|| work(options, &shared));
        }
    });
    let tally = shared.tally.into_inner().expect("no thread panicked");
    let same = !shared.stop.into_inner();
    let all_seen = report_unseen(options, &tally, same);
    let verdict = if same { "no difference" } else { "DIFFERENT" };
    println!("second: seed {}: {verdict}: {}", options.seed, tally.text());
    match same && all_seen {
        true => ExitCode::SUCCESS,
        false => ExitCode::FAILURE,
    }
}

/// Takes histories and frames in turn until there are no more. The frames come after the histories.
fn work(options: &Options, shared: &Shared) {
    let (histories, frames) = match options.only {
        Some(_) => (1, 0),
        None => (options.histories, options.frames),
    };
    while !shared.stop.load(Ordering::Relaxed) {
        let number = shared.next.fetch_add(1, Ordering::Relaxed);
        if number >= histories + frames {
            return;
        }
        let (kind, number, done) = match number.checked_sub(histories) {
            None => one_history(options, options.only.unwrap_or(number)),
            Some(frame) => (
                "frame",
                frame,
                try_frame(&options.print, options.seed, frame),
            ),
        };
        match done {
            Ok(tally) => shared.tally.lock().expect("no panic").add(&tally),
            Err(difference) => {
                shared.stop.store(true, Ordering::Relaxed);
                report(options, kind, number, &difference);
            }
        }
    }
}

fn one_history(
    options: &Options,
    number: usize,
) -> (&'static str, usize, Result<Tally, Difference>) {
    let done = play(&options.desk, options.seed, number, options.show);
    ("history", number, done)
}

fn report(options: &Options, kind: &str, number: usize, difference: &Difference) {
    println!(
        "DIFFERENCE: seed {}, {kind} {number}, {}",
        options.seed,
        difference.text()
    );
    if kind == "history" {
        println!("  again: --seed {} --only {number} --show", options.seed);
    }
}

/// Says which answers a long run did not meet; false if there are any.
fn report_unseen(options: &Options, tally: &Tally, same: bool) -> bool {
    let long = tally.histories >= ENOUGH_HISTORIES && tally.frames >= ENOUGH_FRAMES;
    let unseen = tally.unseen();
    if !long || !same || unseen.is_empty() {
        return true;
    }
    println!("NOT SEEN: seed {}: {}", options.seed, unseen.join(", "));
    false
}
