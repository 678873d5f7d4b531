//! Document 01 a second time, on plain rows, to compare with the proved programs.
//!
//! - The model: `rows` and `header` (lists and sizes), `index` (memory), `reading`, `queries`,
//!   `changes` and `audit` (the calls), `refusal`, `console` and `printing` (the two programs).
//! - What it is asked: `rng`, `shapes`, `player`, `trials`, `packing`, `damage`, `history`, `frames`.
//! - Comparing: `process` and `dialogue` (a child process beside the model), `run`, `tally`.
//! - `fault`: ways to make the played programs wrong, to see that a run notices.

mod audit;
mod changes;
mod console;
mod damage;
mod dialogue;
mod fault;
mod frames;
mod header;
mod history;
mod index;
mod options;
mod packing;
mod player;
mod printing;
mod process;
mod queries;
mod reading;
mod refusal;
mod rng;
mod rows;
mod run;
mod shapes;
mod tally;
mod trials;

#[cfg(test)]
mod by_hand;
#[cfg(test)]
mod plain_column;

use std::io::{self, BufRead, Read, Write};
use std::process::ExitCode;

use console::Console;
use fault::Fault;
use options::{Options, Role};

fn main() -> ExitCode {
    let options = match Options::from_arguments(std::env::args().skip(1)) {
        Ok(options) => options,
        Err(why) => {
            eprintln!("second: {why}\n{}", options::USAGE);
            return ExitCode::from(2);
        }
    };
    let done = match options.role {
        Role::Compare => return run::compare(&options),
        Role::PlayDesk => play_desk(options.fault),
        Role::PlayPrint => play_print(options.fault),
    };
    match done {
        Ok(()) => ExitCode::SUCCESS,
        Err(_) => ExitCode::FAILURE,
    }
}

/// The console played by the model.
fn play_desk(fault: Fault) -> io::Result<()> {
    let mut console = Console::new(fault);
    let mut output = io::stdout().lock();
    for line in io::stdin().lock().lines() {
        if let Some(mut answer) = console.answer(&line?) {
            answer.push('\n');
            output.write_all(answer.as_bytes())?;
            output.flush()?;
        }
    }
    Ok(())
}

/// The printing program played by the model.
fn play_print(fault: Fault) -> io::Result<()> {
    let mut input = Vec::new();
    io::stdin().lock().read_to_end(&mut input)?;
    io::stdout().write_all(printing::print(&input, fault).as_bytes())
}
