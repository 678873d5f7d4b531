//! The command line.

use std::path::PathBuf;

use crate::fault::{Fault, FAULTS};
use crate::process::Program;

pub const USAGE: &str = "\
usage: second [--seed N] [--histories H] [--frames F] [--jobs J] [--desk PATH] [--print PATH]
              [--only H] [--show]      one history alone; with all its lines
              [--self] [--fault N]     drive this program in place of the others, made wrong in way N
       second --self-desk | --self-print [--fault N]     play the console, the printing program
Ways are numbered from 1; a number too great is refused.";

#[derive(Clone, Copy, PartialEq, Eq)]
pub enum Role {
    Compare,
    PlayDesk,
    PlayPrint,
}

pub struct Options {
    pub role: Role,
    pub seed: u64,
    pub histories: usize,
    pub frames: usize,
    pub jobs: usize,
    pub only: Option<usize>,
    pub show: bool,
    pub desk: Program,
    pub print: Program,
    pub fault: Fault,
}

impl Options {
    pub fn from_arguments(mut given: impl Iterator<Item = String>) -> Result<Options, String> {
        let mut options = Options::default();
        let mut drive_self = None;
        let mut fault_number = 0;
        while let Some(name) = given.next() {
            match name.as_str() {
                "--self-desk" => options.role = Role::PlayDesk,
                "--self-print" => options.role = Role::PlayPrint,
                "--self" => drive_self = std::env::current_exe().ok(),
                "--show" => options.show = true,
                "--fault" => fault_number = number(&name, given.next())?,
                _ => options.take(&name, given.next())?,
            }
        }
        let fault = FAULTS.get(fault_number).ok_or("no such fault")?;
        options.fault = *fault;
        if let Some(path) = drive_self {
            options.desk = played(&path, "--self-desk", fault_number);
            options.print = played(&path, "--self-print", fault_number);
        }
        Ok(options)
    }

    fn take(&mut self, name: &str, given: Option<String>) -> Result<(), String> {
        match name {
            "--seed" => self.seed = number(name, given)? as u64,
            "--histories" => self.histories = number(name, given)?,
            "--frames" => self.frames = number(name, given)?,
            "--jobs" => self.jobs = number(name, given)?.max(1),
            "--only" => self.only = Some(number(name, given)?),
            "--desk" => self.desk.path = path(name, given)?,
            "--print" => self.print.path = path(name, given)?,
            _ => return Err(format!("{name} is not known")),
        }
        Ok(())
    }

    fn default() -> Options {
        Options {
            role: Role::Compare,
            seed: 1,
            histories: 2_000,
            frames: 500,
            jobs: 2,
            only: None,
            show: false,
            desk: program("target/bin/desk"),
            print: program("target/bin/print"),
            fault: Fault::None,
        }
    }
}

fn program(path: &str) -> Program {
    Program {
        path: PathBuf::from(path),
        arguments: Vec::new(),
    }
}

/// This program in the role of another.
fn played(path: &std::path::Path, role: &str, fault: usize) -> Program {
    let arguments = [role, "--fault", &fault.to_string()];
    Program {
        path: path.to_path_buf(),
        arguments: arguments.map(Into::into).to_vec(),
    }
}

fn number(name: &str, given: Option<String>) -> Result<usize, String> {
    let given = given.ok_or(format!("{name} needs a number"))?;
    given
        .parse()
        .map_err(|_| format!("{name} {given} is no number"))
}

fn path(name: &str, given: Option<String>) -> Result<PathBuf, String> {
    given
        .map(PathBuf::from)
        .ok_or(format!("{name} needs a path"))
}
