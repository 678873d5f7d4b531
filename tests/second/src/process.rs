//! A child process spoken to by pipes, with a limit on how long an answer may take.

use std::ffi::OsString;
use std::io::{BufRead, BufReader, Read, Write};
use std::path::PathBuf;
use std::process::{Child, ChildStdin, Command, Stdio};
use std::sync::mpsc::{channel, Receiver};
use std::thread;
use std::time::Duration;

/// Longest wait for one answer.
const PATIENCE: Duration = Duration::from_secs(60);

/// A program to start, with its arguments.
#[derive(Clone)]
pub struct Program {
    pub path: PathBuf,
    pub arguments: Vec<OsString>,
}

impl Program {
    fn start(&self) -> Result<Child, String> {
        Command::new(&self.path)
            .args(&self.arguments)
            .stdin(Stdio::piped())
            .stdout(Stdio::piped())
            .spawn()
            .map_err(|why| format!("{} does not start: {why}", self.path.display()))
    }

    /// Gives an input whole and takes the output whole.
    pub fn run(&self, input: &[u8]) -> Result<String, String> {
        let mut child = self.start()?;
        let (sender, receiver) = channel();
        let mut output = child.stdout.take().expect("stdout is a pipe");
        thread::spawn(move || {
            let mut text = Vec::new();
            let read = output.read_to_end(&mut text);
            let _ = sender.send(read.map(|_| text));
        });
        // A program may stop reading a bad frame early: the pipe's error is not a difference.
        let _ = child
            .stdin
            .take()
            .expect("stdin is a pipe")
            .write_all(input);
        let text = receiver.recv_timeout(PATIENCE);
        let ended = finish(&mut child, text.is_err())?;
        match text {
            Ok(Ok(text)) if ended => {
                String::from_utf8(text).map_err(|_| "output is no text".into())
            }
            Ok(Ok(_)) => Err("the program was ended by a signal".into()),
            Ok(Err(why)) => Err(format!("output cannot be read: {why}")),
            Err(_) => Err(format!("no end within {PATIENCE:?}")),
        }
    }
}

/// Waits for the child's end, after ending it if asked. True if it ended by itself.
fn finish(child: &mut Child, kill: bool) -> Result<bool, String> {
    if kill {
        let _ = child.kill();
    }
    let status = child.wait().map_err(|why| why.to_string())?;
    Ok(status.code().is_some())
}

/// A console that answers lines.
pub struct Talk {
    child: Child,
    input: ChildStdin,
    answers: Receiver<String>,
}

impl Talk {
    pub fn start(program: &Program) -> Result<Talk, String> {
        let mut child = program.start()?;
        let input = child.stdin.take().expect("stdin is a pipe");
        let output = child.stdout.take().expect("stdout is a pipe");
        let (sender, answers) = channel();
        thread::spawn(move || {
            for line in BufReader::new(output).lines() {
                let Ok(line) = line else { return };
                // Lines of help are no answers.
                if !line.starts_with('#') && sender.send(line).is_err() {
                    return;
                }
            }
        });
        Ok(Talk {
            child,
            input,
            answers,
        })
    }

    pub fn tell(&mut self, line: &str) -> Result<(), String> {
        let mut bytes = Vec::with_capacity(line.len() + 1);
        bytes.extend_from_slice(line.as_bytes());
        bytes.push(b'\n');
        let told = self.input.write_all(&bytes);
        told.map_err(|why| format!("the line cannot be sent: {why}"))
    }

    /// The next answer. A console that gives none in time is ended.
    pub fn hear(&mut self) -> Result<String, String> {
        let heard = self.answers.recv_timeout(PATIENCE);
        heard.map_err(|why| {
            let _ = finish(&mut self.child, true);
            format!("no answer: {why}")
        })
    }

    /// Closes the input; the console must end by itself and have no answer left.
    pub fn end(self) -> Result<(), String> {
        let Talk {
            mut child,
            input,
            answers,
        } = self;
        drop(input);
        let more = answers.recv_timeout(PATIENCE);
        let late = matches!(more, Err(std::sync::mpsc::RecvTimeoutError::Timeout));
        if !finish(&mut child, late)? {
            return Err("the console was ended by a signal".into());
        }
        match more {
            Ok(line) => Err(format!("an answer too many: {line}")),
            Err(_) => Ok(()),
        }
    }
}
