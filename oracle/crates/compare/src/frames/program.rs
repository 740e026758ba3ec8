//! The program foldframes, a process for each input.

use std::io::{Read, Write};
use std::path::PathBuf;
use std::process::{self, Child, ChildStdin, Command, Stdio};
use std::sync::mpsc::{self, RecvTimeoutError};
use std::time::Duration;
use std::{env, thread};

use calls::Outcome;

use Way::{Bytewise, Held, Whole};

/// How the input comes.
#[derive(Clone, Copy)]
pub enum Way {
    Whole,
    /// A byte at a time.
    Bytewise,
    /// Whole, and left open: until so many bytes are printed, or for ever where
    /// the program stops by itself.
    Held {
        printed: u64,
        stops: bool,
    },
}

/// After this time a program that has not ended is ended.
const PATIENCE: Duration = Duration::from_secs(60);

pub struct Program(PathBuf);

impl Program {
    /// The program that the variable FOLDFRAMES names.
    pub fn new() -> Self {
        let Some(path) = env::var_os("FOLDFRAMES") else {
            eprintln!("FOLDFRAMES must name the program");
            process::exit(2);
        };
        Self(path.into())
    }

    fn start(&self) -> Child {
        let mut command = Command::new(&self.0);
        command.stdin(Stdio::piped());
        command.stdout(Stdio::piped()).stderr(Stdio::piped());
        command.spawn().unwrap_or_else(|error| {
            eprintln!("{}: {error}", self.0.display());
            process::exit(1);
        })
    }

    /// Its exit status, the lines that it prints, and those on standard error.
    pub fn run(&self, input: &[u8], way: Way) -> Outcome<2, String> {
        let mut child = self.start();
        let stdin = child.stdin.take().unwrap();
        let mut stdout = child.stdout.take().unwrap();
        let mut stderr = child.stderr.take().unwrap();
        thread::scope(|scope| {
            let (ended, end) = mpsc::channel::<()>();
            let status = scope.spawn(move || {
                if end.recv_timeout(PATIENCE) == Err(RecvTimeoutError::Timeout) {
                    _ = child.kill();
                }
                child.wait().unwrap().code()
            });
            // Beside the reading: a pipe does not hold the largest inputs.
            let writer = scope.spawn(move || write(stdin, input, way));
            let [mut printed, mut said] = [vec![], vec![]];
            if let Held { printed: first, .. } = way {
                _ = stdout.by_ref().take(first).read_to_end(&mut printed);
            }
            if let Held { stops: false, .. } = way {
                drop(writer.join());
            }
            _ = stdout.read_to_end(&mut printed);
            _ = stderr.read_to_end(&mut said);
            drop(ended);
            let status = status.join().unwrap();
            Outcome {
                answer: status.map_or(u32::MAX, |code| code as u32),
                lent: [printed, said].map(|text| lines(&text)),
            }
        })
    }
}

/// Writes the input, and gives it back where it is not to end yet. A program
/// that has stopped reads no more.
fn write(mut stdin: ChildStdin, input: &[u8], way: Way) -> Option<ChildStdin> {
    let size = match way {
        Bytewise => 1,
        _ => input.len().max(1),
    };
    for piece in input.chunks(size) {
        if stdin.write_all(piece).is_err() {
            break;
        }
    }
    match way {
        Whole | Bytewise => None,
        Held { .. } => Some(stdin),
    }
}

/// The lines of a text, each with its line feed.
pub fn lines(text: &[u8]) -> Vec<String> {
    let text = String::from_utf8_lossy(text);
    text.split_inclusive('\n').map(String::from).collect()
}
