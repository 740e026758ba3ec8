//! The program foldframes, end to end: a process that reads a full table, and
//! one that reads a row and pads the table.

use std::fs::{self, File};
use std::path::{Path, PathBuf};
use std::process::{self, Command, Stdio};
use std::{env, fmt::Write};

use crate::bench::Bench;
use crate::folds::{PREFIX, SUFFIX, our_fold};
use crate::input::{Input, MOST, SCALE};
use crate::side::Who::{Fold, Ours, Start};
use crate::side::{Side, Who};

/// The words of a line.
const LINE: usize = 16;

/// The name of a row, the side, and our fold in one call.
pub const SIDES: [(&str, u8, crate::folds::Fold); 2] = [
    ("foldframes, prefix, plain", 0, PREFIX.1),
    ("foldframes, suffix, plain", 1, SUFFIX.1),
];

/// The name of the row whose table is padded.
const PADDED: &str = "foldframes, 04 after one row";

pub fn run(bench: &mut Bench, input: &Input) {
    if bench.once.is_some() {
        return;
    }
    let (n, program) = (MOST, program());
    for (name, side, fold) in SIDES {
        for k in [10, 20] {
            let frames = Frames::new(input, side, n, k, 1 << n);
            bench.case_of_bytes(name, n, format!("k = {k}"), frames.bytes, || {
                vec![
                    Side::new(Ours, |clock| {
                        let printed = clock.once(|| frames.fold(Command::new(&program)));
                        clock.leaves(|| words(&printed));
                    }),
                    our_fold(Fold, input, n, k, fold),
                ]
            });
        }
    }
    padded(bench, input, &program);
}

/// One row of a table, which is padded at `04`, beside an empty input.
fn padded(bench: &mut Bench, input: &Input, program: &Path) {
    let (n, k) = (MOST, 10);
    let row = Frames::new(input, 0, n, k, 1 << (n - k));
    let empty = Frames::write("empty.in", "");
    let printed = words(&row.fold(Command::new(program)));
    assert_eq!(printed.len(), 4 << (n - k), "{PADDED}");
    bench.case(PADDED, n, format!("k = {k}"), || {
        vec![timed(Ours, &row, program), timed(Start, &empty, program)]
    });
}

/// A process that reads the frames; what it prints is not compared.
fn timed<'a>(who: Who, frames: &'a Frames, program: &'a Path) -> Side<'a> {
    Side::new(who, move |clock| {
        clock.once(|| frames.fold(Command::new(program)));
    })
}

/// The program that the variable FOLDFRAMES names.
pub fn program() -> PathBuf {
    let Some(path) = env::var_os("FOLDFRAMES") else {
        eprintln!("FOLDFRAMES must name the program");
        process::exit(2);
    };
    path.into()
}

/// A file of frames, for as long as it is used.
pub struct Frames {
    file: PathBuf,
    bytes: usize,
}

impl Frames {
    /// The first words of a table, so many, and `04`.
    pub fn new(input: &Input, side: u8, n: usize, k: usize, count: usize) -> Self {
        let mut text = frame(&[1, side, 0, n as u8, k as u8], &SCALE);
        for (index, coordinate) in input.coordinates(k).chunks(4).enumerate() {
            text += &frame(&[2, index as u8], coordinate);
        }
        for words in input.words(n)[..count].chunks(LINE) {
            text += &frame(&[3, words.len() as u8], words);
        }
        text += &frame(&[4], &[]);
        Self::write(&format!("{side}-{k}-{count}.in"), &text)
    }

    fn write(name: &str, text: &str) -> Self {
        let file = temporary(name);
        fs::write(&file, text).unwrap_or_else(|error| fail(&file, error));
        let bytes = text.len();
        Self { file, bytes }
    }

    /// What the command prints when it reads the frames.
    pub fn fold(&self, mut command: Command) -> String {
        let file = File::open(&self.file).unwrap_or_else(|error| fail(&self.file, error));
        command.stdin(file).stderr(Stdio::null());
        let output = command.output();
        let output = output.unwrap_or_else(|error| fail(Path::new(command.get_program()), error));
        assert!(output.status.success(), "{command:?} failed");
        String::from_utf8_lossy(&output.stdout).into()
    }
}

impl Drop for Frames {
    fn drop(&mut self) {
        _ = fs::remove_file(&self.file);
    }
}

pub fn temporary(name: &str) -> PathBuf {
    env::temp_dir().join(format!("bench-{}-{name}", process::id()))
}

fn fail(path: &Path, error: std::io::Error) -> ! {
    eprintln!("{}: {error}", path.display());
    process::exit(1);
}

/// A line: bytes, and then words.
fn frame(bytes: &[u8], words: &[u32]) -> String {
    let mut line = String::new();
    for byte in bytes {
        _ = write!(line, "{byte:02x}");
    }
    for word in words {
        _ = write!(line, "{word:08x}");
    }
    line + "\n"
}

/// The words of the lines that are printed.
fn words(printed: &str) -> Vec<u32> {
    let (digits, _) = printed.as_bytes().as_chunks::<33>();
    let words = digits.iter().flat_map(|line| line[..32].chunks(8));
    let word = |digits| u32::from_str_radix(str::from_utf8(digits).ok()?, 16).ok();
    words.map(|digits| word(digits).expect("digits")).collect()
}
