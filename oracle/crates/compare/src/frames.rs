//! The program foldframes: inputs that fit, and inputs that were changed.

mod changes;
mod program;
mod reader;
mod text;

use calls::Outcome;

use crate::met::Met;
use crate::run::Input::Text;
use crate::run::Run;

use changes::{Change, FRAMES, LINES, Lines};
use program::Program;
use program::Way::{self, Bytewise, Held, Whole};
use reader::Place::{After, Coordinate, End, Head, NoFrame, Rows, Stop};
use reader::{Place, Printed, read};
use text::{CHOICES, fitting, frame};

type Numbers = &'static [u32];
type Pairs = &'static [(u32, u32)];

/// The refusals of each place in their order, and those that no line meets at
/// once: k is above n, or much below it; before `01` no coordinates are asked.
const REFUSALS: [(Place, Numbers, Pairs); 7] = [
    (Head, &[12, 3, 4, 5, 3], &[(4, 3)]),
    (Coordinate, &[12, 13, 13, 5], &[]),
    (Rows, &[12, 13, 5, 8], &[]),
    (Stop, &[12, 13], &[(12, 13)]),
    (NoFrame, &[12], &[]),
    (After, &[10], &[]),
    (End, &[9], &[]),
];

/// The longest input that is written a byte at a time.
const SHORT: usize = 1_000;

struct Frames<'a> {
    run: &'a mut Run,
    program: Program,
    met: Met<Place>,
}

pub fn compare(run: &mut Run) {
    run.operation("foldframes", |run| {
        let mut frames = Frames {
            run,
            program: Program::new(),
            met: Met::new(),
        };
        frames.sizes();
        frames.changed();
        frames.changed_at_random();
        for (place, list, exclusive) in REFUSALS {
            frames.met.demand(place, list, exclusive);
        }
    });
}

impl Frames<'_> {
    /// Inputs of all sizes, sides and weights that fit, with all their words or
    /// cut.
    fn sizes(&mut self) {
        for n in 0..=6 {
            for k in 0..=n {
                self.cuts(n, k, self.run.count(1, 10));
            }
        }
        // The most variables that remain, and the most words.
        for (n, k) in [(10, 0), (11, 1), (12, 2), (12, 12)] {
            self.cuts(n, k, 1);
        }
        for (choice, n, k, words) in [
            (4, 20, 10, 1 << 20),
            (3, 20, 10, 700_000),
            (0, 20, 10, 700_000),
            (2, 20, 10, 1 << 10),
            (2, 20, 20, 1 << 20),
            (4, 20, 20, 1),
            (6, 20, 10, 700_000),
            (7, 20, 10, 1 << 20),
            (6, 20, 20, 1),
        ] {
            self.fitting(choice, n, k, words);
        }
    }

    /// Inputs of each side and weight, with all words, some and none; and cut at
    /// a row's end, within a row and before one row.
    fn cuts(&mut self, n: u8, k: u8, count: usize) {
        let (row, rows) = (1 << (n - k), 1 << k);
        for choice in 0..CHOICES * count as u8 {
            let mut below = |bound| self.run.random.below(bound);
            let end = row * (1 + below(rows));
            let within = (end + below(row)).min(row * rows);
            let [some, before] = [row * rows, row].map(below);
            for words in [row * rows, some, 0, end, within, before] {
                self.fitting(choice, n, k, words as usize);
            }
        }
    }

    /// An input with each change, and with every two of those of frames.
    fn changed(&mut self) {
        for words in [8, 0] {
            for &change in FRAMES.iter().chain(LINES) {
                self.with(&[change], words);
            }
            for &first in FRAMES {
                for &second in FRAMES {
                    for _ in 0..self.run.count(1, 10) {
                        self.with(&[first, second], words);
                    }
                }
            }
        }
    }

    /// An input of three variables or two, of which two are folded or more.
    fn with(&mut self, changes: &[Change], words: usize) {
        let random = &mut self.run.random;
        let n = 2 + random.below(2) as u8;
        let k = 2 + random.below(n as u32 - 1) as u8;
        let choice = random.below(CHOICES.into()) as u8;
        let mut lines = fitting(choice, n, k, words.min(1 << n), random);
        for change in changes {
            change(&mut lines, random);
        }
        self.case(&lines);
    }

    /// Inputs of random sizes with up to four changes.
    fn changed_at_random(&mut self) {
        let all = [FRAMES, LINES].concat();
        for _ in 0..self.run.count(1_500, 50_000) {
            let random = &mut self.run.random;
            let n = random.below(7) as u8;
            let k = random.below(n as u32 + 1) as u8;
            let words = random.below((1 << n) + 1) as usize;
            let choice = random.below(CHOICES.into()) as u8;
            let mut lines = fitting(choice, n, k, words, random);
            for _ in 0..random.below(5) {
                all[random.below(all.len() as u32) as usize](&mut lines, random);
            }
            self.case(&lines);
        }
    }

    fn fitting(&mut self, choice: u8, n: u8, k: u8, words: usize) {
        let lines = fitting(choice, n, k, words, &mut self.run.random);
        self.case(&lines);
    }

    /// The lines as one input, its last line feed left out now and then.
    fn case(&mut self, lines: &Lines) {
        let mut input = lines.join(&b'\n');
        if !lines.is_empty() && self.run.random.below(4) != 0 {
            input.push(b'\n');
        }
        let printed = read(&input, &mut self.met);
        let expected = expected(&printed);
        let way = self.way(&input, &printed, &expected[0]);
        let got = self.program.run(&input, way);
        self.run.same(&[("input", Text(&input))], &expected, &got);
    }

    /// A way for the input to come. It can be left open where its last line has
    /// ended, and where something is printed that does not tell of the end.
    fn way(&mut self, input: &[u8], printed: &Printed, expected: &Outcome<2, String>) -> Way {
        let bytes: usize = expected.lent[0].iter().map(String::len).sum();
        match self.run.random.below(4) {
            0 if input.len() <= SHORT => Bytewise,
            1 if input.ends_with(b"\n") && printed.refusal != Some(9) => Held {
                printed: bytes as u64,
                stops: printed.refusal.is_some(),
            },
            _ => Whole,
        }
    }
}

/// What is printed, by each way to compute out; nothing on standard error.
fn expected(printed: &Printed) -> Vec<Outcome<2, String>> {
    let refusal = printed.refusal.map(|refusal| format!("ff{refusal:02x}\n"));
    let outcome = |out: &[u32]| {
        let mut lines: Vec<_> = out.chunks(4).map(line).collect();
        lines.extend(refusal.clone());
        Outcome {
            answer: 0,
            lent: [lines, vec![]],
        }
    };
    match &printed.outs[..] {
        [] => vec![outcome(&[])],
        outs => outs.iter().map(|out| outcome(out)).collect(),
    }
}

fn line(element: &[u32]) -> String {
    String::from_utf8(frame(&[], element)).unwrap() + "\n"
}
