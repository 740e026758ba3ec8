//! The frame of a comparison: seeded input, counted cases, and a stop at the
//! first difference.

use std::fmt::{self, Debug, Display};
use std::process;
use std::time::Instant;

use calls::{Outcome, Random};

use Input::{Bytes, Number, Text, Words};

pub struct Run {
    pub random: Random,
    long: bool,
    operation: &'static str,
    cases: u64,
    total: u64,
    started: Instant,
}

#[derive(Clone, Copy)]
pub enum Input<'a> {
    Words(&'a [u32]),
    Bytes(&'a [u8]),
    Text(&'a [u8]),
    Number(u64),
}

impl Run {
    pub fn new(seed: u64, long: bool) -> Self {
        Self {
            random: Random(seed),
            long,
            operation: "",
            cases: 0,
            total: 0,
            started: Instant::now(),
        }
    }

    /// A count of cases: the first by default, the second in a long run.
    pub fn count(&self, short: usize, long: usize) -> usize {
        if self.long { long } else { short }
    }

    /// Runs the cases of one operation and prints how many there were.
    pub fn operation(&mut self, name: &'static str, cases: impl FnOnce(&mut Self)) {
        let started = Instant::now();
        self.operation = name;
        self.cases = 0;
        cases(self);
        let seconds = started.elapsed().as_secs_f64();
        println!("{name:<34}{:>10} cases{seconds:>8.1} s", self.cases);
        self.total += self.cases;
    }

    /// One case. A difference from one of those expected is printed with its
    /// input and ends the run.
    pub fn same<const N: usize, T: PartialEq + Debug>(
        &mut self,
        inputs: &[(&str, Input)],
        expected: &[Outcome<N, T>],
        got: &Outcome<N, T>,
    ) {
        self.cases += 1;
        let Some(way) = expected.iter().position(|expected| expected != got) else {
            return;
        };
        let (ways, expected) = (expected.len(), &expected[way]);
        println!("{}: case {} differs", self.operation, self.cases);
        if ways > 1 {
            println!("  from what is expected in way {} of {ways}", way + 1);
        }
        for (name, input) in inputs {
            println!("  {name} = {input}");
        }
        for (name, outcome) in [("expected", expected), ("got     ", got)] {
            print!("  {name} answer {}", outcome.answer);
            for slice in &outcome.lent {
                print!(", {}", Shown(slice));
            }
            println!();
        }
        for (i, (expected, got)) in expected.lent.iter().zip(&got.lent).enumerate() {
            if let Some(at) = (0..got.len()).find(|&at| expected.get(at) != got.get(at)) {
                println!("  lent slice {i} differs first at place {at}");
            }
        }
        process::exit(1);
    }

    pub fn finish(self) {
        let seconds = self.started.elapsed().as_secs_f64();
        println!("all the same: {} cases in {seconds:.1} s", self.total);
    }
}

/// The outcome of a call that is lent copies of these slices.
pub fn call<const N: usize, T: Clone>(
    before: [&[T]; N],
    operation: impl FnOnce([&mut [T]; N]) -> u32,
) -> Outcome<N, T> {
    let mut lent = before.map(<[T]>::to_vec);
    let answer = operation(lent.each_mut().map(Vec::as_mut_slice));
    Outcome { answer, lent }
}

/// Every choice for so many places, of as many kinds as give at most `most`
/// choices, the first kinds first.
pub fn choices<T: Copy>(kinds: &[T], places: usize, most: usize) -> impl Iterator<Item = Vec<T>> {
    let count = |kinds: usize| kinds.pow(places as u32);
    let tried = (1..=kinds.len())
        .rev()
        .find(|&tried| count(tried) <= most)
        .unwrap();
    (0..count(tried)).map(move |mut choice| {
        let kind = |_| {
            let kind = kinds[choice % tried];
            choice /= tried;
            kind
        };
        (0..places).map(kind).collect()
    })
}

/// The places of a long slice that are printed, and the bytes of a long text.
const SHOWN: usize = 64;
const SHOWN_TEXT: usize = 2_000;

/// A slice, of which the first places are printed.
struct Shown<'a, T>(&'a [T]);

impl<T: Debug> Display for Shown<'_, T> {
    fn fmt(&self, f: &mut fmt::Formatter) -> fmt::Result {
        let count = self.0.len();
        match self.0.get(..SHOWN) {
            Some(first) if count > SHOWN => write!(f, "{first:?} and so on, {count} places"),
            _ => write!(f, "{:?}", self.0),
        }
    }
}

impl Display for Input<'_> {
    fn fmt(&self, f: &mut fmt::Formatter) -> fmt::Result {
        match *self {
            Number(number) => write!(f, "{number}"),
            Words(words) => Shown(words).fmt(f),
            Bytes(bytes) => Shown(bytes).fmt(f),
            Text(text) => {
                for line in
                    text[..text.len().min(SHOWN_TEXT)].split_inclusive(|&byte| byte == b'\n')
                {
                    write!(f, "\n    {}", line.escape_ascii())?;
                }
                write!(f, "\n    {} bytes", text.len())
            }
        }
    }
}
