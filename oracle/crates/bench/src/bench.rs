//! Runs the sides of each row in turn and keeps the least time of each.

use std::process;

use crate::clock::Clock;
use crate::report::progress;
use crate::side::{Side, Who};

/// A run of a short call takes at least these seconds, by repeating it.
const SHORTEST: f64 = 0.0002;

/// The seconds for all runs of a row, where the fewest runs do not take longer.
pub const BUDGET: f64 = 1.0;

pub const FEWEST: usize = 5;

/// A line of the table: the least seconds of each side.
pub struct Row {
    pub name: &'static str,
    pub n: usize,
    /// k, w or the length of a piece.
    pub size: String,
    pub times: Vec<(Who, f64)>,
    /// The bytes that are read, where their rate is asked.
    pub bytes: usize,
}

impl Row {
    /// The least time of a side; the Rust may have several ways.
    pub fn time(&self, who: Who) -> Option<f64> {
        let all = self.times.iter().filter(|(other, _)| *other == who);
        all.map(|(_, time)| *time).reduce(f64::min)
    }

    /// Our time over that of another side.
    pub fn ratio(&self, who: Who) -> Option<f64> {
        Some(self.time(Who::Ours)? / self.time(who)?)
    }

    /// What stands beside ours and is not the Rust.
    pub fn beside(&self) -> Option<Who> {
        let others = [
            Who::C,
            Who::Fold,
            Who::Words,
            Who::Start,
            Who::Shifted,
            Who::Next,
        ];
        others.into_iter().find(|&who| self.time(who).is_some())
    }
}

/// One side of one row, to be run once.
pub struct Once {
    pub key: String,
    pub who: String,
}

pub struct Bench {
    /// The most runs of a row.
    pub runs: usize,
    pub once: Option<Once>,
    pub rows: Vec<Row>,
}

/// A row by name; n is 0 and the size empty where there is none.
pub fn key(name: &str, n: usize, size: &str) -> String {
    let mut key = name.to_string();
    if n > 0 {
        key += &format!(", n = {n}");
    }
    if !size.is_empty() {
        key += &format!(", {size}");
    }
    key
}

impl Bench {
    pub fn case<'a>(
        &mut self,
        name: &'static str,
        n: usize,
        size: String,
        sides: impl FnOnce() -> Vec<Side<'a>>,
    ) {
        self.case_of_bytes(name, n, size, 0, sides);
    }

    /// A row with the bytes that are read.
    pub fn case_of_bytes<'a>(
        &mut self,
        name: &'static str,
        n: usize,
        size: String,
        bytes: usize,
        sides: impl FnOnce() -> Vec<Side<'a>>,
    ) {
        if let Some(once) = &self.once {
            if once.key == key(name, n, &size) {
                run_once(sides(), &once.who);
            }
            return;
        }
        progress(&key(name, n, &size));
        let times = least(&mut sides(), self.runs);
        self.rows.push(Row {
            name,
            n,
            size,
            times,
            bytes,
        });
    }
}

/// Runs the first side of that name, and ends the program.
fn run_once(mut sides: Vec<Side>, who: &str) -> ! {
    let side = sides.iter_mut().find(|side| side.who.name() == who);
    match side {
        Some(side) => Clock::time(1, &mut side.run),
        None => process::exit(2),
    };
    process::exit(0);
}

/// The least time of each side. All must leave the same words.
pub fn least(sides: &mut [Side], most: usize) -> Vec<(Who, f64)> {
    let mut first = sides.iter_mut().map(|side| Clock::first(&mut side.run));
    let (taken, expected) = first.next().unwrap();
    let mut firsts = vec![taken];
    for (i, (taken, left)) in first.enumerate() {
        assert!(left == expected, "side {} differs", i + 2);
        firsts.push(taken);
    }
    let whole: f64 = firsts.iter().map(|taken| taken.max(SHORTEST)).sum();
    let runs = ((BUDGET / whole) as usize).clamp(FEWEST.min(most), most);
    let mut least = vec![f64::INFINITY; sides.len()];
    for _ in 0..runs {
        for (i, side) in sides.iter_mut().enumerate() {
            let times = (SHORTEST / firsts[i]).ceil() as u32;
            least[i] = least[i].min(Clock::time(times, &mut side.run));
        }
    }
    let whos = sides.iter().map(|side| side.who);
    whos.zip(least).collect()
}
