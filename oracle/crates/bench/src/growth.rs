//! How time grows with the table, n = 10 to 20.

use crate::bench::least;
use crate::folds::{PREFIX, SUFFIX, fold};
use crate::input::{Input, MOST};
use crate::points::new_from_point;
use crate::report::{progress, table};
use crate::side::Side;
use crate::side::Who::{Ours, Rust};
use crate::values::eval_base;

pub const FIRST: usize = 10;

/// The seconds of one operation by n, from the first on.
pub struct Line {
    pub name: &'static str,
    pub rust: Vec<f64>,
    pub ours: Vec<f64>,
}

type Sides = for<'a> fn(&'a Input, usize) -> Vec<Side<'a>>;

const OPERATIONS: [(&str, Sides); 4] = [
    ("eval_base", eval_base),
    ("compress_prefix, k = n/2", |input, n| {
        fold(input, n, n / 2, PREFIX.1, PREFIX.2)
    }),
    ("compress_suffix, k = n/2", |input, n| {
        fold(input, n, n / 2, SUFFIX.1, SUFFIX.2)
    }),
    ("new_from_point, k = n", new_from_point),
];

pub fn run(input: &Input, runs: usize) -> Vec<Line> {
    let grown = |(name, sides): (&'static str, Sides)| {
        let mut line = Line {
            name,
            rust: vec![],
            ours: vec![],
        };
        for n in FIRST..=MOST {
            progress(&format!("{name}, n = {n}"));
            let mut sides = sides(input, n);
            sides.retain(|side| matches!(side.who, Rust | Ours));
            let times = least(&mut sides, runs);
            let of = |who| {
                let all = times.iter().filter(|(other, _)| *other == who);
                all.map(|(_, time)| *time).fold(f64::INFINITY, f64::min)
            };
            line.rust.push(of(Rust));
            line.ours.push(of(Ours));
        }
        line
    };
    OPERATIONS.map(grown).into()
}

/// Nanoseconds for each of the 2^n words or weights: the Rust's, ours.
pub fn text(lines: &[Line]) -> String {
    let head: Vec<_> = ["n"]
        .into_iter()
        .chain(lines.iter().map(|line| line.name))
        .collect();
    let cells = |n: usize| {
        let each = |seconds: f64| seconds * 1e9 / (1 << n) as f64;
        let cell = |line: &Line| {
            let i = n - FIRST;
            format!("{:.2}, {:.2}", each(line.rust[i]), each(line.ours[i]))
        };
        [n.to_string()]
            .into_iter()
            .chain(lines.iter().map(cell))
            .collect()
    };
    let lines: Vec<_> = (FIRST..=MOST).map(cells).collect();
    table(&head, &lines)
}
