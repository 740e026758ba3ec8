//! The aims, and which rows are held to them.

use std::ptr;

use crate::bench::Row;
use crate::input::MOST;
use crate::sessions::{FEED, one_feed};
use crate::side::Who::{self, Apart, C, Fold, Limit, Ours, Rust, Shifted, Start, Words};

type Names = &'static [&'static str];

/// Rows of these names and sizes, of the most variables, take at most this part
/// of a side's time.
pub struct Aim {
    pub names: Names,
    pub sizes: Names,
    pub most: f64,
    pub of: Who,
}

const fn aim(names: Names, sizes: Names, most: f64, of: Who) -> Aim {
    Aim {
        names,
        sizes,
        most,
        of,
    }
}

const TABLES: &[&str] = &["new_from_point", "new_next_from_point"];
const VALUES: &[&str] = &["Poly::eval_base", "Poly::eval_next_base"];
const FIXED: &[&str] = &["fix_prefix_var_mut", "fix_prefix_var_mut_monomial"];
const PREFIX: &[&str] = &["compress_prefix"];
const PREFIX_SHIFTED: &[&str] = &["compress_prefix_shifted"];
const SUFFIX: &[&str] = &["compress_suffix"];
const SUFFIX_SHIFTED: &[&str] = &["compress_suffix_shifted"];
const BYTES: &[&str] = &[
    "ward_compress_prefix_shifted",
    "ward_compress_suffix_shifted",
];
const PREFIX_FED: &[&str] = &["session, prefix, plain", "session, prefix, shifted"];
const SUFFIX_FED: &[&str] = &["session, suffix, plain", "session, suffix, shifted"];

/// In the order of the table of times.
pub const AIMS: [Aim; 15] = [
    aim(TABLES, &["k = 20"], 0.3, Rust),
    aim(&["eval_eq_batch"], &["w = 1", "w = 8"], 0.45, Rust),
    aim(VALUES, &["k = 20"], 0.18, Rust),
    aim(FIXED, &[""], 0.5, Rust),
    aim(PREFIX, &["k = 10"], 0.2, Rust),
    aim(PREFIX, &["k = 1", "k = 19"], 0.5, Rust),
    aim(PREFIX_SHIFTED, &["k = 10"], 0.5, Rust),
    aim(PREFIX_SHIFTED, &["k = 20"], 0.15, Rust),
    aim(SUFFIX, &["k = 1"], 0.14, Rust),
    aim(SUFFIX, &["k = 10", "k = 19", "k = 20"], 0.2, Rust),
    aim(SUFFIX_SHIFTED, &["k = 10"], 0.35, Rust),
    aim(&["accumulate_into"], &["k = 20"], 0.45, Rust),
    aim(SUFFIX_FED, &["k = 20, whole"], 1.3, Fold),
    aim(PREFIX_FED, &["k = 10, whole"], 1.3, Fold),
    aim(BYTES, &["k = 1", "k = 20"], 1.2, Words),
];

/// For every row.
pub const EVERYWHERE: [(Who, f64); 4] = [(C, 1.2), (Rust, 1.0), (Apart, 1.05), (Shifted, 1.05)];

/// A row that takes more than this of its limit is listed, which is no miss.
const BESIDE_LIMIT: f64 = 1.3;

/// The words of a feed, and the most seconds of one where k is the most.
const FED_WORDS: usize = 16;
pub const ONE_FEED: f64 = 220e-9;

/// The most seconds of foldframes on a full table, and the most that its fold is
/// of it.
pub const FRAMES: f64 = 0.025;
pub const SMALLER: f64 = 0.5;

/// The most seconds of foldframes beyond its start where a table is padded.
pub const BEYOND_START: f64 = 0.001;

/// A row beside its bound.
pub struct Held<'a> {
    pub row: &'a Row,
    pub of: Who,
    pub ratio: f64,
    pub most: f64,
}

impl Held<'_> {
    /// To two digits, as it is shown.
    pub fn is_missed(&self) -> bool {
        (100.0 * self.ratio).round() > (100.0 * self.most).round()
    }
}

/// The rows that have this side, each with the bound.
pub fn held(rows: &[Row], of: Who, most: f64) -> Vec<Held<'_>> {
    let held = rows.iter().filter_map(|row| {
        let ratio = row.ratio(of)?;
        Some(Held {
            row,
            of,
            ratio,
            most,
        })
    });
    held.collect()
}

/// The rows of an aim.
pub fn held_to<'a>(rows: &'a [Row], aim: &Aim) -> Vec<Held<'a>> {
    let mut held = held(rows, aim.of, aim.most);
    held.retain(|Held { row, .. }| {
        let size = aim.sizes.contains(&row.size.as_str());
        aim.names.contains(&row.name) && size && row.n == MOST
    });
    held
}

/// Every row that misses a bound: its own, or else the one for every row.
pub fn missed(rows: &[Row]) -> Vec<Held<'_>> {
    let mut all: Vec<_> = AIMS.iter().flat_map(|aim| held_to(rows, aim)).collect();
    for (of, most) in EVERYWHERE {
        let mut others = held(rows, of, most);
        others.retain(|other| {
            let same = |held: &Held| ptr::eq(held.row, other.row) && held.of == of;
            !all.iter().any(same)
        });
        all.extend(others);
    }
    all.retain(Held::is_missed);
    all
}

/// Every row that is further from its limit.
pub fn beyond_limit(rows: &[Row]) -> Vec<Held<'_>> {
    let mut all = held(rows, Limit, BESIDE_LIMIT);
    all.retain(Held::is_missed);
    all
}

/// The time of one feed.
pub fn feeds(rows: &[Row]) -> Vec<f64> {
    let size = one_feed(MOST, FED_WORDS);
    let rows = rows
        .iter()
        .filter(|row| row.name == FEED && row.size == size);
    rows.filter_map(|row| row.time(Ours)).collect()
}

/// The times of foldframes.
pub fn frames(rows: &[Row]) -> Vec<f64> {
    let rows = rows.iter().filter(|row| row.bytes > 0);
    rows.filter_map(|row| row.time(Ours)).collect()
}

/// The times of foldframes beyond its start.
pub fn beyond_start(rows: &[Row]) -> Vec<f64> {
    let beyond = |row: &Row| Some(row.time(Ours)? - row.time(Start)?);
    rows.iter().filter_map(beyond).collect()
}
