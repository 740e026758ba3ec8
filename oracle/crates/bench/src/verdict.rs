//! Each aim with what was measured, and what is missed by how much.

use crate::aims::{
    AIMS, Aim, BEYOND_START, EVERYWHERE, FRAMES, Held, ONE_FEED, SMALLER, beyond_limit,
    beyond_start, feeds, frames, held, held_to, missed,
};
use crate::bench::{Row, key};
use crate::input::MOST;
use crate::report::{percent, seconds, table};
use crate::side::Who::{self, Apart, C, Fold, Limit, Ours, Rust, Shifted, Words};

/// The aims; `parts` are the fold's of foldframes.
pub fn aims(rows: &[Row], parts: &[f64]) -> String {
    let mut lines = vec![];
    for aim in &AIMS {
        lines.push(line(rows_of(aim), aim.most, aim.of, &held_to(rows, aim)));
    }
    for (of, most) in EVERYWHERE {
        let what = format!("every row with {}", side(of));
        lines.push(line(what, most, of, &held(rows, of, most)));
    }
    let what = "a feed of 16 words, k = 20";
    lines.push(worst(what, ONE_FEED, &feeds(rows), seconds));
    let what = "`foldframes`, a full table, end to end";
    lines.push(worst(what, FRAMES, &frames(rows), seconds));
    let what = "`foldframes`, `04` after one row, beyond its start";
    lines.push(worst(what, BEYOND_START, &beyond_start(rows), seconds));
    let what = "`foldframes`, the fold's part of the instructions";
    lines.push(worst(what, SMALLER, parts, percent));
    table(&["aim", "at most", "measured", "met"], &lines)
}

/// The names of an aim's rows, and what they have beside the name.
fn rows_of(aim: &Aim) -> String {
    let names: Vec<_> = aim.names.iter().map(|name| format!("`{name}`")).collect();
    key(&names.join(", "), MOST, &aim.sizes.join(", "))
}

fn line(what: String, most: f64, of: Who, held: &[Held]) -> Vec<String> {
    let ratios: Vec<_> = held.iter().map(|held| held.ratio).collect();
    let measured = match ratios[..] {
        [one] => format!("{one:.2}"),
        [one, two] => format!("{one:.2}, {two:.2}"),
        _ => format!("{:.2} at worst", largest(&ratios)),
    };
    let most = format!("{most} of {}", side(of));
    let missed = held.iter().filter(|held| held.is_missed()).count();
    vec![what, most, measured, met(missed, held.len())]
}

/// A bound on numbers of one kind.
fn worst(what: &str, most: f64, all: &[f64], shown: fn(f64) -> String) -> Vec<String> {
    let missed = all.iter().filter(|&&one| one > most).count();
    vec![
        what.into(),
        shown(most),
        format!("{} at worst", shown(largest(all))),
        met(missed, all.len()),
    ]
}

fn largest(all: &[f64]) -> f64 {
    all.iter().copied().fold(0.0, f64::max)
}

fn met(missed: usize, rows: usize) -> String {
    match missed {
        _ if rows == 0 => "not measured".into(),
        0 => "yes".into(),
        _ if rows == 1 => "no".into(),
        _ => format!("no: {missed} of {rows} rows"),
    }
}

fn side(who: Who) -> &'static str {
    match who {
        Rust => "the Rust",
        C => "C",
        Fold => "the fold",
        Words => "the fold on words",
        Apart => "its columns apart",
        Shifted => "the shifted one",
        _ => who.name(),
    }
}

/// The rows that miss a bound.
pub fn misses(rows: &[Row]) -> String {
    let line = |held: &Held| {
        vec![
            name(held),
            time(held, Ours),
            format!("{} {}", side(held.of), time(held, held.of)),
            format!("{:.2}", held.ratio),
            held.most.to_string(),
        ]
    };
    let lines: Vec<_> = missed(rows).iter().map(line).collect();
    listed(&["row", "ours", "beside", "ratio", "at most"], &lines)
}

/// The rows that are further from their limit.
pub fn beyond(rows: &[Row]) -> String {
    let line = |held: &Held| {
        vec![
            name(held),
            time(held, Ours),
            time(held, Limit),
            format!("{:.2}", held.ratio),
        ]
    };
    let lines: Vec<_> = beyond_limit(rows).iter().map(line).collect();
    listed(&["row", "ours", "limit", "ratio"], &lines)
}

fn name(held: &Held) -> String {
    key(held.row.name, held.row.n, &held.row.size)
}

fn time(held: &Held, who: Who) -> String {
    held.row.time(who).map(seconds).unwrap_or_default()
}

fn listed(head: &[&str], lines: &[Vec<String>]) -> String {
    match lines.is_empty() {
        true => "No row.\n".into(),
        false => table(head, lines),
    }
}
