//! Tables of text: Markdown, with columns that stand under each other.

use std::io::{IsTerminal, stderr};

use crate::bench::Row;
use crate::side::Who::{Apart, Limit, Ours, Rust};

/// A head and lines; the first column to the left, the others to the right.
pub fn table(head: &[&str], lines: &[Vec<String>]) -> String {
    let width = |i: usize| {
        let cells = lines.iter().map(|line| line[i].chars().count());
        cells.chain([head[i].chars().count()]).max().unwrap_or(0)
    };
    let widths: Vec<_> = (0..head.len()).map(width).collect();
    let line = |cells: Vec<&str>| {
        let cells = cells.iter().zip(&widths).enumerate();
        let cells = cells.map(|(i, (cell, &width))| match i {
            0 => format!("{cell:<width$}"),
            _ => format!("{cell:>width$}"),
        });
        format!("| {} |\n", cells.collect::<Vec<_>>().join(" | "))
    };
    let rules = widths.iter().enumerate().map(|(i, &width)| match i {
        0 => "-".repeat(width),
        _ => "-".repeat(width - 1) + ":",
    });
    let rules: Vec<_> = rules.collect();
    let mut text = line(head.to_vec());
    text += &line(rules.iter().map(String::as_str).collect());
    for cells in lines {
        text += &line(cells.iter().map(String::as_str).collect());
    }
    text
}

/// The times of every row but those of columns, which have a table of their own.
pub fn times(rows: &[Row]) -> String {
    let head = [
        "operation",
        "n",
        "size",
        "Rust",
        "ours",
        "ours/Rust",
        "beside ours",
        "ours/that",
        "limit",
        "ours/limit",
    ];
    let others = rows.iter().filter(|row| row.time(Apart).is_none());
    let lines: Vec<_> = others.map(line).collect();
    table(&head, &lines)
}

fn line(row: &Row) -> Vec<String> {
    let ours = row.time(Ours).unwrap_or(f64::NAN);
    let beside = row.beside();
    let (other, over) = match beside.and_then(|who| Some((who, row.time(who)?))) {
        // A rate says more than the fold alone.
        _ if row.bytes > 0 => (rate(row.bytes, ours), String::new()),
        Some((who, time)) => (
            format!("{} {}", who.name(), seconds(time)),
            ratio(row.ratio(who)),
        ),
        None => Default::default(),
    };
    vec![
        row.name.into(),
        some(row.n),
        row.size.clone(),
        row.time(Rust).map(seconds).unwrap_or_default(),
        seconds(ours),
        ratio(row.ratio(Rust)),
        other,
        over,
        row.time(Limit).map(seconds).unwrap_or_default(),
        ratio(row.ratio(Limit)),
    ]
}

/// A number, or nothing for 0.
pub fn some(n: usize) -> String {
    match n {
        0 => String::new(),
        _ => n.to_string(),
    }
}

/// Megabytes, of a million bytes, a second.
pub fn rate(bytes: usize, seconds: f64) -> String {
    format!("{:.0} MB/s", bytes as f64 / 1e6 / seconds)
}

pub fn percent(part: f64) -> String {
    format!("{:.0} %", 100.0 * part)
}

pub fn ratio(ratio: Option<f64>) -> String {
    ratio.map(|ratio| format!("{ratio:.2}")).unwrap_or_default()
}

/// Three digits, in the unit that fits.
pub fn seconds(time: f64) -> String {
    let units = [(1.0, "s"), (1e-3, "ms"), (1e-6, "us"), (1e-9, "ns")];
    let (unit, name) = units
        .into_iter()
        .find(|(unit, _)| time >= 0.9995 * unit)
        .unwrap_or(units[3]);
    let digits = match time / unit {
        value if value < 9.995 => 2,
        value if value < 99.95 => 1,
        _ => 0,
    };
    format!("{:.digits$} {name}", time / unit)
}

/// A count with commas.
pub fn count(count: u64) -> String {
    let digits = count.to_string();
    let mut text = String::new();
    for (i, digit) in digits.chars().enumerate() {
        if i > 0 && (digits.len() - i).is_multiple_of(3) {
            text.push(',');
        }
        text.push(digit);
    }
    text
}

/// What is being measured, where someone looks on.
pub fn progress(what: &str) {
    if stderr().is_terminal() {
        eprint!("\r{what:<79}\r");
    }
}
