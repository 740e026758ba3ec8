//! Times the proved operations beside the Rust and, for the kernels, beside C
//! and a limit: same input, same process, one thread, runs in turn, the least of
//! them. Counts instructions by callgrind, and shows how time grows with the
//! table.
//!
//!     bench [--runs N] [--write]
//!     bench --once ROW SIDE
//!
//! With --write the tables go into docs/SPEED.md and the plot into
//! docs/speed.svg, in the folder that the variable BENCH_DOCS names. The second
//! form runs one side of one row once, for callgrind.

mod aims;
mod bench;
mod clock;
mod columns;
mod counts;
mod cyclic;
mod document;
mod feeds;
mod folds;
mod frames;
mod growth;
mod input;
mod limits;
mod plot;
mod points;
mod reference;
mod report;
mod sessions;
mod side;
mod svg;
mod values;
mod verdict;
mod wards;

use std::path::PathBuf;
use std::{env, fs, process};

use bench::{Bench, Once, Row};
use input::Input;

const BUFFERS: &str = "\
Buffers: out and work are allocated before the runs and are not cleared between them; what a call clears, it clears within its time.
The Rust allocates what it gives back within its time, and frees it outside. A table of which a variable is fixed is put back before
each run, outside the time; `accumulate_into` adds to what the run before left.
";

/// How often a row is run, and what is not timed.
fn how(runs: usize) -> String {
    let (fewest, budget) = (bench::FEWEST.min(runs), bench::BUDGET);
    format!("Least of {fewest} to {runs} runs, as many as fit into {budget} s.\n\n{BUFFERS}")
}

/// Both tables of times, and how they were taken.
fn times(rows: &[Row], runs: usize) -> String {
    [report::times(rows), columns::text(rows), how(runs)].join("\n")
}

fn main() {
    let (mut bench, writes) = arguments();
    let input = Input::new();
    points::run(&mut bench, &input);
    values::run(&mut bench, &input);
    folds::run(&mut bench, &input);
    sessions::run(&mut bench, &input);
    cyclic::run(&mut bench, &input);
    columns::run(&mut bench, &input);
    wards::run(&mut bench, &input);
    frames::run(&mut bench, &input);
    if bench.once.is_some() {
        eprintln!("no such row");
        process::exit(2);
    }
    let rows = &bench.rows;
    let grown = growth::run(&input, bench.runs);
    let counts = counts::run(&input);
    let parts = [
        ("machine", document::machine()),
        ("times", times(rows, bench.runs)),
        ("counts", counts.text),
        ("growth", growth::text(&grown)),
        ("feeds", feeds::text(rows)),
        ("aims", verdict::aims(rows, &counts.parts)),
        ("missed", verdict::misses(rows)),
        ("limits", verdict::beyond(rows)),
    ];
    report::progress("");
    for (name, part) in &parts {
        println!("{name}\n\n{part}");
    }
    if writes {
        write(&parts, &plot::svg(&grown));
    }
}

fn write(parts: &[(&str, String)], plot: &str) {
    let folder = PathBuf::from(env::var_os("BENCH_DOCS").unwrap_or("docs".into()));
    let written = document::write(&folder, parts);
    if let Err(error) = written.and_then(|()| fs::write(folder.join("speed.svg"), plot)) {
        eprintln!("docs: {error}");
        process::exit(1);
    }
}

/// The benchmark that is asked for, and whether the documents are written.
fn arguments() -> (Bench, bool) {
    let mut bench = Bench {
        runs: 31,
        once: None,
        rows: vec![],
    };
    let mut writes = false;
    let mut arguments = env::args().skip(1);
    while let Some(argument) = arguments.next() {
        match argument.as_str() {
            "--write" => writes = true,
            "--runs" => match arguments.next().and_then(|runs| runs.parse().ok()) {
                Some(runs) if runs > 0 => bench.runs = runs,
                _ => usage(),
            },
            "--once" => match (arguments.next(), arguments.next()) {
                (Some(key), Some(who)) => bench.once = Some(Once { key, who }),
                _ => usage(),
            },
            _ => usage(),
        }
    }
    (bench, writes)
}

fn usage() -> ! {
    eprintln!("usage: bench [--runs N] [--write]");
    process::exit(2);
}
