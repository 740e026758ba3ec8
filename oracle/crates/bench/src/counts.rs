//! Instructions by callgrind: one run of one side of a row at a time, in a
//! process of its own, and of foldframes.

use std::process::{Command, Stdio};
use std::{env, fs};

use crate::bench::key;
use crate::frames::{Frames, SIDES, program, temporary};
use crate::input::{Input, MOST};
use crate::report::{count, percent, progress, ratio, some, table};
use crate::side::Who::{self, Limit, Ours, Rust};

/// The rows that are counted.
const ROWS: [(&str, usize, &str); 19] = [
    ("1,000 products in a chain", 0, ""),
    ("new_from_point", 20, "k = 20"),
    ("equality_at_vertex", 20, "k = 20"),
    ("eval_next", 20, "k = 20"),
    ("eval_eq_batch", 20, "w = 1"),
    ("Poly::eval_base", 20, "k = 20"),
    ("Poly::eval_ext", 20, "k = 20"),
    ("Poly::eval_next_base", 20, "k = 20"),
    ("fix_prefix_var_mut", 20, ""),
    ("fix_suffix_var_mut", 20, ""),
    ("fix_prefix_var_mut_monomial", 20, ""),
    ("sum_prefix_var_mut", 20, ""),
    ("compress_prefix", 20, "k = 10"),
    ("compress_prefix_shifted", 20, "k = 20"),
    ("compress_suffix", 20, "k = 1"),
    ("compress_suffix", 20, "k = 10"),
    ("accumulate_into", 20, "k = 20"),
    ("session, suffix, plain", 20, "k = 20, whole"),
    ("test of 2^20 words", 20, ""),
];

/// The tables, or why there are none, and the fold's part of each foldframes.
pub struct Counts {
    pub text: String,
    pub parts: Vec<f64>,
}

pub fn run(input: &Input) -> Counts {
    let version = Command::new("valgrind").arg("--version").output();
    if !version.is_ok_and(|output| output.status.success()) {
        return Counts {
            text: "Not counted: no valgrind.\n".into(),
            parts: vec![],
        };
    }
    let lines: Vec<_> = ROWS.map(row).into();
    let head = [
        "operation",
        "n",
        "size",
        "Rust",
        "ours",
        "ours/Rust",
        "limit",
        "ours/limit",
    ];
    let mut text = table(&head, &lines);
    let (mut lines, mut parts) = (vec![], vec![]);
    for (name, side, _) in SIDES {
        for k in [10, 20] {
            progress(&format!("counting {name}, k = {k}"));
            let (all, fold) = frames(&Frames::new(input, side, MOST, k, 1 << MOST));
            let part = all.zip(fold).map(|(all, fold)| fold as f64 / all as f64);
            let [all, fold] = [all, fold].map(shown);
            let shown = part.map(percent).unwrap_or_default();
            lines.push(vec![name.into(), k.to_string(), all, fold, shown]);
            parts.extend(part);
        }
    }
    text += "\n";
    text += &table(&["program", "k", "all", "the fold", "part"], &lines);
    Counts { text, parts }
}

fn row((name, n, size): (&str, usize, &str)) -> Vec<String> {
    let key = key(name, n, size);
    progress(&format!("counting {key}"));
    let [rust, ours, limit] = [Rust, Ours, Limit].map(|who| once(&key, who));
    let over = |other: Option<u64>| {
        let both = ours.zip(other);
        ratio(both.map(|(ours, other)| ours as f64 / other as f64))
    };
    vec![
        name.into(),
        some(n),
        size.into(),
        shown(rust),
        shown(ours),
        over(rust),
        shown(limit),
        over(limit),
    ]
}

fn shown(number: Option<u64>) -> String {
    number.map(count).unwrap_or_default()
}

fn callgrind() -> Command {
    let mut command = Command::new("valgrind");
    command.arg("--tool=callgrind");
    command
}

/// The instructions of a side's call, where the row has that side.
fn once(key: &str, who: Who) -> Option<u64> {
    let output = callgrind()
        .arg("--toggle-collect=*clock::measured*")
        .arg("--callgrind-out-file=/dev/null")
        .arg(env::current_exe().ok()?)
        .args(["--once", key, who.name()])
        .stdout(Stdio::null())
        .output()
        .ok()?;
    let said = String::from_utf8_lossy(&output.stderr);
    let (_, number) = said.rsplit_once("Collected : ")?;
    let number = number.split_whitespace().next()?.parse().ok();
    number.filter(|_| output.status.success())
}

/// The instructions of foldframes, and those of its fold.
fn frames(frames: &Frames) -> (Option<u64>, Option<u64>) {
    let file = temporary("callgrind");
    let mut command = callgrind();
    command.arg(format!("--callgrind-out-file={}", file.display()));
    command.arg(program());
    frames.fold(command);
    let annotated = Command::new("callgrind_annotate")
        .args(["--inclusive=yes", "--threshold=100"])
        .arg(&file)
        .output();
    _ = fs::remove_file(&file);
    let text = annotated.map(|output| String::from_utf8_lossy(&output.stdout).into_owned());
    let text = text.unwrap_or_default();
    let all = text.lines().find(|line| line.contains("PROGRAM TOTALS"));
    // `piece`, and `moved`, `short_rows` and `scatter` below it, are the fold
    // beneath the session's tests. Calls of a function within its own are
    // marked '2.
    let names = [":piece::", ":moved::", ":short_rows::", ":scatter::"];
    let folds = |line: &&str| names.iter().any(|name| line.contains(name));
    let calls = text.lines().filter(folds);
    let calls = calls.filter(|line| !line.contains("'2"));
    (all.and_then(leading), calls.filter_map(leading).max())
}

/// The count at the start of a line, which has commas.
fn leading(line: &str) -> Option<u64> {
    let number = line.split_whitespace().next()?;
    number.replace(',', "").parse().ok()
}
