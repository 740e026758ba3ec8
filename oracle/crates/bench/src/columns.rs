//! One session of several columns, beside sessions of each column alone.

use std::iter::once;

use crate::bench::{Bench, Row};
use crate::input::{Input, MOST, MOST_COLUMNS};
use crate::report::{ratio, seconds, table};
use crate::sessions::Session;
use crate::side::Side;
use crate::side::Who::{Apart, Ours};

/// The names of the rows by their weight's number.
const PLAIN: (&str, u32) = ("session of columns, prefix, plain", 0);
const NEXT: (&str, u32) = ("session of columns, prefix, next", 2);

/// Variables and coordinates.
const SIZES: [(usize, usize); 4] = [(18, 10), (18, 18), (MOST, 10), (MOST, MOST)];

/// What stands in the table.
const TITLE: &str = "\
A session of c columns, fed whole, beside c sessions of one column, one after another, each fed one column whole. The tables of one
column are made beforehand.
";

pub fn run(bench: &mut Bench, input: &Input) {
    for columns in [4, MOST_COLUMNS] {
        for size in SIZES {
            row(bench, input, PLAIN, size, columns);
        }
    }
    row(bench, input, NEXT, SIZES[0], MOST_COLUMNS);
}

fn row(
    bench: &mut Bench,
    input: &Input,
    (name, weight): (&'static str, u32),
    (n, k): (usize, usize),
    columns: usize,
) {
    bench.case(name, n, format!("k = {k}, c = {columns}"), || {
        let alone = Session::new(input, n, k);
        let words = input.wide(n, columns);
        let together = Session::new(input, n, k).of(columns);
        vec![
            Side::lent(Ours, together.out_words(), move |out| {
                together.pass(0, weight, once(words), out)
            }),
            apart(alone, weight, words, columns),
        ]
    });
}

/// Sessions of each column, each with a table and an out of its own. What they
/// leave is shown as the session of all columns leaves it.
fn apart<'a>(alone: Session<'a>, weight: u32, words: &[u32], columns: usize) -> Side<'a> {
    let column = |j: usize| words[j..].iter().step_by(columns).copied().collect();
    let tables: Vec<Vec<u32>> = (0..columns).map(column).collect();
    let mut outs = vec![vec![0; alone.out_words()]; columns];
    Side::new(Apart, move |clock| {
        let refused = clock.each(|| {
            let both = tables.iter().zip(&mut outs);
            both.map(|(table, out)| alone.pass(0, weight, once(&table[..]), out))
                .sum::<u32>()
        });
        assert_eq!(refused, 0);
        clock.leaves(|| {
            let places = 0..alone.out_words() / 4;
            let elements = |i: usize| outs.iter().flat_map(move |out| &out[4 * i..][..4]);
            places.flat_map(elements).copied().collect()
        });
    })
}

/// Title and table.
pub fn text(rows: &[Row]) -> String {
    let line = |row: &Row| {
        let apart = row.time(Apart)?;
        let ours = row.time(Ours)?;
        Some(vec![
            row.name.into(),
            row.n.to_string(),
            row.size.clone(),
            seconds(ours),
            seconds(apart),
            ratio(row.ratio(Apart)),
        ])
    };
    let lines: Vec<_> = rows.iter().filter_map(line).collect();
    let head = ["operation", "n", "size", "ours", "apart", "ours/apart"];
    format!("{TITLE}\n{}", table(&head, &lines))
}
