//! Writes a fixed list of calls with the Rust's answers, for a replay where there
//! is no Rust. crates/replay/README.md has the format.
//!
//!     sample FILE

mod pick;

use std::collections::BTreeSet;
use std::{env, fs, process};

use calls::Operation::*;
use calls::{Call, Operation, Random, Slice, Tests, expect};

/// The word in every place of out, and of work, before a call.
const BEFORE: u32 = 7;

/// The most words of work and out together.
const MOST_OUT: usize = 64;

/// A record of more words stands once for the operations with its slices.
const LONG: usize = 85;

fn main() {
    let Some(file) = env::args().nth(1) else {
        eprintln!("usage: sample FILE");
        process::exit(2);
    };
    let mut random = Random(1);
    let mut long = BTreeSet::new();
    let mut text = String::new();
    let (mut records, mut refused) = (0, 0);
    for &operation in Operation::ALL {
        let whole = pick::whole(operation, &mut random);
        for call in [whole, pick::damaged(operation, &mut random)].concat() {
            let (words, answer) = record(&call);
            if words.len() > LONG && !long.insert((operation.slices(), answer)) {
                continue;
            }
            let words: Vec<_> = words.iter().map(|word| format!("{word:08x}")).collect();
            text += &(words.join(" ") + "\n");
            records += 1;
            refused += (answer != 0) as u32;
        }
    }
    let bytes = text.len();
    if let Err(error) = fs::write(&file, &text) {
        eprintln!("{file}: {error}");
        process::exit(1);
    }
    println!("{records} records, {refused} of them refused, {bytes} bytes");
}

/// The words of a record, and the answer.
fn record(call: &Call) -> (Vec<u32>, u32) {
    let expected = match call.misfits() {
        true => vec![expect(&tests(call), call.lent(), || unreachable!())],
        false => call.expected(),
    };
    assert!(expected.iter().all(|other| *other == expected[0]));
    let answer = expected[0].answer;
    let out = expected[0].lent.concat();
    let ([a, second, ..], b) = (&call.slices, joined(call));
    let number = match on_points(call.operation) {
        true => u32::try_from(call.number).unwrap(),
        false => {
            // Where b's second part starts, and where out does.
            let work = &call.slices[Slice::Work as usize];
            let first = if call.operation.fixes() { work } else { second };
            (work.len() << 16 | first.len()) as u32
        }
    };
    let lengths = [a.len(), b.len(), out.len()].map(|length| length as u32);
    let head = [
        call.operation as u32,
        lengths[0],
        lengths[1],
        number,
        answer,
        lengths[2],
    ];
    ([&head, &a[..], &b, &out].concat(), answer)
}

/// A call's refusals. Before document 01's is the replay's own, where a slice of one
/// length has another.
fn tests(call: &Call) -> Tests {
    let mut tests = call.refusals();
    let named = Slice::ALL.into_iter().zip(call.operation.slices());
    let mut named = named.filter(|(_, name)| !name.is_empty());
    if named.any(|(slice, _)| call.operation.one_length(slice).is_some()) {
        tests.insert(0, (call.misfits(), 4));
    }
    tests
}

/// The second and the third slice together; of fixing, the table before the call.
fn joined(call: &Call) -> Vec<u32> {
    let [_, b, c, table, _] = &call.slices;
    match call.operation.fixes() {
        true => table.clone(),
        false => [&b[..], c].concat(),
    }
}

/// The operations on points, whose records give a number of their own.
fn on_points(operation: Operation) -> bool {
    operation as u32 <= EvalEqBatchAdd as u32 || operation == NewCyclicFromPoint
}

/// The words that a record has beside its head.
fn size(call: &Call) -> usize {
    let [a, _, _, work, out] = &call.slices;
    a.len() + joined(call).len() + work.len() + out.len()
}
