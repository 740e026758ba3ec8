//! Compares the proved operations with the stand-ins and with the Rust crate,
//! the ward's calls with those on words, and foldframes with the fold session.
//!
//!     compare [--long] [--seed N]

mod batch;
mod cases;
mod changes;
mod elements;
mod fixing;
mod folds;
mod frames;
mod met;
mod operation;
mod points;
mod run;
mod sessions;
mod step;
mod tables;
mod through_c;
mod values;
mod wards;

use std::time::{SystemTime, UNIX_EPOCH};
use std::{env, process};

fn main() {
    let mut long = false;
    let mut seed = SystemTime::now()
        .duration_since(UNIX_EPOCH)
        .map_or(1, |time| time.as_nanos() as u64);
    let mut arguments = env::args().skip(1);
    while let Some(argument) = arguments.next() {
        match argument.as_str() {
            "--long" => long = true,
            "--seed" => match arguments.next().and_then(|number| number.parse().ok()) {
                Some(number) => seed = number,
                None => usage(),
            },
            _ => usage(),
        }
    }
    println!("seed {seed}");
    let mut run = run::Run::new(seed, long);
    elements::compare(&mut run);
    points::compare(&mut run);
    tables::compare(&mut run);
    batch::compare(&mut run);
    values::compare(&mut run);
    folds::compare(&mut run);
    fixing::compare(&mut run);
    sessions::compare(&mut run);
    wards::compare(&mut run);
    frames::compare(&mut run);
    run.finish();
}

fn usage() -> ! {
    eprintln!("usage: compare [--long] [--seed N]");
    process::exit(2);
}
