//! One operation on points and tables: its calls, ours beside what is expected.

use calls::{Call, Damage, Operation, Tests};

use crate::met::Met;
use crate::run::Input::{Number, Words};
use crate::run::{Input, Run, call};
use crate::through_c::ours;

/// Refusals that no call meets at once: a constant has one entry.
const EXCLUSIVE: [(u32, u32); 2] = [(2, 6), (3, 6)];

/// Where calls go, and what is expected there.
pub trait Library {
    /// Whether it has a call with these slices.
    fn takes(&self, given: &Call) -> bool;

    /// Tests in document 01's order, each with the refusal where it holds.
    fn refusals(&self, given: &Call) -> Tests;

    /// Makes the call and compares.
    fn compare(&self, run: &mut Run, given: &Call);
}

/// The calls on words, beside the Rust.
struct Host;

impl Library for Host {
    fn takes(&self, given: &Call) -> bool {
        !given.misfits()
    }

    fn refusals(&self, given: &Call) -> Tests {
        given.refusals()
    }

    fn compare(&self, run: &mut Run, given: &Call) {
        let got = call(given.lent(), |[work, out]| ours(given, work, out));
        let slices = given.slices.each_ref().map(|words| Words(words));
        let inputs = inputs(given.operation, slices, given.number);
        run.same(&inputs, &given.expected(), &got);
    }
}

/// A call's slices and its number, by their names.
pub fn inputs<'a>(
    operation: Operation,
    slices: [Input<'a>; 5],
    number: u64,
) -> Vec<(&'static str, Input<'a>)> {
    let mut inputs: Vec<_> = operation.slices().into_iter().zip(slices).collect();
    inputs.push((operation.number(), Number(number)));
    inputs.retain(|(name, _)| !name.is_empty());
    inputs
}

pub struct Calls<'a> {
    pub run: &'a mut Run,
    library: &'a dyn Library,
    operation: Operation,
    met: Met<&'static str>,
}

/// Runs the calls of one operation on words.
pub fn operation(run: &mut Run, operation: Operation, cases: impl FnOnce(&mut Calls)) {
    calls_of(run, &Host, operation.name(), operation, cases);
}

/// Runs the calls of one operation under this name.
pub fn calls_of(
    run: &mut Run,
    library: &dyn Library,
    name: &'static str,
    operation: Operation,
    cases: impl FnOnce(&mut Calls),
) {
    run.operation(name, |run| {
        let mut calls = Calls {
            run,
            library,
            operation,
            met: Met::new(),
        };
        cases(&mut calls);
        let given = calls.fitting(1, 1);
        let list: Vec<_> = library.refusals(&given).iter().map(|test| test.1).collect();
        calls.met.demand(operation.name(), &list, &EXCLUSIVE);
    });
}

impl Calls<'_> {
    /// Makes a call and compares, where the library has such a call.
    pub fn case(&mut self, given: &Call) {
        if !self.library.takes(given) {
            return;
        }
        let refusals = self.library.refusals(given);
        self.met.note(self.operation.name(), &refusals);
        self.library.compare(self.run, given);
    }

    /// Random input with these counts.
    pub fn fitting(&mut self, n: usize, m: usize) -> Call {
        Call::fitting(self.operation, n, m, &mut self.run.random)
    }

    /// The changes of a call with these counts.
    pub fn changes(&self, n: usize, m: usize) -> Vec<Damage> {
        Damage::all(self.operation, n, m)
    }
}
