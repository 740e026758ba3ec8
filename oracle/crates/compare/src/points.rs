//! Operations on points that give one element, or three.

use calls::Operation::{EqualityAtVertex, EvalEq, EvalNext, EvalSelect};

use crate::operation::{Calls, operation};
use crate::run::Run;

pub fn compare(run: &mut Run) {
    for name in [EqualityAtVertex, EvalEq, EvalNext, EvalSelect] {
        operation(run, name, point);
    }
}

pub fn point(calls: &mut Calls) {
    for k in 0..=3 {
        calls.exhaustive(k, 1, calls.run.count(400_000, 10_000_000));
        calls.damaged(k, 1);
    }
    for k in 0..=10 {
        calls.numbers(k, 1);
    }
    for k in 0..=20 {
        calls.random(k, 1, calls.run.count(5_000, 200_000));
        calls.damaged_at_random(k, 1, calls.run.count(1_000, 50_000));
    }
    // The most coordinates, and one more.
    calls.damaged(20, 1);
    calls.random(21, 1, 100);
    calls.random(22, 1, 100);
}
