//! Split points and folds.

use calls::Operation::{
    AccumulateInto, CompressPrefix, CompressPrefixCyclic, CompressPrefixShifted, CompressSuffix,
    CompressSuffixCyclic, CompressSuffixShifted, LastScalar,
};

use crate::operation::{Calls, operation};
use crate::run::Run;

pub fn compare(run: &mut Run) {
    for name in [LastScalar, AccumulateInto] {
        operation(run, name, |calls| {
            calls.every_size(2, calls.run.count(20_000, 2_000_000));
        });
    }
    for name in [
        CompressPrefix,
        CompressSuffix,
        CompressPrefixShifted,
        CompressSuffixShifted,
        CompressPrefixCyclic,
        CompressSuffixCyclic,
    ] {
        operation(run, name, fold);
    }
}

pub fn fold(calls: &mut Calls) {
    for n in 0..=2 {
        for k in 0..=n {
            calls.exhaustive(n, k, calls.run.count(20_000, 2_000_000));
        }
    }
    for (n, k) in [(0, 0), (1, 1), (3, 2)] {
        calls.damaged(n, k);
    }
    for n in 0..=10 {
        // The last is a coordinate too many.
        for k in 0..=n + 1 {
            calls.around(n, k, calls.run.count(40, 1_000));
        }
    }
    // The most variables, and one more.
    for k in [0, 1, 2, 9, 10, 11, 19, 20] {
        calls.random(20, k, calls.run.count(1, 10));
    }
    calls.largest(20, 10);
    calls.largest(20, 20);
    calls.damaged_at_random(20, 10, calls.run.count(3, 50));
    calls.random(20, 21, 1);
    calls.random(21, 10, 1);
}
