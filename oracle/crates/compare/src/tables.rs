//! Tables of a point.

use calls::Operation::{
    EqualityWeightsLsb, EqualityWeightsMsb, NewCyclicFromPoint, NewFromPoint, NewNextFromPoint,
};

use crate::operation::operation;
use crate::run::Run;

pub fn compare(run: &mut Run) {
    for name in [
        EqualityWeightsMsb,
        EqualityWeightsLsb,
        NewFromPoint,
        NewNextFromPoint,
        NewCyclicFromPoint,
    ] {
        operation(run, name, |calls| {
            calls.every_size(3, calls.run.count(400_000, 10_000_000));
        });
    }
}
