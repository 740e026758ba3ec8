//! Values of tables at a point.

use calls::Operation::{
    PolyEvalBase, PolyEvalCyclicBase, PolyEvalExt, PolyEvalNextBase, SplitEvalBase, SplitEvalExt,
    SplitEvalNextBase,
};

use crate::operation::operation;
use crate::run::Run;

pub fn compare(run: &mut Run) {
    for name in [
        PolyEvalBase,
        PolyEvalExt,
        PolyEvalNextBase,
        PolyEvalCyclicBase,
        SplitEvalBase,
        SplitEvalExt,
        SplitEvalNextBase,
    ] {
        operation(run, name, |calls| {
            calls.every_size(2, calls.run.count(20_000, 2_000_000));
            calls.largest(20, 0);
        });
    }
}
