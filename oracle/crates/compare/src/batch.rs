//! Batches of points.

use calls::Operation::{EvalEqBatch, EvalEqBatchAdd};

use crate::operation::operation;
use crate::run::Run;

pub fn compare(run: &mut Run) {
    for name in [EvalEqBatch, EvalEqBatchAdd] {
        operation(run, name, |calls| {
            for n in 0..=3 {
                for w in 0..=3 {
                    calls.exhaustive(n, w, calls.run.count(400_000, 10_000_000));
                    calls.damaged(n, w);
                }
            }
            // The most points, and one more.
            for n in 0..=10 {
                for (w, count) in [
                    (0, 10),
                    (1, 100),
                    (2, 100),
                    (3, 100),
                    (7, 20),
                    (64, 5),
                    (65, 1),
                ] {
                    calls.random(n, w, calls.run.count(count, 20 * count));
                    calls.damaged_at_random(n, w, calls.run.count(count, 20 * count));
                }
            }
            calls.random(12, 64, 1);
            // The most variables, and one more with an out that fits it.
            calls.random(20, 1, 1);
            calls.damaged_at_random(20, 1, calls.run.count(5, 50));
            calls.random(21, 1, 1);
        });
    }
}
