//! Fixing and summing a variable.

use calls::Damage::{Length, Word};
use calls::Operation::{
    FixPrefixVarMut, FixPrefixVarMutMonomial, FixSuffixVarMut, SumPrefixVarMut,
};
use calls::Slice::Work;
use calls::{P, Place};

use crate::operation::operation;
use crate::run::Run;

pub fn compare(run: &mut Run) {
    for name in [
        FixPrefixVarMut,
        FixSuffixVarMut,
        FixPrefixVarMutMonomial,
        SumPrefixVarMut,
    ] {
        operation(run, name, |calls| {
            calls.every_size(2, calls.run.count(20_000, 2_000_000));
            // Over 20 variables beside every other refusal.
            let words = 4 << 21;
            let changes = [
                Length(Work, words + 1),
                Length(Work, words + 4),
                Word(Work, Place::Last, P),
            ];
            calls.changed_each(21, 0, &changes);
        });
    }
}
