//! Document 01's refusals.

use crate::Operation::*;
use crate::{Call, P, Slice};

/// The most variables or coordinates.
pub const MOST: u64 = 20;

/// The most points of a batch.
const MOST_POINTS: u64 = 64;

/// Tests in document 01's order, each with the refusal where it holds.
pub type Tests = Vec<(bool, u32)>;

impl Call {
    pub fn refusals(&self) -> Tests {
        match self.operation {
            EqualityAtVertex | EqualityWeightsMsb | EqualityWeightsLsb | NewFromPoint
            | NewNextFromPoint | NewCyclicFromPoint => self.of_one_point(),
            EvalEq | EvalNext | EvalSelect => self.of_products(),
            EvalEqBatch | EvalEqBatchAdd if self.no_scalars() => vec![],
            EvalEqBatch | EvalEqBatchAdd => self.of_a_batch(),
            LastScalar | AccumulateInto => self.of_a_split_point(),
            FixPrefixVarMut | FixSuffixVarMut | FixPrefixVarMutMonomial | SumPrefixVarMut => {
                self.of_fixing()
            }
            _ => self.of_a_table(),
        }
    }

    /// A slice has another length than the one that it must have: no call.
    pub fn misfits(&self) -> bool {
        let misfits = |slice| {
            let length = self.operation.one_length(slice);
            length.is_some_and(|length| self.slices[slice as usize].len() != length)
        };
        Slice::ALL.into_iter().any(misfits)
    }

    /// A batch of no points: accepted, nothing read, out kept.
    pub fn no_scalars(&self) -> bool {
        matches!(self.operation, EvalEqBatch | EvalEqBatchAdd) && self.slices[1].is_empty()
    }

    fn words(&self) -> [&[u32]; 5] {
        self.slices.each_ref().map(Vec::as_slice)
    }

    fn of_one_point(&self) -> Tests {
        let [point, scale, _, _, out] = self.words();
        let k = entries(point);
        if self.operation == EqualityAtVertex {
            return vec![
                (splits([point]), 1),
                (k > MOST, 3),
                (unreduced([point]), 5),
                (rows(k).is_some_and(|rows| self.number >= rows), 7),
            ];
        }
        vec![
            (splits([point, out]), 1),
            (k > MOST, 3),
            (rows(k) != Some(entries(out)), 4),
            (unreduced([point, scale]), 5),
        ]
    }

    fn of_products(&self) -> Tests {
        let [point, row, ..] = self.words();
        let k = entries(point);
        if self.operation == EvalSelect {
            return vec![
                (splits([point]), 1),
                (k > MOST, 3),
                (unreduced([point]) || self.number >= P as u64, 5),
            ];
        }
        vec![
            (splits([point, row]), 1),
            (k > MOST || entries(row) > MOST, 3),
            (k != entries(row), 4),
            (unreduced([point, row]), 5),
        ]
    }

    fn of_a_batch(&self) -> Tests {
        let [points, scalars, _, _, out] = self.words();
        let (n, w) = (self.number, entries(scalars));
        let lengths = n.checked_mul(w) != Some(entries(points)) || rows(n) != Some(entries(out));
        let adds = self.operation == EvalEqBatchAdd;
        vec![
            (splits([points, scalars, out]), 1),
            (n > MOST || w > MOST_POINTS, 3),
            (lengths, 4),
            (unreduced([points, scalars]) || adds && unreduced([out]), 5),
        ]
    }

    /// Evaluations and folds.
    fn of_a_table(&self) -> Tests {
        let [table, point, scale, work, out] = self.words();
        let (base, folds) = (self.operation.base_table(), self.operation.folds());
        let split = self.operation.takes_work();
        let count = match base {
            true => table.len() as u64,
            false => entries(table),
        };
        let (n, k) = (count.trailing_zeros() as u64, entries(point));
        let lengths = match folds {
            true => k > n || rows(n - k) != Some(entries(out)),
            false => k != n,
        };
        vec![
            (splits([point, work, out]) || !base && splits([table]), 1),
            (!count.is_power_of_two(), 2),
            (over(count) || k > MOST, 3),
            (lengths || split && misfits(work, k), 4),
            (unreduced([table, point, scale]), 5),
        ]
    }

    fn of_a_split_point(&self) -> Tests {
        let [point, scale, given, work, out] = self.words();
        let (k, count) = (entries(point), entries(out));
        if self.operation == LastScalar {
            return vec![
                (splits([point, work]), 1),
                (k > MOST, 3),
                (misfits(work, k), 4),
                (unreduced([point, scale]), 5),
            ];
        }
        vec![
            (splits([point, work, out]), 1),
            (!count.is_power_of_two(), 2),
            (over(count) || k > MOST, 3),
            (k != count.trailing_zeros() as u64 || misfits(work, k), 4),
            (unreduced([point, scale, given, out]), 5),
        ]
    }

    fn of_fixing(&self) -> Tests {
        let [r, _, _, table, _] = self.words();
        let sums = self.operation == SumPrefixVarMut;
        let count = entries(table);
        let mut tests = vec![
            (splits([table]), 1),
            (!count.is_power_of_two(), 2),
            (over(count), 3),
            (unreduced([r, table]), 5),
        ];
        if !sums {
            tests.push((count == 1, 6));
        }
        tests
    }
}

pub fn entries(words: &[u32]) -> u64 {
    words.len() as u64 / 4
}

/// A table of so many entries has over 20 variables.
fn over(count: u64) -> bool {
    count > 1 << MOST
}

/// 2^k, where a u64 can hold it.
pub fn rows(k: u64) -> Option<u64> {
    1u64.checked_shl(u32::try_from(k).ok()?)
}

/// The work buffer does not have just the tables of the first floor(k/2)
/// coordinates and of the others.
fn misfits(work: &[u32], k: u64) -> bool {
    let both = rows(k / 2)
        .zip(rows(k - k / 2))
        .and_then(|(eq0, eq1)| eq0.checked_add(eq1));
    both != Some(entries(work))
}

pub fn splits<const N: usize>(slices: [&[u32]; N]) -> bool {
    slices.iter().any(|words| words.len() % 4 != 0)
}

pub fn unreduced<const N: usize>(slices: [&[u32]; N]) -> bool {
    slices
        .iter()
        .any(|words| words.iter().any(|&word| word >= P))
}
