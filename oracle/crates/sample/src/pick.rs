//! The calls of the list.

use calls::Operation::*;
use calls::{Call, Damage, Operation, Random, Slice};

use crate::{BEFORE, MOST_OUT, size, tests};

/// Small numbers, random elements, and a batch at its limits.
pub fn whole(operation: Operation, random: &mut Random) -> Vec<Call> {
    let mut calls: Vec<_> = (0..=2).map(|n| small(operation, n)).collect();
    let mut fitting = |n, m| ready(Call::fitting(operation, n, m, random));
    match operation {
        EvalEqBatch | EvalEqBatchAdd => {
            // The most points; none, which passes whatever the rest is.
            calls.extend([(2, 3), (3, 1), (0, 64)].map(|(n, w)| fitting(n, w)));
            let mut none = fitting(2, 0);
            none.number = 99;
            *none.slice(Slice::A) = vec![u32::MAX; 3];
            calls.push(none);
        }
        // Two blocks of four rows, and a seam between them.
        _ if operation.folds() => {
            calls.extend([(3, 3), (4, 3)].map(|(n, k)| fitting(n, k)));
        }
        _ => calls.push(fitting(3, 0)),
    }
    calls
}

/// Small numbers; for n = 2 most are document 01's.
fn small(operation: Operation, n: usize) -> Call {
    let table = &[1, 4, 9, 16][..1 << n];
    let (read, number) = arguments(operation, n, table);
    let [a, b, c] = read.each_ref().map(|numbers| elements(numbers));
    let m = match operation.folds() {
        true => n.div_ceil(2),
        false => 2,
    };
    let [_, _, _, work, out] = operation.lengths(n, m);
    let work = match operation.fixes() {
        true => elements(table),
        false => vec![BEFORE; work],
    };
    let first = match operation.base_table() {
        true => table.to_vec(),
        false => a,
    };
    Call {
        operation,
        slices: [first, b, c, work, vec![BEFORE; out]],
        number,
    }
}

/// The numbers that are read, and the number given.
fn arguments(operation: Operation, n: usize, table: &[u32]) -> ([Vec<u32>; 3], u64) {
    let z = &[2, 3][..n];
    let scale = &[if n == 2 { 1 } else { 5 }];
    let k = n.div_ceil(2);
    let (read, number): ([&[u32]; 3], u64) = match operation {
        EqualityAtVertex => ([z, &[], &[]], (1 << n) - 1),
        EqualityWeightsMsb | EqualityWeightsLsb | NewNextFromPoint | NewCyclicFromPoint => {
            ([z, &[], &[]], 0)
        }
        EvalEq | EvalNext => ([z, &[5, 7][..n], &[]], 0),
        EvalSelect => ([z, &[], &[]], 3),
        NewFromPoint | LastScalar => ([z, &[5], &[]], 0),
        EvalEqBatch | EvalEqBatchAdd => ([&[2, 0, 3, 1][..2 * n], &[1, 10], &[]], n as u64),
        PolyEvalBase | PolyEvalExt | PolyEvalNextBase | PolyEvalCyclicBase => ([table, z, &[]], 0),
        SplitEvalBase | SplitEvalExt | SplitEvalNextBase => ([table, z, scale], 0),
        AccumulateInto => ([z, &[5], &[3]], 0),
        CompressPrefix | CompressPrefixShifted | CompressPrefixCyclic => {
            ([table, &z[..k], scale], 0)
        }
        CompressSuffix | CompressSuffixShifted | CompressSuffixCyclic => {
            ([table, &z[n - k..], scale], 0)
        }
        FixPrefixVarMut | FixSuffixVarMut | FixPrefixVarMutMonomial => ([&[2], &[], &[]], 0),
        SumPrefixVarMut => ([&[]; 3], 0),
    };
    (read.map(<[u32]>::to_vec), number)
}

fn elements(numbers: &[u32]) -> Vec<u32> {
    numbers.iter().flat_map(|&word| [word, 0, 0, 0]).collect()
}

/// A call that meets the first and the last refusal, and for each other that
/// short calls meet one that meets it first.
pub fn damaged(operation: Operation, random: &mut Random) -> Vec<Call> {
    let candidates = candidates(operation, random);
    let mut pick = |wanted: &dyn Fn(&[usize]) -> bool| {
        let mut wanted: Vec<_> = candidates
            .iter()
            .filter(|call| wanted(&holding(call)))
            .collect();
        let least = wanted.iter().map(|call| cost(call)).min()?;
        wanted.retain(|call| cost(call) == least);
        Some(wanted[random.below(wanted.len() as u32) as usize].clone())
    };
    let last = tests(&small(operation, 1)).len() - 1;
    let both = pick(&|holding| holding.starts_with(&[0]) && holding.ends_with(&[last]));
    let each = (1..=last).filter_map(|i| pick(&|holding| holding.first() == Some(&i)));
    both.into_iter().chain(each).collect()
}

/// Short records are wanted, and refusals that come alone.
fn cost(call: &Call) -> usize {
    size(call) + 16 * holding(call).len()
}

/// The places among its tests of those that hold.
fn holding(call: &Call) -> Vec<usize> {
    let tests = tests(call);
    (0..tests.len()).filter(|&i| tests[i].0).collect()
}

/// Calls with two changes, short enough for a record.
fn candidates(operation: Operation, random: &mut Random) -> Vec<Call> {
    let (n, m) = (1, 1);
    let changes = Damage::all(operation, n, m);
    let mut candidates = vec![];
    for &first in &changes {
        for &second in &changes {
            let mut call = Call::fitting(operation, n, m, random);
            call.damage(first, random);
            call.damage(second, random);
            let lent: usize = call.lent().map(<[u32]>::len).iter().sum();
            if call.number < 1 << 32 && lent <= MOST_OUT {
                candidates.push(ready(call));
            }
        }
    }
    candidates
}

/// With the same word in every place that is not given in the record.
fn ready(mut call: Call) -> Call {
    if !call.operation.fixes() {
        call.slice(Slice::Work).fill(BEFORE);
    }
    call.slice(Slice::Out).fill(BEFORE);
    call
}
