//! The ward's calls on bytes, beside the same calls on words.

use calls::Operation::{CompressPrefixShifted, CompressSuffixShifted, EqualityAtVertex, EvalNext};
use calls::{
    Call, MOST, Operation, Outcome, Random, Slice, Tests, entries, expect, rows, splits, unreduced,
};
use ward::{raw, word_bytes, words};

use crate::operation::{Calls, Library, calls_of, inputs};
use crate::run::Input::Bytes;
use crate::run::{Run, call};
use crate::through_c::ours;
use crate::{folds, points};

type Cases = fn(&mut Calls);

const CALLS: [(&str, Operation, Cases); 4] = [
    ("ward_equality_at_vertex", EqualityAtVertex, points::point),
    ("ward_eval_next", EvalNext, points::point),
    (
        "ward_compress_prefix_shifted",
        CompressPrefixShifted,
        folds::fold,
    ),
    (
        "ward_compress_suffix_shifted",
        CompressSuffixShifted,
        folds::fold,
    ),
];

pub fn compare(run: &mut Run) {
    for (name, operation, cases) in CALLS {
        calls_of(run, &Ward, name, operation, cases);
    }
}

struct Ward;

impl Library for Ward {
    /// A scale is four numbers.
    fn takes(&self, given: &Call) -> bool {
        !given.operation.folds() || given.slices[Slice::C as usize].len() == 4
    }

    /// A fold's are those of the call on words. The others test out as a slice of
    /// elements, its length after 3.
    fn refusals(&self, given: &Call) -> Tests {
        let [point, row, _, _, out] = given.slices.each_ref().map(Vec::as_slice);
        let k = entries(point);
        match given.operation {
            EqualityAtVertex => vec![
                (splits([point, out]), 1),
                (k > MOST, 3),
                (entries(out) != 1, 4),
                (unreduced([point]), 5),
                (rows(k).is_some_and(|rows| given.number >= rows), 7),
            ],
            EvalNext => vec![
                (splits([point, row, out]), 1),
                (k > MOST || entries(row) > MOST, 3),
                (k != entries(row) || entries(out) != 3, 4),
                (unreduced([point, row]), 5),
            ],
            _ => given.refusals(),
        }
    }

    /// By document 01 with the values of the call on words; and where there is such
    /// a call, by that call alone. Then the same with bytes that split a word.
    fn compare(&self, run: &mut Run, given: &Call) {
        let mut octets = Octets::new(given);
        let by_words = (!given.misfits()).then(|| {
            let by_words = call(given.lent(), |[work, out]| ours(given, work, out));
            Outcome {
                answer: by_words.answer,
                lent: by_words.lent.map(|words| word_bytes(&words)),
            }
        });
        let mut expected = vec![expect(&self.refusals(given), octets.lent(), || {
            by_words.clone().unwrap().lent
        })];
        expected.extend(by_words);
        octets.compare(run, &expected);

        octets.split(&mut run.random);
        let expected = expect(&[(true, 1)], octets.lent(), || unreachable!());
        octets.compare(run, &[expected]);
    }
}

/// A call on bytes.
struct Octets {
    operation: Operation,
    slices: [Vec<u8>; 5],
    number: u64,
}

impl Octets {
    fn new(given: &Call) -> Self {
        Self {
            operation: given.operation,
            slices: given.slices.each_ref().map(|words| word_bytes(words)),
            number: given.number,
        }
    }

    /// Work and out before the call.
    fn lent(&self) -> [&[u8]; 2] {
        let [_, _, _, work, out] = &self.slices;
        [work, out]
    }

    /// One to three bytes more or fewer in one of its slices.
    fn split(&mut self, random: &mut Random) {
        let names = self.operation.slices();
        let all = self.slices.iter_mut().zip(names);
        let mut named: Vec<_> = all
            .filter(|(_, name)| !["", "scale"].contains(name))
            .collect();
        let chosen = random.below(named.len() as u32) as usize;
        let (slice, _) = &mut named[chosen];
        let bytes = 1 + random.below(3) as usize;
        match random.below(2) {
            0 if !slice.is_empty() => slice.truncate(slice.len() - bytes),
            _ => slice.extend(&random.number().to_le_bytes()[..bytes]),
        }
    }

    fn ours(&self, work: &mut [u8], out: &mut [u8]) -> u32 {
        let [a, b, scale, ..] = &self.slices;
        let scale = || words(scale).try_into().unwrap();
        match self.operation {
            EqualityAtVertex => raw::equality_at_vertex(a, self.number, out),
            EvalNext => raw::eval_next(a, b, out),
            CompressPrefixShifted => raw::compress_prefix_shifted(a, b, scale(), work, out),
            CompressSuffixShifted => raw::compress_suffix_shifted(a, b, scale(), work, out),
            _ => unreachable!(),
        }
    }

    fn compare(&self, run: &mut Run, expected: &[Outcome<2, u8>]) {
        let got = call(self.lent(), |[work, out]| self.ours(work, out));
        let slices = self.slices.each_ref().map(|bytes| Bytes(bytes));
        let inputs = inputs(self.operation, slices, self.number);
        run.same(&inputs, expected, &got);
    }
}
