//! The element operations against the stand-ins' arithmetic.

use calls::{LIMITS, P, UNREDUCED, element, expect, unreduced};
use p3_field::{Base, Element, PrimeCharacteristicRing};

use crate::run::Input::{Number, Words};
use crate::run::{Run, call, choices};

/// An operation on elements and single words. Operands have a name and a width
/// in words, 4 for an element and 1 for a word, which passes as a number.
struct Operation<'a, const N: usize> {
    operands: [(&'static str, usize); N],
    /// A number that has no limits, and is only shown.
    times: Option<u64>,
    ours: &'a dyn Fn([&[u32]; N], &mut [u32; 4]) -> u32,
    standin: &'a dyn Fn([&[u32]; N]) -> Element,
}

impl<const N: usize> Operation<'_, N> {
    /// One case, the operands' words being given one after the other.
    fn case(&self, run: &mut Run, words: &[u32]) {
        let mut start = 0;
        let operands = self.operands.map(|(_, width)| {
            start += width;
            &words[start - width..start]
        });
        let out = &run.random.stale(4)[..];
        let expected = expect(&[(unreduced([words]), 5)], [out], || {
            [(self.standin)(operands).words().to_vec()]
        });
        let got = call([out], |[out]| {
            (self.ours)(operands, out.try_into().unwrap())
        });
        let mut inputs: Vec<_> = (0..N)
            .map(|i| (self.operands[i].0, Words(operands[i])))
            .collect();
        inputs.extend(self.times.map(|times| ("times", Number(times))));
        inputs.push(("out before", Words(out)));
        run.same(&inputs, &[expected], &got);
    }

    /// Every choice of limits for all words, as many limits as `most` allows.
    fn limits(&self, run: &mut Run, most: usize) {
        for words in choices(&LIMITS, self.width(), most) {
            self.case(run, &words);
        }
    }

    /// Random words, a limit now and then.
    fn random(&self, run: &mut Run, count: usize) {
        for _ in 0..count {
            let words = run.random.words(self.width());
            self.case(run, &words);
        }
    }

    /// Words that are not below p: each in each place, alone and beside another.
    fn unreduced(&self, run: &mut Run) {
        let width = self.width();
        for place in 0..width {
            for other in 0..width {
                for word in UNREDUCED {
                    let mut words = run.random.words(width);
                    words[other] = UNREDUCED[run.random.below(4) as usize];
                    words[place] = word;
                    self.case(run, &words);
                    if place == other {
                        // Beside words at the limits.
                        words = vec![P - 1; width];
                        words[place] = word;
                        self.case(run, &words);
                    }
                }
            }
        }
    }

    fn width(&self) -> usize {
        self.operands.iter().map(|(_, width)| width).sum()
    }

    /// All of these.
    fn all(&self, run: &mut Run) {
        self.limits(run, run.count(70_000, 6_000_000));
        self.random(run, run.count(200_000, 5_000_000));
        self.unreduced(run);
    }
}

/// An element's words as an array.
fn four(words: &[u32]) -> &[u32; 4] {
    words.try_into().unwrap()
}

const X: (&str, usize) = ("x", 4);
const Y: (&str, usize) = ("y", 4);
const WORD: (&str, usize) = ("word", 1);

fn binary(
    run: &mut Run,
    name: &'static str,
    ours: fn(&[u32; 4], &[u32; 4], &mut [u32; 4]) -> u32,
    standin: fn(Element, Element) -> Element,
) {
    let operation = Operation {
        operands: [X, Y],
        times: None,
        ours: &|[x, y], out| ours(four(x), four(y), out),
        standin: &|[x, y]| standin(element(x), element(y)),
    };
    run.operation(name, |run| operation.all(run));
}

fn unary(
    run: &mut Run,
    name: &'static str,
    ours: fn(&[u32; 4], &mut [u32; 4]) -> u32,
    standin: fn(Element) -> Element,
) {
    let operation = Operation {
        operands: [X],
        times: None,
        ours: &|[x], out| ours(four(x), out),
        standin: &|[x]| standin(element(x)),
    };
    run.operation(name, |run| operation.all(run));
}

/// y^times, by squares.
fn power(mut y: Element, mut times: u64) -> Element {
    let mut product = Element::ONE;
    while times > 0 {
        if times & 1 == 1 {
            product *= y;
        }
        y = y.square();
        times >>= 1;
    }
    product
}

fn mul_repeat(run: &mut Run, times: u64, cases: impl FnOnce(&Operation<2>, &mut Run)) {
    let operation = Operation {
        operands: [X, Y],
        times: Some(times),
        ours: &|[x, y], out| host::mul_repeat(four(x), four(y), times, out),
        standin: &|[x, y]| element(x) * power(element(y), times),
    };
    cases(&operation, run);
}

pub fn compare(run: &mut Run) {
    binary(run, "host_add", host::add, |x, y| x + y);
    binary(run, "host_sub", host::sub, |x, y| x - y);
    binary(run, "host_mul", host::mul, |x, y| x * y);
    unary(run, "host_neg", host::neg, |x| -x);
    unary(run, "host_double", host::double, |x| x.double());

    let mul_base = Operation {
        operands: [X, WORD],
        times: None,
        ours: &|[x, word], out| host::mul_base(four(x), word[0], out),
        standin: &|[x, word]| element(x) * Base::new(word[0]),
    };
    run.operation("host_mul_base", |run| mul_base.all(run));

    let from_base = Operation {
        operands: [WORD],
        times: None,
        ours: &|[word], out| host::from_base(word[0], out),
        standin: &|[word]| Base::new(word[0]).into(),
    };
    run.operation("host_from_base", |run| from_base.all(run));

    run.operation("host_mul_repeat", |run| {
        for times in [0, 1, 2, 3] {
            mul_repeat(run, times, |operation, run| {
                operation.limits(run, 7_000);
                operation.random(run, 1_000);
                operation.unreduced(run);
            });
        }
        for _ in 0..run.count(2_000, 20_000) {
            let times = run.random.below(200) as u64;
            mul_repeat(run, times, |operation, run| operation.random(run, 1));
        }
        for times in [1_000, 65_536, 1_000_000] {
            mul_repeat(run, times, |operation, run| operation.random(run, 3));
        }
    });
}
