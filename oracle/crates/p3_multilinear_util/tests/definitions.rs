//! Document 01's definitions, written out as they stand there, against the
//! unchanged Rust files: every operation, 0 to 11 variables, random input.

use p3_field::{Base, Element, PrimeCharacteristicRing};
use p3_matrix::dense::RowMajorMatrixView;
use p3_multilinear_util::eq_batch::eval_eq_batch;
use p3_multilinear_util::point::Point;
use p3_multilinear_util::poly::Poly;
use p3_multilinear_util::split_eq::SplitEq;
use rand::distr::{Distribution, StandardUniform};
use rand::{Rng, RngExt};

/// Past 9 variables, where the Rust switches method.
const MOST: usize = 11;

/// xorshift.
struct Random(u64);

impl Rng for Random {
    fn next_u64(&mut self) -> u64 {
        self.0 ^= self.0 << 13;
        self.0 ^= self.0 >> 7;
        self.0 ^= self.0 << 17;
        self.0
    }
}

impl Random {
    fn word(&mut self) -> Base {
        Base::new((self.next_u64() >> 20) as u32)
    }

    fn element(&mut self) -> Element {
        Element::new([0; 4].map(|_| self.word().word()))
    }

    fn words(&mut self, count: usize) -> Vec<Base> {
        (0..count).map(|_| self.word()).collect()
    }

    fn elements(&mut self, count: usize) -> Vec<Element> {
        (0..count).map(|_| self.element()).collect()
    }

    fn point(&mut self, k: usize) -> Point<Element> {
        Point::new(self.elements(k))
    }
}

/// The product over the bits of y: coordinate for a 1, one minus it for a 0;
/// coordinate 0 goes with the highest bit.
fn eq(point: &[Element], y: usize) -> Element {
    let k = point.len();
    let factor = |i: usize| match y >> (k - 1 - i) & 1 {
        1 => point[i],
        _ => Element::ONE - point[i],
    };
    (0..k).map(factor).product()
}

fn plain(point: &[Element]) -> Vec<Element> {
    (0..1 << point.len()).map(|y| eq(point, y)).collect()
}

fn shifted(point: &[Element]) -> Vec<Element> {
    let weight = |y: usize| match y {
        0 => Element::ZERO,
        _ => eq(point, y - 1),
    };
    (0..1 << point.len()).map(weight).collect()
}

fn next(point: &[Element]) -> Vec<Element> {
    let mut weights = shifted(point);
    let last = weights.len() - 1;
    weights[last] += eq(point, last);
    weights
}

fn scaled(scale: Element, weights: Vec<Element>) -> Vec<Element> {
    weights.into_iter().map(|weight| scale * weight).collect()
}

fn value(weights: &[Element], table: &[Element]) -> Element {
    assert_eq!(weights.len(), table.len());
    (0..table.len()).map(|y| weights[y] * table[y]).sum()
}

fn lift(words: &[Base]) -> Vec<Element> {
    words.iter().map(|&word| word.into()).collect()
}

/// Word y·inner + i.
fn prefix(weights: &[Element], table: &[Base]) -> Vec<Element> {
    let inner = table.len() / weights.len();
    let place = |i: usize| {
        (0..weights.len())
            .map(|y| weights[y] * table[y * inner + i])
            .sum()
    };
    (0..inner).map(place).collect()
}

/// Word i·2^k + y.
fn suffix(weights: &[Element], table: &[Base]) -> Vec<Element> {
    let rows = weights.len();
    let place = |i: usize| (0..rows).map(|y| weights[y] * table[i * rows + y]).sum();
    (0..table.len() / rows).map(place).collect()
}

#[test]
fn tables_of_a_point() {
    let mut random = Random(1);
    for k in 0..=MOST {
        let point = random.point(k);
        let z = point.as_slice();
        let scale = random.element();
        assert_eq!(
            Poly::new_from_point(z, scale).as_slice(),
            scaled(scale, plain(z))
        );
        assert_eq!(Poly::new_next_from_point(z).as_slice(), next(z));
        assert_eq!(point.equality_weights_msb(), plain(z));
        let lowest_first = plain(point.reversed().as_slice());
        assert_eq!(point.equality_weights_lsb(), lowest_first);
        for y in [0, 1, (1 << k) / 2, (1 << k) - 1, 1 << k, usize::MAX] {
            let expected = (y < 1 << k).then(|| eq(z, y));
            assert_eq!(point.equality_at_vertex(y), expected);
        }
    }
}

#[test]
fn values_at_a_point() {
    let mut random = Random(2);
    for n in 0..=MOST {
        let point = random.point(n);
        let z = point.as_slice();
        let scale = random.element();
        let words = random.words(1 << n);
        let entries = random.elements(1 << n);
        let (f, g) = (Poly::new(words.clone()), Poly::new(entries.clone()));
        let words = lift(&words);
        assert_eq!(f.eval_base(&point), value(&plain(z), &words));
        assert_eq!(g.eval_ext::<Base>(&point), value(&plain(z), &entries));
        assert_eq!(f.eval_next_base(&point), value(&next(z), &words));

        let split = SplitEq::<Base, Element>::new_packed(&point, scale);
        let whole = if n == 0 { Element::ONE } else { scale };
        assert_eq!(
            split.eval_base(f.as_view()),
            whole * value(&plain(z), &words)
        );
        assert_eq!(
            split.eval_ext(g.as_view()),
            whole * value(&plain(z), &entries)
        );
        let whole = if n <= 1 { Element::ONE } else { scale };
        assert_eq!(
            split.eval_next_base(f.as_view()),
            whole * value(&next(z), &words)
        );
        assert_eq!(split.last_scalar(), scale * eq(z, (1 << n) - 1));

        let given = random.element();
        for (given, factor) in [(Some(given), given), (None, Element::ONE)] {
            let mut out = entries.clone();
            split.accumulate_into(&mut out, given);
            let gain = |y: usize| entries[y] + scale * factor * eq(z, y);
            assert_eq!(out, (0..1 << n).map(gain).collect::<Vec<_>>());
        }
    }
}

#[test]
fn folds_at_a_point() {
    let mut random = Random(3);
    for n in 0..=MOST - 2 {
        let words = random.words(1 << n);
        let f = Poly::new(words.clone());
        for k in 0..=n {
            let point = random.point(k);
            let z = point.as_slice();
            let scale = random.element();
            for scale in [scale, Element::ZERO] {
                let plain = scaled(scale, plain(z));
                let shifted = scaled(scale, shifted(z));
                let split = SplitEq::<Base, Element>::new_packed(&point, scale);
                assert_eq!(
                    split.compress_prefix(f.as_view()).as_slice(),
                    prefix(&plain, &words)
                );
                assert_eq!(
                    split.compress_suffix(f.as_view()).as_slice(),
                    suffix(&plain, &words)
                );
                let folded = split.compress_prefix_shifted(f.as_view());
                assert_eq!(folded.as_slice(), prefix(&shifted, &words));
                let folded = split.compress_suffix_shifted(f.as_view());
                assert_eq!(folded.as_slice(), suffix(&shifted, &words));
            }
        }
    }
}

#[test]
fn one_variable_fixed() {
    let mut random = Random(4);
    for n in 1..=MOST {
        let entries = random.elements(1 << n);
        let half = entries.len() / 2;
        let r = random.element();
        let after = |change: &dyn Fn(&mut Poly<Element>)| {
            let mut poly = Poly::new(entries.clone());
            change(&mut poly);
            poly.into_evals()
        };
        let pairs = |pair: &dyn Fn(usize) -> Element| (0..half).map(pair).collect::<Vec<_>>();
        assert_eq!(
            after(&|poly| poly.fix_prefix_var_mut(r)),
            pairs(&|i| entries[i] + (entries[half + i] - entries[i]) * r)
        );
        assert_eq!(
            after(&|poly| poly.fix_suffix_var_mut(r)),
            pairs(&|i| entries[2 * i] + (entries[2 * i + 1] - entries[2 * i]) * r)
        );
        assert_eq!(
            after(&|poly| poly.sum_prefix_var_mut()),
            pairs(&|i| entries[i] + entries[half + i])
        );
        assert_eq!(
            after(&|poly| poly.fix_prefix_var_mut_monomial(r)),
            pairs(&|i| entries[i] + entries[half + i] * r)
        );
    }
    let mut constant = Poly::new(vec![Element::ONE]);
    constant.sum_prefix_var_mut();
    assert_eq!(constant.as_slice(), [Element::ONE]);
}

#[test]
fn two_points() {
    let mut random = Random(5);
    for k in 0..=MOST {
        let (point, row) = (random.elements(k), random.elements(k));
        let agree: Element = (0..k)
            .map(|i| (point[i] * row[i]).double() - point[i] - row[i] + Element::ONE)
            .product();
        assert_eq!(Point::eval_eq::<Element>(&point, &row), agree);

        let (mut carry, mut done, mut omega) = (Element::ONE, Element::ZERO, Element::ONE);
        for (&s, &t) in point.iter().zip(&row).rev() {
            done =
                ((s * t).double() - s - t + Element::ONE) * done + (Element::ONE - s) * t * carry;
            carry = s * (Element::ONE - t) * carry;
            omega = s * t * omega;
        }
        assert_eq!(Point::eval_next(&point, &row), (carry, done, omega));
        assert_eq!(value(&next(&point), &plain(&row)), done + omega);
        assert_eq!(value(&shifted(&point), &plain(&row)), done);

        for var in [Base::ZERO, Base::ONE, random.word()] {
            let mut power = Element::ONE;
            let mut sum = Element::ZERO;
            for y in 0..1 << k {
                sum += eq(&point, y) * power;
                power *= var;
            }
            assert_eq!(Point::<Base>::eval_select(var, &point), sum);
        }
    }
}

#[test]
fn batches() {
    let mut random = Random(6);
    for n in 0..=6 {
        for w in [1, 2, 3, 5, 64] {
            let rows = random.elements(n * w);
            let scalars = random.elements(w);
            let before = random.elements(1 << n);
            let column = |j: usize| (0..n).map(|i| rows[i * w + j]).collect::<Vec<_>>();
            let gain = |y: usize| {
                (0..w)
                    .map(|j| scalars[j] * eq(&column(j), y))
                    .sum::<Element>()
            };
            let view = RowMajorMatrixView::new(&rows, w);

            let mut out = before.clone();
            eval_eq_batch::<Base, Element, false>(view, &mut out, &scalars);
            assert_eq!(out, (0..1 << n).map(gain).collect::<Vec<_>>());

            let mut out = before.clone();
            eval_eq_batch::<Base, Element, true>(view, &mut out, &scalars);
            let sums = (0..1 << n).map(|y| before[y] + gain(y));
            assert_eq!(out, sums.collect::<Vec<_>>());
        }
    }
}

/// The files draw points and tables through the stand-in for rand.
#[test]
fn random_points_and_tables() {
    struct Word;
    impl Distribution<Word> for StandardUniform {
        fn sample<R: Rng + ?Sized>(&self, rng: &mut R) -> Word {
            rng.next_u64();
            Word
        }
    }
    let mut random = Random(7);
    let _: Word = random.random();
    assert_eq!(Point::<Word>::rand(&mut random, 5).num_variables(), 5);
    assert_eq!(Poly::<Word>::rand(&mut random, 3).num_evals(), 8);
}
