//! What the unchanged Rust crate leaves in work and in out. It has no cyclic
//! weight: that is its plain one turned by a row, or its shifted fold and row 0.

use p3_field::{Base, Element, PrimeCharacteristicRing};
use p3_matrix::dense::RowMajorMatrixView;
use p3_maybe_rayon::set_split;
use p3_multilinear_util::eq_batch::eval_eq_batch;
use p3_multilinear_util::point::Point;
use p3_multilinear_util::poly::Poly;
use p3_multilinear_util::split_eq::SplitEq;

use crate::Operation::*;
use crate::{Call, Operation, element};

/// A way that the Rust takes through a call.
#[derive(Clone, Copy)]
pub struct Arm {
    /// Loops are split into tasks where the Rust can do so.
    split: bool,
    /// The second table of a split point is packed, at width one.
    packed: bool,
}

/// In the order in which the comparison numbers them from 1.
const ARMS: [Arm; 4] = [
    Arm::new(false, true),
    Arm::new(true, true),
    Arm::new(false, false),
    Arm::new(true, false),
];

impl Arm {
    const fn new(split: bool, packed: bool) -> Self {
        Self { split, packed }
    }

    /// Those that differ for an operation.
    pub fn of(operation: Operation) -> &'static [Self] {
        match operation {
            _ if operation.takes_work() => &ARMS,
            _ if operation.fixes() => &ARMS[..2],
            _ => &ARMS[..1],
        }
    }
}

impl Call {
    /// The words of work and of out after this accepted call.
    pub fn accepted(&self, arm: Arm) -> [Vec<u32>; 2] {
        set_split(arm.split);
        let [_, _, _, work, out] = &self.slices;
        match self.operation {
            _ if self.operation.takes_work() => self.split(arm),
            _ if self.operation.fixes() => self.fixed(),
            _ if self.no_scalars() => [work.clone(), out.clone()],
            _ => [work.clone(), words(self.values())],
        }
    }

    /// The elements of operations without a work buffer.
    fn values(&self) -> Vec<Element> {
        let [first, second, ..] = &self.slices;
        let a = || elements(first);
        match self.operation {
            EqualityAtVertex => {
                let vertex = usize::try_from(self.number).unwrap();
                vec![Point::new(a()).equality_at_vertex(vertex).unwrap()]
            }
            EqualityWeightsMsb => Point::new(a()).equality_weights_msb(),
            EqualityWeightsLsb => Point::new(a()).equality_weights_lsb(),
            EvalEq => vec![Point::eval_eq::<Element>(&a(), &elements(second))],
            EvalNext => {
                let (carry, done, omega) = Point::eval_next(&a(), &elements(second));
                vec![carry, done, omega]
            }
            EvalSelect => {
                let var = Base::new(u32::try_from(self.number).unwrap());
                vec![Point::<Base>::eval_select(var, &a())]
            }
            NewFromPoint => Poly::new_from_point(&a(), element(second)).into_evals(),
            NewNextFromPoint => Poly::new_next_from_point(&a()).into_evals(),
            EvalEqBatch => self.batch::<false>(&a()),
            EvalEqBatchAdd => self.batch::<true>(&a()),
            PolyEvalBase => vec![base(first).eval_base(&point(second))],
            PolyEvalExt => vec![Poly::new(a()).eval_ext::<Base>(&point(second))],
            PolyEvalNextBase => vec![base(first).eval_next_base(&point(second))],
            NewCyclicFromPoint => {
                let mut table = Poly::new_from_point(&a(), Element::ONE).into_evals();
                table.rotate_right(1);
                table
            }
            PolyEvalCyclicBase => {
                let mut table = first.clone();
                table.rotate_left(1);
                vec![base(&table).eval_base(&point(second))]
            }
            _ => unreachable!(),
        }
    }

    fn batch<const INITIALIZED: bool>(&self, points: &[Element]) -> Vec<Element> {
        let [_, scalars, _, _, out] = &self.slices;
        let (scalars, mut out) = (elements(scalars), elements(out));
        let view = RowMajorMatrixView::new(points, scalars.len());
        eval_eq_batch::<Base, Element, INITIALIZED>(view, &mut out, &scalars);
        out
    }

    /// Both tables of the split point, and what is computed from them.
    fn split(&self, arm: Arm) -> [Vec<u32>; 2] {
        let [a, b, c, _, out] = &self.slices;
        let (at, scale) = match self.operation {
            LastScalar | AccumulateInto => (a, b),
            _ => (b, c),
        };
        let split = match arm.packed {
            true => SplitEq::<Base, Element>::new_packed,
            false => SplitEq::new_unpacked,
        }(&point(at), element(scale));
        let out = match self.operation {
            SplitEvalBase => vec![split.eval_base(base(a).as_view())],
            SplitEvalExt => vec![split.eval_ext(Poly::new(elements(a)).as_view())],
            SplitEvalNextBase => vec![split.eval_next_base(base(a).as_view())],
            LastScalar => vec![split.last_scalar()],
            AccumulateInto => {
                let mut out = elements(out);
                split.accumulate_into(&mut out, Some(element(c)));
                out
            }
            CompressPrefix => split.compress_prefix(base(a).as_view()).into_evals(),
            CompressSuffix => split.compress_suffix(base(a).as_view()).into_evals(),
            CompressPrefixShifted => split
                .compress_prefix_shifted(base(a).as_view())
                .into_evals(),
            CompressSuffixShifted => split
                .compress_suffix_shifted(base(a).as_view())
                .into_evals(),
            CompressPrefixCyclic => {
                let shifted = split.compress_prefix_shifted(base(a).as_view());
                with_first_row(shifted, split.last_scalar(), a.iter())
            }
            CompressSuffixCyclic => {
                let shifted = split.compress_suffix_shifted(base(a).as_view());
                let rows = 1 << (b.len() / 4);
                with_first_row(shifted, split.last_scalar(), a.iter().step_by(rows))
            }
            _ => unreachable!(),
        };
        [tables(&split), words(out)]
    }

    /// The entries that remain in front of the second half, and their count.
    fn fixed(&self) -> [Vec<u32>; 2] {
        let [r, _, _, table, _] = &self.slices;
        let mut poly = Poly::new(elements(table));
        match self.operation {
            FixPrefixVarMut => poly.fix_prefix_var_mut(element(r)),
            FixSuffixVarMut => poly.fix_suffix_var_mut(element(r)),
            FixPrefixVarMutMonomial => poly.fix_prefix_var_mut_monomial(element(r)),
            SumPrefixVarMut => poly.sum_prefix_var_mut(),
            _ => unreachable!(),
        }
        let count = poly.num_evals();
        let mut left = words(poly.into_evals());
        left.extend(&table[4 * count..]);
        [left, vec![count as u32]]
    }
}

/// A fold with this weight times the first row added, a word to each place.
fn with_first_row<'a>(
    fold: Poly<Element>,
    weight: Element,
    row: impl Iterator<Item = &'a u32>,
) -> Vec<Element> {
    let places = fold.into_evals().into_iter().zip(row);
    places
        .map(|(place, &word)| place + weight * Base::new(word))
        .collect()
}

/// eq0 with the scale, then eq1. The Rust shows eq1 only by adding it.
fn tables(split: &SplitEq<Base, Element>) -> Vec<u32> {
    let (zero, one) = (Element::ZERO, Element::ONE);
    let mut eq1 = vec![zero; split.eq1().num_scalar_evals()];
    split
        .eq1()
        .accumulate_next_chunk_into(&mut eq1, one, zero, zero);
    words([split.eq0().as_slice(), &eq1].concat())
}

fn point(words: &[u32]) -> Point<Element> {
    Point::new(elements(words))
}

fn base(words: &[u32]) -> Poly<Base> {
    Poly::new(words.iter().map(|&word| Base::new(word)).collect())
}

fn elements(words: &[u32]) -> Vec<Element> {
    words.chunks_exact(4).map(element).collect()
}

fn words(elements: Vec<Element>) -> Vec<u32> {
    elements.into_iter().flat_map(Element::words).collect()
}
