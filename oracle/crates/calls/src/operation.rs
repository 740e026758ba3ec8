//! The operations: their names and their slices.

use Operation::*;
use Slice::*;

/// Hands the operations to the macro `$with`: the number in the sample, the name
/// here and in `host`, and what the call through C takes.
#[macro_export]
macro_rules! operations {
    ($with:ident) => {
        $with! {
            1: EqualityAtVertex = equality_at_vertex(a, number, out);
            2: EqualityWeightsMsb = equality_weights_msb(a, out);
            3: EqualityWeightsLsb = equality_weights_lsb(a, out);
            4: EvalEq = eval_eq(a, b, out);
            5: EvalNext = eval_next(a, b, out);
            6: EvalSelect = eval_select(a, number, out);
            7: NewFromPoint = new_from_point(a, b, out);
            8: NewNextFromPoint = new_next_from_point(a, out);
            9: EvalEqBatch = eval_eq_batch(a, b, number, out);
            10: EvalEqBatchAdd = eval_eq_batch_add(a, b, number, out);
            11: PolyEvalBase = poly_eval_base(a, b, out);
            12: PolyEvalExt = poly_eval_ext(a, b, out);
            13: PolyEvalNextBase = poly_eval_next_base(a, b, out);
            14: SplitEvalBase = split_eval_base(a, b, c, work, out);
            15: SplitEvalExt = split_eval_ext(a, b, c, work, out);
            16: SplitEvalNextBase = split_eval_next_base(a, b, c, work, out);
            17: LastScalar = last_scalar(a, b, work, out);
            18: AccumulateInto = accumulate_into(a, b, c, work, out);
            19: CompressPrefix = compress_prefix(a, b, c, work, out);
            20: CompressSuffix = compress_suffix(a, b, c, work, out);
            21: CompressPrefixShifted = compress_prefix_shifted(a, b, c, work, out);
            22: CompressSuffixShifted = compress_suffix_shifted(a, b, c, work, out);
            23: FixPrefixVarMut = fix_prefix_var_mut(a, work, count);
            24: FixSuffixVarMut = fix_suffix_var_mut(a, work, count);
            25: FixPrefixVarMutMonomial = fix_prefix_var_mut_monomial(a, work, count);
            26: SumPrefixVarMut = sum_prefix_var_mut(work, count);
            27: NewCyclicFromPoint = new_cyclic_from_point(a, out);
            28: PolyEvalCyclicBase = poly_eval_cyclic_base(a, b, out);
            29: CompressPrefixCyclic = compress_prefix_cyclic(a, b, c, work, out);
            30: CompressSuffixCyclic = compress_suffix_cyclic(a, b, c, work, out);
        }
    };
}

macro_rules! names {
    ($($number:literal: $operation:ident = $name:ident $arguments:tt;)*) => {
        #[derive(Clone, Copy, PartialEq, Eq)]
        pub enum Operation {
            $($operation = $number,)*
        }

        impl Operation {
            pub const ALL: &[Self] = &[$($operation),*];

            /// The C name.
            pub fn name(self) -> &'static str {
                match self {
                    $($operation => concat!("host_", stringify!($name)),)*
                }
            }
        }
    };
}

operations!(names);

/// The places of a call's slices: three that are read, and two that are lent.
#[derive(Clone, Copy, PartialEq, Eq)]
pub enum Slice {
    A,
    B,
    C,
    /// The work buffer, or the table of which a variable is fixed.
    Work,
    Out,
}

impl Slice {
    pub const ALL: [Self; 5] = [A, B, C, Work, Out];
}

impl Operation {
    /// The names of its slices, empty where there is none.
    pub fn slices(self) -> [&'static str; 5] {
        match self {
            EqualityAtVertex | EqualityWeightsMsb | EqualityWeightsLsb | NewNextFromPoint
            | NewCyclicFromPoint | EvalSelect => ["point", "", "", "", "out"],
            EvalEq | EvalNext => ["point", "row", "", "", "out"],
            NewFromPoint => ["point", "scale", "", "", "out"],
            EvalEqBatch | EvalEqBatchAdd => ["points", "scalars", "", "", "out"],
            PolyEvalBase | PolyEvalExt | PolyEvalNextBase | PolyEvalCyclicBase => {
                ["table", "point", "", "", "out"]
            }
            LastScalar => ["point", "scale", "", "work", "out"],
            AccumulateInto => ["point", "scale", "given", "work", "out"],
            FixPrefixVarMut | FixSuffixVarMut | FixPrefixVarMutMonomial => {
                ["r", "", "", "table", "out"]
            }
            SumPrefixVarMut => ["", "", "", "table", "out"],
            _ => ["table", "point", "scale", "work", "out"],
        }
    }

    /// The name of its number, empty where there is none.
    pub fn number(self) -> &'static str {
        match self {
            EqualityAtVertex => "vertex",
            EvalSelect => "var",
            EvalEqBatch | EvalEqBatchAdd => "n",
            _ => "",
        }
    }

    /// The words of its slices that fit n variables or coordinates, and m points
    /// in a batch or m coordinates in a fold.
    pub fn lengths(self, n: usize, m: usize) -> [usize; 5] {
        let point = 4 * n;
        match self {
            EqualityAtVertex | EvalSelect => [point, 0, 0, 0, 4],
            EqualityWeightsMsb | EqualityWeightsLsb | NewNextFromPoint | NewCyclicFromPoint => {
                [point, 0, 0, 0, 4 << n]
            }
            EvalEq => [point, point, 0, 0, 4],
            EvalNext => [point, point, 0, 0, 12],
            NewFromPoint => [point, 4, 0, 0, 4 << n],
            EvalEqBatch | EvalEqBatchAdd => [point * m, 4 * m, 0, 0, 4 << n],
            PolyEvalBase | PolyEvalNextBase | PolyEvalCyclicBase => [1 << n, point, 0, 0, 4],
            PolyEvalExt => [4 << n, point, 0, 0, 4],
            SplitEvalBase | SplitEvalNextBase => [1 << n, point, 4, work(n), 4],
            SplitEvalExt => [4 << n, point, 4, work(n), 4],
            LastScalar => [point, 4, 0, work(n), 4],
            AccumulateInto => [point, 4, 4, work(n), 4 << n],
            CompressPrefix
            | CompressSuffix
            | CompressPrefixShifted
            | CompressSuffixShifted
            | CompressPrefixCyclic
            | CompressSuffixCyclic => [1 << n, 4 * m, 4, work(m), 4 << n.saturating_sub(m)],
            FixPrefixVarMut | FixSuffixVarMut | FixPrefixVarMutMonomial => [4, 0, 0, 4 << n, 1],
            SumPrefixVarMut => [0, 0, 0, 4 << n, 1],
        }
    }

    /// The length of a slice that has one, whatever n and m are: of a scale, a given
    /// scale or r, and of an out of single elements or a count.
    pub fn one_length(self, slice: Slice) -> Option<usize> {
        let [length, other] = [(1, 0), (3, 1)].map(|(n, m)| self.lengths(n, m)[slice as usize]);
        (length == other).then_some(length)
    }

    /// Whether its table, the first slice, is of base words.
    pub fn base_table(self) -> bool {
        match self {
            PolyEvalBase | PolyEvalNextBase | PolyEvalCyclicBase | SplitEvalBase
            | SplitEvalNextBase => true,
            _ => self.folds(),
        }
    }

    pub fn folds(self) -> bool {
        matches!(
            self,
            CompressPrefix
                | CompressSuffix
                | CompressPrefixShifted
                | CompressSuffixShifted
                | CompressPrefixCyclic
                | CompressSuffixCyclic
        )
    }

    pub fn takes_work(self) -> bool {
        self.slices()[Work as usize] == "work"
    }

    /// Fixing and summing: the table is lent.
    pub fn fixes(self) -> bool {
        self.slices()[Work as usize] == "table"
    }

    /// Whether a slice's words before the call are input.
    pub fn reads(self, slice: Slice) -> bool {
        match slice {
            A | B | C => true,
            Work => self.fixes(),
            Out => matches!(self, EvalEqBatchAdd | AccumulateInto),
        }
    }
}

/// The words of both tables of a split point.
fn work(k: usize) -> usize {
    (4 << (k / 2)) + (4 << (k - k / 2))
}
