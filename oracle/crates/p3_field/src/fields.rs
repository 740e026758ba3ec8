//! Words modulo P, and four of them with X^4 = W. Every word is kept below P.

use core::array;
use core::iter::{Product, Sum};
use core::ops::{Add, AddAssign, Mul, MulAssign, Neg, Sub, SubAssign};

use crate::{
    Algebra, BasedVectorSpace, ExtensionField, Field, PackedFieldExtension,
    PrimeCharacteristicRing, WidthOne,
};

/// The base words of document 01.
pub type Base = Fp<2013265921>;
/// The elements of document 01.
pub type Element = Quartic<2013265921, 11>;

/// A word below P. P itself is below 2^31, so that two words have a sum in 32
/// bits, and four products of words have a sum in 64.
#[derive(Clone, Copy, Debug, Default, PartialEq, Eq)]
#[repr(transparent)]
pub struct Fp<const P: u32>(u32);

/// c0 + c1 X + c2 X^2 + c3 X^3.
#[derive(Clone, Copy, Debug, Default, PartialEq, Eq)]
#[repr(transparent)]
pub struct Quartic<const P: u32, const W: u32>([Fp<P>; 4]);

impl<const P: u32> Fp<P> {
    pub const MODULUS: u32 = P;

    #[inline]
    pub const fn new(word: u32) -> Self {
        Self::reduce(word as u64)
    }

    #[inline]
    pub const fn word(self) -> u32 {
        self.0
    }

    #[inline]
    const fn reduce(wide: u64) -> Self {
        const { assert!(P < 1 << 31) };
        Self((wide % P as u64) as u32)
    }

    #[inline]
    fn plus(self, other: Self) -> Self {
        let sum = self.0 + other.0;
        Self(if sum >= P { sum - P } else { sum })
    }

    #[inline]
    fn minus(self, other: Self) -> Self {
        Self(if self.0 >= other.0 {
            self.0 - other.0
        } else {
            self.0 + (P - other.0)
        })
    }

    #[inline]
    fn times(self, other: Self) -> Self {
        Self::reduce(self.0 as u64 * other.0 as u64)
    }
}

impl<const P: u32, const W: u32> Quartic<P, W> {
    #[inline]
    pub fn new(words: [u32; 4]) -> Self {
        Self(words.map(Fp::new))
    }

    #[inline]
    pub fn words(self) -> [u32; 4] {
        self.0.map(Fp::word)
    }

    #[inline]
    fn plus(self, other: Self) -> Self {
        Self(array::from_fn(|i| self.0[i] + other.0[i]))
    }

    #[inline]
    fn minus(self, other: Self) -> Self {
        Self(array::from_fn(|i| self.0[i] - other.0[i]))
    }

    /// The plain product of the two polynomials, then X^4 = W.
    #[inline]
    fn times(self, other: Self) -> Self {
        let mut sums = [0u64; 7];
        for i in 0..4 {
            for j in 0..4 {
                sums[i + j] += self.0[i].0 as u64 * other.0[j].0 as u64;
            }
        }
        for i in 4..7 {
            sums[i - 4] += W as u64 * (sums[i] % P as u64);
        }
        Self(array::from_fn(|i| Fp::reduce(sums[i])))
    }

    #[inline]
    fn plus_word(self, word: Fp<P>) -> Self {
        let [c0, c1, c2, c3] = self.0;
        Self([c0 + word, c1, c2, c3])
    }

    #[inline]
    fn minus_word(self, word: Fp<P>) -> Self {
        let [c0, c1, c2, c3] = self.0;
        Self([c0 - word, c1, c2, c3])
    }

    #[inline]
    fn times_word(self, word: Fp<P>) -> Self {
        Self(self.0.map(|c| c * word))
    }
}

/// The operators of `$x` with a `$y` on the right, by these functions.
macro_rules! operators {
    ([$($generics:tt)*] $x:ty, $y:ty: $plus:ident, $minus:ident, $times:ident) => {
        operators!(@ [$($generics)*] $x, $y: Add add, AddAssign add_assign, $plus);
        operators!(@ [$($generics)*] $x, $y: Sub sub, SubAssign sub_assign, $minus);
        operators!(@ [$($generics)*] $x, $y: Mul mul, MulAssign mul_assign, $times);
    };
    (@ [$($generics:tt)*] $x:ty, $y:ty: $op:ident $method:ident,
            $assign:ident $method_assign:ident, $function:ident) => {
        impl<$($generics)*> $op<$y> for $x {
            type Output = Self;

            #[inline]
            fn $method(self, y: $y) -> Self {
                self.$function(y)
            }
        }

        impl<$($generics)*> $assign<$y> for $x {
            #[inline]
            fn $method_assign(&mut self, y: $y) {
                *self = self.$function(y);
            }
        }
    };
}

operators!([const P: u32] Fp<P>, Fp<P>: plus, minus, times);
operators!([const P: u32, const W: u32] Quartic<P, W>, Quartic<P, W>: plus, minus, times);
operators!([const P: u32, const W: u32] Quartic<P, W>, Fp<P>: plus_word, minus_word, times_word);

/// What follows from the operators, for both.
macro_rules! ring {
    ([$($generics:tt)*] $ring:ty, $zero:expr, $one:expr, $neg_one:expr) => {
        impl<$($generics)*> PrimeCharacteristicRing for $ring {
            const ZERO: Self = $zero;
            const ONE: Self = $one;
            const NEG_ONE: Self = $neg_one;
        }

        impl<$($generics)*> Neg for $ring {
            type Output = Self;

            #[inline]
            fn neg(self) -> Self {
                Self::ZERO - self
            }
        }

        impl<$($generics)*> Sum for $ring {
            #[inline]
            fn sum<I: Iterator<Item = Self>>(items: I) -> Self {
                items.fold(Self::ZERO, |sum, item| sum + item)
            }
        }

        impl<$($generics)*> Product for $ring {
            #[inline]
            fn product<I: Iterator<Item = Self>>(items: I) -> Self {
                items.fold(Self::ONE, |product, item| product * item)
            }
        }

        impl<$($generics)*> WidthOne for $ring {}

        impl<$($generics)*> Field for $ring {
            type Packing = Self;
        }
    };
}

ring!([const P: u32] Fp<P>, Fp(0), Fp(1), Fp(P - 1));
ring!([const P: u32, const W: u32] Quartic<P, W>,
    Quartic([Fp(0), Fp(0), Fp(0), Fp(0)]),
    Quartic([Fp(1), Fp(0), Fp(0), Fp(0)]),
    Quartic([Fp(P - 1), Fp(0), Fp(0), Fp(0)]));

impl<const P: u32, const W: u32> From<Fp<P>> for Quartic<P, W> {
    #[inline]
    fn from(c0: Fp<P>) -> Self {
        Self([c0, Fp(0), Fp(0), Fp(0)])
    }
}

impl<const P: u32, const W: u32> Algebra<Fp<P>> for Quartic<P, W> {}

impl<const P: u32, const W: u32> BasedVectorSpace<Fp<P>> for Quartic<P, W> {
    const DIMENSION: usize = 4;

    #[inline]
    fn as_basis_coefficients_slice(&self) -> &[Fp<P>] {
        &self.0
    }

    #[inline]
    fn from_basis_coefficients_fn(coefficient: impl FnMut(usize) -> Fp<P>) -> Self {
        Self(array::from_fn(coefficient))
    }
}

impl<const P: u32, const W: u32> ExtensionField<Fp<P>> for Quartic<P, W> {
    type ExtensionPacking = Self;
}

impl<const P: u32, const W: u32> PackedFieldExtension<Fp<P>, Quartic<P, W>> for Quartic<P, W> {
    #[inline]
    fn from_ext_slice(values: &[Self]) -> Self {
        values[0]
    }

    #[inline]
    fn to_ext_iter(packed: impl IntoIterator<Item = Self>) -> impl Iterator<Item = Self> {
        packed.into_iter()
    }
}
