//! Stands in for p3-field: the traits that the files use, with packing at width
//! one (a packed value is the value itself), and the fields themselves.

#![no_std]

extern crate alloc;

mod fields;

use alloc::vec::Vec;
use core::fmt::Debug;
use core::iter::{Product, Sum};
use core::ops::{Add, AddAssign, Mul, MulAssign, Neg, Sub, SubAssign};

pub use fields::{Base, Element, Fp, Quartic};

/// A commutative ring with its operations.
pub trait PrimeCharacteristicRing:
    Sized
    + Clone
    + Debug
    + Add<Output = Self>
    + AddAssign
    + Sub<Output = Self>
    + SubAssign
    + Mul<Output = Self>
    + MulAssign
    + Neg<Output = Self>
    + Sum
    + Product
{
    const ZERO: Self;
    const ONE: Self;
    const NEG_ONE: Self;

    #[inline]
    fn from_bool(bit: bool) -> Self {
        if bit { Self::ONE } else { Self::ZERO }
    }

    #[inline]
    fn dup(&self) -> Self {
        self.clone()
    }

    #[inline]
    fn double(&self) -> Self {
        self.dup() + self.dup()
    }

    #[inline]
    fn square(&self) -> Self {
        self.dup() * self.dup()
    }

    #[inline]
    fn zero_vec(len: usize) -> Vec<Self> {
        alloc::vec![Self::ZERO; len]
    }

    /// The sum of pairwise products.
    #[inline]
    fn dot_product<const N: usize>(a: &[Self; N], b: &[Self; N]) -> Self {
        dot_product(a.iter().cloned(), b.iter().cloned())
    }
}

/// A ring that takes elements of `R` on the right of its operations.
pub trait Algebra<R>:
    PrimeCharacteristicRing
    + From<R>
    + Add<R, Output = Self>
    + AddAssign<R>
    + Sub<R, Output = Self>
    + SubAssign<R>
    + Mul<R, Output = Self>
    + MulAssign<R>
{
    /// The sum of pairwise products.
    #[inline]
    fn mixed_dot_product<const N: usize>(a: &[Self; N], b: &[R; N]) -> Self
    where
        R: Clone,
    {
        dot_product(a.iter().cloned(), b.iter().cloned())
    }
}

impl<R: PrimeCharacteristicRing> Algebra<R> for R {}

/// `WIDTH` values side by side.
pub trait PackedValue: Copy + Send + Sync + 'static {
    type Value;
    const WIDTH: usize;

    fn pack_slice(values: &[Self::Value]) -> &[Self];
    fn pack_slice_with_suffix(values: &[Self::Value]) -> (&[Self], &[Self::Value]);
    fn pack_slice_with_suffix_mut(values: &mut [Self::Value]) -> (&mut [Self], &mut [Self::Value]);
    fn as_slice(&self) -> &[Self::Value];
}

/// A value that is its own packing.
pub trait WidthOne: Copy + Send + Sync + 'static {}

impl<T: WidthOne> PackedValue for T {
    type Value = T;
    const WIDTH: usize = 1;

    #[inline]
    fn pack_slice(values: &[T]) -> &[T] {
        values
    }

    #[inline]
    fn pack_slice_with_suffix(values: &[T]) -> (&[T], &[T]) {
        (values, &[])
    }

    #[inline]
    fn pack_slice_with_suffix_mut(values: &mut [T]) -> (&mut [T], &mut [T]) {
        (values, &mut [])
    }

    #[inline]
    fn as_slice(&self) -> &[T] {
        core::slice::from_ref(self)
    }
}

pub trait Field: Algebra<Self> + Copy + Eq + Send + Sync + 'static {
    type Packing: Algebra<Self> + PackedValue<Value = Self>;

    #[inline]
    fn add_slices(sums: &mut [Self], others: &[Self]) {
        sums.iter_mut()
            .zip(others)
            .for_each(|(sum, &other)| *sum += other);
    }
}

/// A ring whose elements are lists of `DIMENSION` coefficients in `R`.
pub trait BasedVectorSpace<R> {
    const DIMENSION: usize;

    fn as_basis_coefficients_slice(&self) -> &[R];
    fn from_basis_coefficients_fn(coefficient: impl FnMut(usize) -> R) -> Self;
}

impl<R: PrimeCharacteristicRing> BasedVectorSpace<R> for R {
    const DIMENSION: usize = 1;

    #[inline]
    fn as_basis_coefficients_slice(&self) -> &[R] {
        core::slice::from_ref(self)
    }

    #[inline]
    fn from_basis_coefficients_fn(mut coefficient: impl FnMut(usize) -> R) -> R {
        coefficient(0)
    }
}

pub trait ExtensionField<F: Field>: Field + Algebra<F> + BasedVectorSpace<F> {
    type ExtensionPacking: PackedFieldExtension<F, Self>;
}

/// Every field extends itself.
impl<F: Field> ExtensionField<F> for F {
    type ExtensionPacking = F::Packing;
}

/// The packing of elements of `E`.
pub trait PackedFieldExtension<F: Field, E: ExtensionField<F, ExtensionPacking = Self>>:
    Algebra<E> + Algebra<F::Packing> + BasedVectorSpace<F::Packing> + Copy + Send + Sync + 'static
{
    fn from_ext_slice(values: &[E]) -> Self;
    fn to_ext_iter(packed: impl IntoIterator<Item = Self>) -> impl Iterator<Item = E>;
}

impl<F: Field> PackedFieldExtension<F, F> for F::Packing {
    #[inline]
    fn from_ext_slice(values: &[F]) -> Self {
        F::Packing::pack_slice(values)[0]
    }

    #[inline]
    fn to_ext_iter(packed: impl IntoIterator<Item = Self>) -> impl Iterator<Item = F> {
        packed.into_iter().map(|value| value.as_slice()[0])
    }
}

/// The sum of pairwise products.
#[inline]
pub fn dot_product<S, A, B>(a: A, b: B) -> S
where
    A: Iterator,
    B: Iterator,
    A::Item: Mul<B::Item>,
    S: Sum<<A::Item as Mul<B::Item>>::Output>,
{
    a.zip(b).map(|(a, b)| a * b).sum()
}
