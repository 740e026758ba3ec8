//! Stands in for rand 0.10: the traits by which the files draw random points
//! and tables. There is no generator here.

#![no_std]

use distr::{Distribution, StandardUniform};

pub trait Rng {
    fn next_u64(&mut self) -> u64;
}

impl<R: Rng + ?Sized> Rng for &mut R {
    fn next_u64(&mut self) -> u64 {
        (**self).next_u64()
    }
}

pub trait RngExt: Rng {
    fn random<T>(&mut self) -> T
    where
        StandardUniform: Distribution<T>,
    {
        StandardUniform.sample(self)
    }

    fn random_iter<T>(mut self) -> impl Iterator<Item = T>
    where
        Self: Sized,
        StandardUniform: Distribution<T>,
    {
        core::iter::repeat_with(move || self.random())
    }
}

impl<R: Rng + ?Sized> RngExt for R {}

pub mod distr {
    pub trait Distribution<T> {
        fn sample<R: super::Rng + ?Sized>(&self, rng: &mut R) -> T;
    }

    pub struct StandardUniform;
}
