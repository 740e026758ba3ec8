//! Stands in for itertools: the two methods that the files use.

#![no_std]

pub trait Itertools: Iterator {
    /// `zip` of two iterators that must have the same length.
    #[inline]
    fn zip_eq<J: IntoIterator>(self, other: J) -> ZipEq<Self, J::IntoIter>
    where
        Self: Sized,
    {
        ZipEq {
            a: self,
            b: other.into_iter(),
        }
    }

    /// The one value of all items; otherwise two that differ, or none.
    fn all_equal_value(mut self) -> Result<Self::Item, Option<(Self::Item, Self::Item)>>
    where
        Self: Sized,
        Self::Item: PartialEq,
    {
        let first = self.next().ok_or(None)?;
        match self.find(|item| *item != first) {
            Some(other) => Err(Some((first, other))),
            None => Ok(first),
        }
    }
}

impl<I: Iterator + ?Sized> Itertools for I {}

#[derive(Clone)]
pub struct ZipEq<A, B> {
    a: A,
    b: B,
}

impl<A: Iterator, B: Iterator> Iterator for ZipEq<A, B> {
    type Item = (A::Item, B::Item);

    #[inline]
    fn next(&mut self) -> Option<Self::Item> {
        match (self.a.next(), self.b.next()) {
            (Some(a), Some(b)) => Some((a, b)),
            (None, None) => None,
            _ => panic!("zip_eq: one iterator ended before the other"),
        }
    }

    #[inline]
    fn size_hint(&self) -> (usize, Option<usize>) {
        self.a.size_hint()
    }
}
