//! Stands in for p3-matrix: dense matrices, row after row, owned or borrowed.

#![no_std]

extern crate alloc;

pub trait Matrix {
    fn width(&self) -> usize;
    fn height(&self) -> usize;
}

pub mod dense {
    use alloc::vec::Vec;
    use core::borrow::{Borrow, BorrowMut};
    use core::marker::PhantomData;
    use core::slice::ChunksExact;

    use crate::Matrix;

    #[derive(Clone, Copy, Debug)]
    pub struct DenseMatrix<T, S> {
        pub values: S,
        width: usize,
        item: PhantomData<T>,
    }

    pub type RowMajorMatrix<T> = DenseMatrix<T, Vec<T>>;
    pub type RowMajorMatrixView<'a, T> = DenseMatrix<T, &'a [T]>;

    impl<T, S: Borrow<[T]>> Matrix for DenseMatrix<T, S> {
        #[inline]
        fn width(&self) -> usize {
            self.width
        }

        #[inline]
        fn height(&self) -> usize {
            self.values
                .borrow()
                .len()
                .checked_div(self.width)
                .unwrap_or(0)
        }
    }

    impl<T, S: Borrow<[T]>> DenseMatrix<T, S> {
        #[inline]
        pub fn new(values: S, width: usize) -> Self {
            let len = values.borrow().len();
            assert!(len.is_multiple_of(width), "the last row is short");
            Self {
                values,
                width,
                item: PhantomData,
            }
        }

        /// A matrix of one column.
        #[inline]
        pub fn new_col(values: S) -> Self {
            Self::new(values, 1)
        }

        #[inline]
        pub fn row_slices(&self) -> ChunksExact<'_, T> {
            self.values.borrow().chunks_exact(self.width)
        }

        #[inline]
        pub fn par_row_slices(&self) -> ChunksExact<'_, T> {
            self.row_slices()
        }

        #[inline]
        pub fn row_mut(&mut self, row: usize) -> &mut [T]
        where
            S: BorrowMut<[T]>,
        {
            let start = row * self.width;
            &mut self.values.borrow_mut()[start..start + self.width]
        }

        /// The first rows, and the others.
        #[inline]
        pub fn split_rows(
            &self,
            rows: usize,
        ) -> (RowMajorMatrixView<'_, T>, RowMajorMatrixView<'_, T>) {
            let (first, others) = self.values.borrow().split_at(rows * self.width);
            (
                DenseMatrix::new(first, self.width),
                DenseMatrix::new(others, self.width),
            )
        }
    }
}
