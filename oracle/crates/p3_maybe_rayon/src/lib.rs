//! Stands in for p3-maybe-rayon without its `parallel` feature: one thread, and
//! the parallel iterators are the plain ones. A switch of our own sends the
//! files through their split arms all the same.

#![no_std]

extern crate alloc;

use core::sync::atomic::{AtomicBool, Ordering::Relaxed};

static SPLIT: AtomicBool = AtomicBool::new(false);

/// From now on every loop that can be split is, each item a task of its own, or
/// none is, as at the start.
pub fn set_split(split: bool) {
    SPLIT.store(split, Relaxed);
}

pub mod prelude {
    use alloc::vec::Vec;
    use core::slice::{Chunks, ChunksExactMut, ChunksMut, Iter, IterMut};

    use crate::{Relaxed, SPLIT};

    #[inline]
    pub const fn current_num_threads() -> usize {
        1
    }

    /// Whether a loop is worth splitting among threads: with one thread, only
    /// where the switch says so.
    #[inline]
    pub fn should_split(_len: usize, _item_bytes: usize) -> bool {
        SPLIT.load(Relaxed)
    }

    /// The fewest items of a task: with one thread, all of them.
    #[inline]
    pub const fn min_task_len(len: usize, _item_bytes: usize) -> usize {
        len
    }

    pub trait ParallelSlice<T> {
        fn par_iter(&self) -> Iter<'_, T>;
        fn par_iter_mut(&mut self) -> IterMut<'_, T>;
        fn par_chunks(&self, size: usize) -> Chunks<'_, T>;
        fn par_chunks_mut(&mut self, size: usize) -> ChunksMut<'_, T>;
        fn par_chunks_exact_mut(&mut self, size: usize) -> ChunksExactMut<'_, T>;
    }

    impl<T> ParallelSlice<T> for [T] {
        #[inline]
        fn par_iter(&self) -> Iter<'_, T> {
            self.iter()
        }

        #[inline]
        fn par_iter_mut(&mut self) -> IterMut<'_, T> {
            self.iter_mut()
        }

        #[inline]
        fn par_chunks(&self, size: usize) -> Chunks<'_, T> {
            self.chunks(size)
        }

        #[inline]
        fn par_chunks_mut(&mut self, size: usize) -> ChunksMut<'_, T> {
            self.chunks_mut(size)
        }

        #[inline]
        fn par_chunks_exact_mut(&mut self, size: usize) -> ChunksExactMut<'_, T> {
            self.chunks_exact_mut(size)
        }
    }

    pub trait ParallelIterator: Iterator + Sized {
        #[inline]
        fn with_min_task_bytes(self, _bytes: usize) -> Self {
            self
        }

        #[inline]
        fn for_each_min_task_bytes(self, _bytes: usize, body: impl FnMut(Self::Item)) {
            self.for_each(body);
        }

        #[inline]
        fn map_collect_min_task_bytes<R>(
            self,
            _bytes: usize,
            body: impl FnMut(Self::Item) -> R,
        ) -> Vec<R> {
            self.map(body).collect()
        }

        /// The files call this in their split arms alone.
        #[inline]
        fn par_fold_reduce<A>(
            self,
            start: impl Fn() -> A,
            mut fold: impl FnMut(A, Self::Item) -> A,
            reduce: impl Fn(A, A) -> A,
        ) -> A {
            self.map(|item| fold(start(), item))
                .reduce(reduce)
                .unwrap_or_else(start)
        }
    }

    impl<I: Iterator> ParallelIterator for I {}
}
