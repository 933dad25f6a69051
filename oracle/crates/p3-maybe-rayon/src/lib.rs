//! The parallel iterators that the module's four files use, run in order on one thread.

pub mod prelude {
    pub use crate::{FoldReduce, IntoParallel, ParallelSlice, ParallelSliceMut};
}

use core::slice::{ChunksExact, ChunksExactMut, Iter};

/// Items that one block folds before the blocks are reduced.
const BLOCK: usize = 3;

pub trait IntoParallel: IntoIterator + Sized {
    fn into_par_iter(self) -> Self::IntoIter {
        self.into_iter()
    }
}

impl<I: IntoIterator> IntoParallel for I {}

pub trait ParallelSlice<T> {
    fn par_iter(&self) -> Iter<'_, T>;
    fn par_chunks_exact(&self, size: usize) -> ChunksExact<'_, T>;
}

impl<T> ParallelSlice<T> for [T] {
    fn par_iter(&self) -> Iter<'_, T> {
        self.iter()
    }

    fn par_chunks_exact(&self, size: usize) -> ChunksExact<'_, T> {
        self.chunks_exact(size)
    }
}

pub trait ParallelSliceMut<T> {
    fn par_chunks_exact_mut(&mut self, size: usize) -> ChunksExactMut<'_, T>;
}

impl<T> ParallelSliceMut<T> for [T] {
    fn par_chunks_exact_mut(&mut self, size: usize) -> ChunksExactMut<'_, T> {
        self.chunks_exact_mut(size)
    }
}

pub trait FoldReduce: Iterator + Sized {
    /// Folds each block of items from a fresh accumulator, and reduces the blocks from left to right.
    fn par_fold_reduce<A>(
        mut self,
        identity: impl Fn() -> A,
        fold: impl Fn(A, Self::Item) -> A,
        reduce: impl Fn(A, A) -> A,
    ) -> A {
        let mut total = identity();
        while let Some(first) = self.next() {
            let begun = fold(identity(), first);
            let block = self.by_ref().take(BLOCK - 1).fold(begun, &fold);
            total = reduce(total, block);
        }
        total
    }
}

impl<I: Iterator> FoldReduce for I {}

#[cfg(test)]
mod tests {
    use super::prelude::*;

    #[test]
    fn blocks_of_three() {
        let blocks = (0..7).into_par_iter().par_fold_reduce(
            Vec::new,
            |mut block: Vec<Vec<usize>>, item| {
                match block.last_mut() {
                    Some(last) => last.push(item),
                    None => block.push(vec![item]),
                }
                block
            },
            |left, right| [left, right].concat(),
        );
        assert_eq!(blocks, [vec![0, 1, 2], vec![3, 4, 5], vec![6]]);
    }
}
