//! What a tower level answers.

use core::fmt::Debug;

/// A field of characteristic two whose elements are numbers of 2^LOG_BITS bits, at most 64.
///
/// A sum is an exclusive or of the numbers.
pub trait Level: Copy + Eq + Debug + Send + Sync + 'static {
    const LOG_BITS: usize;
    const ZERO: Self;
    const ONE: Self;
    const TOP: Self;

    /// The element of a number; the bits above the width are dropped.
    fn from_number(number: u64) -> Self;

    fn number(self) -> u64;

    fn plus(self, other: Self) -> Self;

    fn times(self, other: Self) -> Self;

    fn times_top(self) -> Self {
        self.times(Self::TOP)
    }

    /// The inverse; zero has none.
    fn reciprocal(self) -> Option<Self>;

    /// The y with y·y + y = self whose bit 0 is clear, if any y solves it.
    fn solve(self) -> Option<Self>;

    /// The Cantor basis: v_0 is one, and each next one solves the one before.
    fn basis(position: usize) -> Option<Self> {
        (0..position).try_fold(Self::ONE, |element, _| element.solve())
    }

    /// The number of bits of an element.
    fn width() -> usize {
        1 << Self::LOG_BITS
    }

    /// The element of another level that has the same number, if this number fits that level.
    fn with_same_number<F: Level>(self) -> Option<F> {
        let element = F::from_number(self.number());
        (element.number() == self.number()).then_some(element)
    }
}
