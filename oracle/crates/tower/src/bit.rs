//! The field of two elements.

use crate::level::Level;

#[derive(Clone, Copy, PartialEq, Eq, Debug)]
#[repr(transparent)]
pub struct Bit(bool);

impl Level for Bit {
    const LOG_BITS: usize = 0;
    const ZERO: Bit = Bit(false);
    const ONE: Bit = Bit(true);
    const TOP: Bit = Bit(true);

    fn from_number(number: u64) -> Bit {
        Bit(number & 1 == 1)
    }

    fn number(self) -> u64 {
        u64::from(self.0)
    }

    #[inline]
    fn plus(self, other: Bit) -> Bit {
        Bit(self.0 ^ other.0)
    }

    #[inline]
    fn times(self, other: Bit) -> Bit {
        Bit(self.0 & other.0)
    }

    fn reciprocal(self) -> Option<Bit> {
        self.0.then_some(self)
    }

    fn solve(self) -> Option<Bit> {
        (!self.0).then_some(self)
    }
}
