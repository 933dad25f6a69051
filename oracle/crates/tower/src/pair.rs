//! The pairs a + bX over a level, with X·X = X + top.

use crate::level::Level;

#[derive(Clone, Copy, PartialEq, Eq, Debug)]
pub struct Pair<B> {
    low: B,
    high: B,
}

impl<B: Level> Pair<B> {
    fn of_base(low: B) -> Pair<B> {
        Pair { low, high: B::ZERO }
    }

    /// The product with the conjugate.
    fn norm(self) -> B {
        let lows = self.low.times(self.low.plus(self.high));
        lows.plus(self.high.times(self.high).times_top())
    }
}

impl<B: Level> Level for Pair<B> {
    const LOG_BITS: usize = B::LOG_BITS + 1;
    const ZERO: Pair<B> = Pair {
        low: B::ZERO,
        high: B::ZERO,
    };
    const ONE: Pair<B> = Pair {
        low: B::ONE,
        high: B::ZERO,
    };
    const TOP: Pair<B> = Pair {
        low: B::ZERO,
        high: B::TOP,
    };

    fn from_number(number: u64) -> Pair<B> {
        Pair {
            low: B::from_number(number),
            high: B::from_number(number >> B::width()),
        }
    }

    fn number(self) -> u64 {
        self.low.number() | self.high.number() << B::width()
    }

    #[inline]
    fn plus(self, other: Pair<B>) -> Pair<B> {
        Pair {
            low: self.low.plus(other.low),
            high: self.high.plus(other.high),
        }
    }

    fn times(self, other: Pair<B>) -> Pair<B> {
        let lows = self.low.times(other.low);
        let highs = self.high.times(other.high);
        let both = self.low.plus(self.high).times(other.low.plus(other.high));
        Pair {
            low: lows.plus(highs.times_top()),
            high: both.plus(lows),
        }
    }

    fn times_top(self) -> Pair<B> {
        Pair {
            low: self.high.times_top().times_top(),
            high: self.low.plus(self.high).times_top(),
        }
    }

    fn reciprocal(self) -> Option<Pair<B>> {
        let inverse = self.norm().reciprocal()?;
        Some(Pair {
            low: self.low.plus(self.high).times(inverse),
            high: self.high.times(inverse),
        })
    }

    fn solve(self) -> Option<Pair<B>> {
        let high = self.high.solve()?;
        let rest = self.low.plus(high.times(high).times_top());
        match rest.solve() {
            Some(low) => Some(Pair { low, high }),
            None => Some(Pair {
                low: rest.plus(B::TOP).solve()?,
                high: high.plus(B::ONE),
            }),
        }
    }

    /// The first half is the basis of B; the chain goes on from there.
    fn basis(position: usize) -> Option<Pair<B>> {
        if position < B::width() {
            return B::basis(position).map(Pair::of_base);
        }
        let last = B::basis(B::width() - 1).map(Pair::of_base)?;
        (B::width()..=position).try_fold(last, |element, _| element.solve())
    }
}
