//! The pairs a + bX over a level, with X·X = X + top.

use crate::byte::Byte;
use crate::field::{Extension, Field, TowerLevel};

pub type Pair16 = Pair<Byte>;
pub type Pair32 = Pair<Pair16>;
pub type Pair64 = Pair<Pair32>;

#[derive(Clone, Copy)]
pub struct Pair<B> {
    low: B,
    high: B,
}

impl<B: TowerLevel> Pair<B> {
    /// The product with the conjugate.
    fn norm(self) -> B {
        self.low
            .product(self.low.sum(self.high))
            .sum(self.high.product(self.high).times_top())
    }
}

impl<B: TowerLevel> Field for Pair<B> {
    fn zero() -> Pair<B> {
        Pair {
            low: B::zero(),
            high: B::zero(),
        }
    }

    fn one() -> Pair<B> {
        Pair {
            low: B::one(),
            high: B::zero(),
        }
    }

    fn sum(self, other: Pair<B>) -> Pair<B> {
        Pair {
            low: self.low.sum(other.low),
            high: self.high.sum(other.high),
        }
    }

    fn product(self, other: Pair<B>) -> Pair<B> {
        let lows = self.low.product(other.low);
        let highs = self.high.product(other.high);
        let both = self.low.sum(self.high).product(other.low.sum(other.high));
        Pair {
            low: lows.sum(highs.times_top()),
            high: both.sum(lows),
        }
    }

    fn inverse(self) -> Option<Pair<B>> {
        let n = self.norm().inverse()?;
        Some(Pair {
            low: self.low.sum(self.high).product(n),
            high: self.high.product(n),
        })
    }

    fn equals(self, other: Pair<B>) -> bool {
        self.low.equals(other.low) && self.high.equals(other.high)
    }
}

impl<B: TowerLevel> TowerLevel for Pair<B> {
    fn log_bits() -> usize {
        B::log_bits() + 1
    }

    fn from_number(n: u128) -> Pair<B> {
        Pair {
            low: B::from_number(n),
            high: B::from_number(n >> (1 << B::log_bits())),
        }
    }

    fn to_number(self) -> u128 {
        self.low.to_number() | self.high.to_number() << (1 << B::log_bits())
    }

    fn top() -> Pair<B> {
        Pair {
            low: B::zero(),
            high: B::top(),
        }
    }

    fn times_top(self) -> Pair<B> {
        Pair {
            low: self.high.times_top().times_top(),
            high: self.low.sum(self.high).times_top(),
        }
    }

    fn solve(self) -> Option<Pair<B>> {
        let high = self.high.solve()?;
        let rest = self.low.sum(high.product(high).times_top());
        match rest.solve() {
            Some(low) => Some(Pair { low, high }),
            None => {
                let low = rest.sum(B::top()).solve()?;
                Some(Pair {
                    low,
                    high: high.sum(B::one()),
                })
            }
        }
    }
}

impl<F, B: TowerLevel + Extension<F>> Extension<F> for Pair<B>
where
    F: Copy,
{
    fn scale(self, x: F) -> Pair<B> {
        Pair {
            low: self.low.scale(x),
            high: self.high.scale(x),
        }
    }
}
