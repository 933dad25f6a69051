//! The operators and the imported traits, from what a level answers.

use crate::{Bit, Byte, Level, Pair, Wide};
use core::iter::{Product, Sum};
use core::ops::{Add, AddAssign, Mul, MulAssign, Sub, SubAssign};
use p3_binary_field::TowerLevel;
use p3_field::{Algebra, Field, Ring};

macro_rules! operators {
    ([$($parameter:tt)*] $level:ty) => {
        impl<$($parameter)*> Add for $level {
            type Output = Self;
            #[inline]
            fn add(self, other: Self) -> Self {
                self.plus(other)
            }
        }

        /// Every element is its own opposite.
        impl<$($parameter)*> Sub for $level {
            type Output = Self;
            #[inline]
            fn sub(self, other: Self) -> Self {
                self.plus(other)
            }
        }

        impl<$($parameter)*> Mul for $level {
            type Output = Self;
            #[inline]
            fn mul(self, other: Self) -> Self {
                self.times(other)
            }
        }

        impl<$($parameter)*> AddAssign for $level {
            #[inline]
            fn add_assign(&mut self, other: Self) {
                *self = self.plus(other);
            }
        }

        impl<$($parameter)*> SubAssign for $level {
            #[inline]
            fn sub_assign(&mut self, other: Self) {
                *self = self.plus(other);
            }
        }

        impl<$($parameter)*> MulAssign for $level {
            #[inline]
            fn mul_assign(&mut self, other: Self) {
                *self = self.times(other);
            }
        }

        impl<$($parameter)*> Sum for $level {
            fn sum<I: Iterator<Item = Self>>(elements: I) -> Self {
                elements.fold(<Self as Level>::ZERO, Level::plus)
            }
        }

        impl<$($parameter)*> Product for $level {
            fn product<I: Iterator<Item = Self>>(elements: I) -> Self {
                elements.fold(<Self as Level>::ONE, Level::times)
            }
        }

        impl<$($parameter)*> Ring for $level {
            const ZERO: Self = <Self as Level>::ZERO;
            const ONE: Self = <Self as Level>::ONE;
        }

        impl<$($parameter)*> Algebra<Self> for $level {}

        impl<$($parameter)*> Field for $level {
            fn inverse(&self) -> Self {
                self.reciprocal().expect("zero has no inverse")
            }
        }

        impl<$($parameter)*> TowerLevel for $level {
            const LOG_BITS: usize = <Self as Level>::LOG_BITS;
            fn cantor_basis(position: usize) -> Self {
                Self::basis(position).expect("the basis has no such element")
            }
        }
    };
}

operators!([] Bit);
operators!([] Byte);
operators!([B: Level] Pair<B>);
operators!([] Wide);
