//! The fields of 64 bits over the levels that a round runs over.
//!
//! A base element and its image have the same number.

use crate::{Byte, Level, Pair16, Pair32, Pair64, Pile8, Pile64};
use core::ops::{Add, Mul};
use p3_field::{Algebra, ExtensionField};

macro_rules! extension {
    ($extension:ty, $($base:ty),+) => {$(
        impl Add<$base> for $extension {
            type Output = Self;
            fn add(self, base: $base) -> Self {
                self.plus(Self::from_number(base.number()))
            }
        }

        impl Mul<$base> for $extension {
            type Output = Self;
            fn mul(self, base: $base) -> Self {
                self.times(Self::from_number(base.number()))
            }
        }

        impl Algebra<$base> for $extension {}

        impl ExtensionField<$base> for $extension {
            fn as_base(&self) -> Option<$base> {
                self.with_same_number()
            }
        }
    )+};
}

extension!(Pair64, Byte, Pair16, Pair32);
extension!(Pile64, Pile8);
