//! The field traits that the module's four files import, with what the files use of them.

mod batch;

pub use batch::batch_multiplicative_inverse;

use core::fmt::Debug;
use core::iter::{Product, Sum};
use core::ops::{Add, AddAssign, Mul, MulAssign, Sub, SubAssign};

/// A ring whose elements add, subtract and multiply.
pub trait Ring:
    Sized
    + Clone
    + Add<Output = Self>
    + AddAssign
    + Sub<Output = Self>
    + SubAssign
    + Mul<Output = Self>
    + MulAssign
    + Sum
    + Product
{
    const ZERO: Self;
    const ONE: Self;

    fn square(&self) -> Self {
        self.clone() * self.clone()
    }

    fn zero_vec(len: usize) -> Vec<Self> {
        vec![Self::ZERO; len]
    }
}

/// A ring that elements of F may be added to and multiplied with.
pub trait Algebra<F>: Ring + Add<F, Output = Self> + Mul<F, Output = Self> {}

/// A field.
pub trait Field: Algebra<Self> + Copy + Eq + Debug {
    fn is_zero(&self) -> bool {
        *self == Self::ZERO
    }

    /// The inverse; zero has none, and then this panics.
    fn inverse(&self) -> Self;
}

/// A field that contains another.
pub trait ExtensionField<Base: Field>: Field + Algebra<Base> {
    /// The base element that stands for this one, if there is one.
    fn as_base(&self) -> Option<Base>;
}
