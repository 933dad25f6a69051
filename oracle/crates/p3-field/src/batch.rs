//! Inverses of many elements.

use crate::Field;

/// The inverse of each element; panics if one is zero.
pub fn batch_multiplicative_inverse<F: Field>(elements: &[F]) -> Vec<F> {
    elements.iter().map(F::inverse).collect()
}
