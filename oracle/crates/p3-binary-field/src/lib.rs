//! The trait of tower levels, with what the module's four files use of it.

use p3_field::Field;

/// A field of 2^(2^LOG_BITS) elements with a Cantor basis.
pub trait TowerLevel: Field {
    const LOG_BITS: usize;

    /// The basis element v_position; panics if there is none.
    fn cantor_basis(position: usize) -> Self;
}
