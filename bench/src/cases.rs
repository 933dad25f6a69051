//! The cases: an operation on every element of an array, and the inversion of a whole array.

use crate::field::{Extension, Field, TowerLevel};

pub fn products<F: Field>(values: &mut [F], operands: &[F]) {
    for (value, &operand) in values.iter_mut().zip(operands) {
        *value = value.product(operand);
    }
}

pub fn scales<F: Field, E: Extension<F>>(values: &mut [E], operands: &[F]) {
    for (value, &operand) in values.iter_mut().zip(operands) {
        *value = value.scale(operand);
    }
}

/// The inverse, or the operand where there is none.
pub fn inverses<F: Field>(values: &mut [F], operands: &[F]) {
    for (value, &operand) in values.iter_mut().zip(operands) {
        *value = value.inverse().unwrap_or(operand);
    }
}

/// The solution of y·y + y = t, or t + top where there is none, which has one.
pub fn solves<F: TowerLevel>(values: &mut [F], _operands: &[F]) {
    for value in values {
        *value = match value.solve() {
            Some(y) => y,
            None => value.sum(F::top()),
        };
    }
}

/// Replaces each element by its inverse; if one is zero, changes nothing.
pub fn batch_inverses<F: Field>(values: &mut [F], _operands: &[F]) {
    let _ = batch_multiplicative_inverse(values);
}

fn batch_multiplicative_inverse<F: Field>(values: &mut [F]) -> Option<()> {
    if values.iter().any(|x| x.equals(F::zero())) {
        return None;
    }
    for value in values {
        if let Some(y) = value.inverse() {
            *value = y;
        }
    }
    Some(())
}
