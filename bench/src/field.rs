//! The interfaces: a field of characteristic two, a level of a tower, an extension.

pub trait Field: Copy {
    fn zero() -> Self;
    fn one() -> Self;
    fn sum(self, other: Self) -> Self;
    fn product(self, other: Self) -> Self;
    fn inverse(self) -> Option<Self>;
    fn equals(self, other: Self) -> bool;
}

pub trait TowerLevel: Field {
    fn log_bits() -> usize;
    fn from_number(n: u128) -> Self;
    fn to_number(self) -> u128;
    fn top() -> Self;
    fn times_top(self) -> Self;
    fn solve(self) -> Option<Self>;
}

pub trait Extension<F>: Field {
    fn scale(self, x: F) -> Self;
}
