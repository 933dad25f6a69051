//! The four files, unchanged.

#[rustfmt::skip]
#[path = "../../../target/univariate_skip/composition.rs"]
pub mod composition;

#[rustfmt::skip]
#[path = "../../../target/univariate_skip/domain.rs"]
pub mod domain;

#[rustfmt::skip]
#[path = "../../../target/univariate_skip/lde.rs"]
pub mod lde;

#[rustfmt::skip]
#[path = "../../../target/univariate_skip/round.rs"]
pub mod round;
