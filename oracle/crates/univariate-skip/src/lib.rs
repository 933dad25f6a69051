//! The Rust module that is compared with, from the copies that `oracle/build` makes of its four files.

extern crate alloc;

pub mod univariate_skip;
