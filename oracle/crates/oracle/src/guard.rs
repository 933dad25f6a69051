//! What keeps a question from ending the program or using up the memory.

use p3_binary_field::TowerLevel;
use std::panic::{AssertUnwindSafe, catch_unwind};

/// The widest domain that is built has 2^17 points.
const WIDEST: usize = 17;

/// The longest output buffer that is lent.
pub const LONGEST_OUTPUT: usize = 1 << 25;

pub const LARGE: &str = "large";
pub const PANIC: &str = "panic";

/// What the call answers, or none if it panics.
pub fn caught<T>(call: impl FnOnce() -> T) -> Option<T> {
    catch_unwind(AssertUnwindSafe(call)).ok()
}

/// Whether the Rust would go on to build a domain that is wider than we let it.
///
/// It refuses dimensions that do not exceed log_size and those above the field's limit; these calls are made.
/// So are those whose points no allocation can hold: they panic before anything is built.
pub fn too_large<F: TowerLevel>(log_size: usize, log_extended: usize) -> bool {
    // a shift by 64 panics in debug and wraps in release, where the limit is then 1
    let limit = 1usize.wrapping_shl(F::LOG_BITS as u32).min(63);
    let built = log_extended > log_size && log_extended <= limit;
    built && log_extended > WIDEST && (size_of::<F>() as u128) << log_extended <= isize::MAX as u128
}
