//! The compositions.

use crate::answer::element;
use crate::base::Base;
use crate::fault::Fault;
use crate::guard::{PANIC, caught};
use crate::words;
use p3_field::Algebra;
use tower::Level;
use univariate_skip::univariate_skip::composition::Composition;

/// Arity, degree and value on elements of F or of its extension.
pub fn value<F: Base, A: Level + Algebra<F>>(
    rule: &impl Composition<F>,
    values: &[&str],
) -> Result<String, Fault> {
    let values: Vec<A> = words::elements(values)?;
    Ok(match caught(|| rule.eval(&values)) {
        Some(value) => format!("{} {} {}", rule.arity(), rule.degree(), element(value)),
        None => PANIC.to_string(),
    })
}
