//! The calls of `SkipDomain`.

use crate::answer::{element, list};
use crate::base::Base;
use crate::fault::Fault;
use crate::guard::{LARGE, PANIC, caught, too_large};
use crate::words;
use univariate_skip::univariate_skip::domain::{SkipDomain, SkipDomainError};

pub fn refusal(error: &SkipDomainError) -> String {
    match error {
        SkipDomainError::EmptyExtension {
            log_size,
            log_extended,
        } => format!("refused 1 {log_size} {log_extended}"),
        SkipDomainError::ExtensionTooWide {
            log_extended,
            limit,
        } => format!("refused 2 {log_extended} {limit}"),
    }
}

/// The domain, or the answer in its place.
pub fn built<F: Base>(log_size: usize, log_extended: usize) -> Result<SkipDomain<F>, String> {
    if too_large::<F>(log_size, log_extended) {
        return Err(LARGE.to_string());
    }
    match caught(|| SkipDomain::new(log_size, log_extended)) {
        None => Err(PANIC.to_string()),
        Some(made) => made.map_err(|error| refusal(&error)),
    }
}

/// Whether `for_degree` would go on to build a domain that is wider than we let it.
pub fn too_large_for_degree<F: Base>(log_size: usize, degree: usize) -> bool {
    SkipDomain::<F>::extra_dimensions(degree)
        .and_then(|extra| log_size.checked_add(extra))
        .is_some_and(|log_extended| too_large::<F>(log_size, log_extended))
}

fn built_for_degree<F: Base>(log_size: usize, degree: usize) -> Result<SkipDomain<F>, String> {
    if too_large_for_degree::<F>(log_size, degree) {
        return Err(LARGE.to_string());
    }
    match caught(|| SkipDomain::for_degree(log_size, degree)) {
        None => Err(PANIC.to_string()),
        Some(made) => made.map_err(|error| refusal(&error)),
    }
}

fn described<F: Base>(domain: SkipDomain<F>) -> String {
    format!(
        "ok {} {} {} {} {} | {} | {}",
        domain.log_size(),
        domain.size(),
        domain.log_extended(),
        domain.num_transmitted(),
        element(domain.derivative_on_subspace()),
        list(domain.subspace()),
        list(domain.transmitted()),
    )
}

/// Either of the two, whichever there is.
pub fn either(answer: Result<String, String>) -> String {
    answer.unwrap_or_else(|in_its_place| in_its_place)
}

pub fn extra<F: Base>(arguments: &[&str]) -> Result<String, Fault> {
    let [degree] = words::exactly(arguments)?;
    let degree = words::number(degree)?;
    Ok(match SkipDomain::<F>::extra_dimensions(degree) {
        Some(extra) => extra.to_string(),
        None => "none".to_string(),
    })
}

pub fn new<F: Base>(arguments: &[&str]) -> Result<String, Fault> {
    let [log_size, log_extended, lent] = words::exactly(arguments)?;
    words::number(lent)?;
    let domain = built::<F>(words::number(log_size)?, words::number(log_extended)?);
    Ok(either(domain.map(described)))
}

pub fn degree<F: Base>(arguments: &[&str]) -> Result<String, Fault> {
    let [log_size, degree, lent] = words::exactly(arguments)?;
    words::number(lent)?;
    let domain = built_for_degree::<F>(words::number(log_size)?, words::number(degree)?);
    Ok(either(domain.map(described)))
}

pub fn admits<F: Base>(arguments: &[&str]) -> Result<String, Fault> {
    let [log_size, log_extended, degree] = words::exactly(arguments)?;
    let degree = words::number(degree)?;
    let domain = built::<F>(words::number(log_size)?, words::number(log_extended)?);
    Ok(either(domain.map(|domain| {
        match caught(|| domain.admits_degree(degree)) {
            Some(admitted) => admitted.to_string(),
            None => PANIC.to_string(),
        }
    })))
}

pub fn vanishing<F: Base>(arguments: &[&str]) -> Result<String, Fault> {
    let [log_size, log_extended, x] = words::exactly(arguments)?;
    let x: F = words::element(x)?;
    let domain = built::<F>(words::number(log_size)?, words::number(log_extended)?);
    Ok(either(domain.map(|domain| element(domain.vanishing(x)))))
}

pub fn vanishings<F: Base>(arguments: &[&str]) -> Result<String, Fault> {
    let [log_size, log_extended, lent] = words::exactly(arguments)?;
    words::number(lent)?;
    let domain = built::<F>(words::number(log_size)?, words::number(log_extended)?);
    Ok(either(domain.map(|domain| {
        format!("ok | {}", list(domain.vanishing_on_transmitted()))
    })))
}

/// A part of the resampling matrix; ours has no such call.
pub fn prefix<F: Base>(arguments: &[&str]) -> Result<String, Fault> {
    let [log_size, log_extended, columns] = words::exactly(arguments)?;
    let columns = words::number(columns)?;
    let domain = built::<F>(words::number(log_size)?, words::number(log_extended)?);
    Ok(either(domain.map(|domain| {
        match caught(|| domain.resampling_prefix(columns)) {
            Some(entries) => format!("ok | {}", list(&entries)),
            None => PANIC.to_string(),
        }
    })))
}

/// The polynomial with these values on the subspace, at x; ours has no such call.
pub fn interpolate<F: Base>(arguments: &[&str]) -> Result<String, Fault> {
    let ([log_size, log_extended, x], values) = words::at_least(arguments)?;
    let x: F = words::element(x)?;
    let values: Vec<F> = words::elements(values)?;
    let domain = built::<F>(words::number(log_size)?, words::number(log_extended)?);
    Ok(either(domain.map(|domain| {
        match caught(|| domain.interpolate(&values, x)) {
            Some(value) => format!("ok {}", element(value)),
            None => PANIC.to_string(),
        }
    })))
}
