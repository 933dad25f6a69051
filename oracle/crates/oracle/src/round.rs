//! The calls of `SkipRound` and `RowSelector`.

use crate::answer::{element, list};
use crate::base::Base;
use crate::domain::{self, either, too_large_for_degree};
use crate::fault::Fault;
use crate::guard::{LARGE, PANIC, caught};
use crate::table;
use crate::words;
use tower::Level;
use univariate_skip::univariate_skip::composition::{Composition, Conjunction, SquareProduct};
use univariate_skip::univariate_skip::round::{
    MessageLenMismatch, RowSelector, SkipRound, SkipRoundError,
};

const MOST_OPERANDS: usize = 255;

fn refusal(error: &SkipRoundError) -> String {
    match error {
        SkipRoundError::Domain(error) => domain::refusal(error),
        SkipRoundError::Lde(error) => table::refusal(error),
    }
}

/// The round for a log_size and a degree, or the answer in its place.
fn built<F: Base>(log_size: &str, degree: &str) -> Result<Result<SkipRound<F>, String>, Fault> {
    let (log_size, degree) = (words::number(log_size)?, words::number(degree)?);
    if too_large_for_degree::<F>(log_size, degree) {
        return Ok(Err(LARGE.to_string()));
    }
    Ok(match caught(|| SkipRound::new(log_size, degree)) {
        None => Err(PANIC.to_string()),
        Some(made) => made.map_err(|error| refusal(&error)),
    })
}

fn listed<E: Level>(call: impl FnOnce() -> Vec<E>) -> String {
    match caught(call) {
        Some(elements) => format!("ok | {}", list(&elements)),
        None => PANIC.to_string(),
    }
}

fn single<E: Level>(call: impl FnOnce() -> E) -> String {
    match caught(call) {
        Some(value) => format!("ok {}", element(value)),
        None => PANIC.to_string(),
    }
}

pub fn round<F: Base>(arguments: &[&str]) -> Result<String, Fault> {
    let [log_size, degree] = words::exactly(arguments)?;
    Ok(either(built::<F>(log_size, degree)?.map(|round| {
        format!(
            "ok {} {} {} {}",
            round.log_size(),
            round.domain().log_extended(),
            round.num_transmitted(),
            round.row_bytes(),
        )
    })))
}

/// The operands' bytes: all rows of operand 0, then of operand 1, and so on. What is not whole makes the last shorter.
fn operands(bytes: &[u8], count: usize) -> Vec<&[u8]> {
    let length = bytes.len().div_ceil(count.max(1));
    (0..count)
        .map(|operand| {
            let begin = (operand * length).min(bytes.len());
            &bytes[begin..(begin + length).min(bytes.len())]
        })
        .collect()
}

pub fn stream<F: Base>(arguments: &[&str]) -> Result<String, Fault> {
    match arguments.get(2) {
        Some(&"conjunction") => streamed::<F>(arguments, &Conjunction),
        Some(&"square") => streamed::<F>(arguments, &SquareProduct),
        _ => Err(Fault::WrongOperands),
    }
}

fn streamed<F: Base>(
    arguments: &[&str],
    rule: &(impl Composition<F> + Sync),
) -> Result<String, Fault> {
    let ([log_size, degree, _, count, bytes], weights) = words::at_least(arguments)?;
    let bytes = words::row(bytes)?;
    let count = words::number(count)?;
    if count > MOST_OPERANDS {
        return Ok(LARGE.to_string());
    }
    let operands = operands(&bytes, count);
    let weights: Vec<F::Extension> = words::elements(weights)?;
    Ok(either(built::<F>(log_size, degree)?.map(|round| {
        listed(|| round.stream_round_message(&operands, &weights, rule))
    })))
}

pub fn message<F: Base>(arguments: &[&str]) -> Result<String, Fault> {
    let ([log_size, degree, rows], rest) = words::at_least(arguments)?;
    let rows = words::number(rows)?;
    let (weights, composed) = rest.split_at_checked(rows).ok_or(Fault::WrongOperands)?;
    let weights: Vec<F::Extension> = words::elements(weights)?;
    let composed: Vec<F> = words::elements(composed)?;
    Ok(either(built::<F>(log_size, degree)?.map(|round| {
        listed(|| round.round_message(&composed, &weights))
    })))
}

pub fn evaluate<F: Base>(arguments: &[&str]) -> Result<String, Fault> {
    let ([log_size, degree, challenge], message) = words::at_least(arguments)?;
    let challenge: F::Extension = words::element(challenge)?;
    let message: Vec<F::Extension> = words::elements(message)?;
    Ok(either(built::<F>(log_size, degree)?.map(
        |round| match caught(|| round.evaluate(&message, challenge)) {
            Some(Ok(value)) => format!("ok {}", element(value)),
            Some(Err(MessageLenMismatch { expected, actual })) => {
                format!("refused 6 {expected} {actual}")
            }
            None => PANIC.to_string(),
        },
    )))
}

pub fn lagrange<F: Base>(arguments: &[&str]) -> Result<String, Fault> {
    let [log_size, degree, challenge] = words::exactly(arguments)?;
    let challenge: F::Extension = words::element(challenge)?;
    Ok(either(built::<F>(log_size, degree)?.map(|round| {
        listed(|| round.lagrange(challenge).as_slice().to_vec())
    })))
}

/// Every entry of the selector's table: entry 256b + v is what the row reads whose byte b is v, the others 0.
fn entries<E: Level + p3_field::Field>(selector: &RowSelector<E>) -> Vec<E> {
    let mut row = vec![0; selector.row_bytes()];
    let mut entries = Vec::new();
    for byte in 0..row.len() {
        for value in 0..=255 {
            row[byte] = value;
            entries.push(selector.read(&row));
        }
        row[byte] = 0;
    }
    entries
}

pub fn selector<F: Base>(arguments: &[&str]) -> Result<String, Fault> {
    let [log_size, degree, challenge] = words::exactly(arguments)?;
    let challenge: F::Extension = words::element(challenge)?;
    Ok(either(built::<F>(log_size, degree)?.map(
        |round| match caught(|| round.selector(challenge)) {
            Some(selector) => format!(
                "ok {} | {} | {}",
                selector.row_bytes(),
                list(selector.lagrange().as_slice()),
                list(&entries(&selector)),
            ),
            None => PANIC.to_string(),
        },
    )))
}

pub fn read<F: Base>(arguments: &[&str]) -> Result<String, Fault> {
    let [log_size, degree, challenge, row] = words::exactly(arguments)?;
    let challenge: F::Extension = words::element(challenge)?;
    let row = words::row(row)?;
    Ok(either(built::<F>(log_size, degree)?.map(|round| {
        single(|| round.selector(challenge).read(&row))
    })))
}

pub fn bind<F: Base>(arguments: &[&str]) -> Result<String, Fault> {
    let [log_size, degree, challenge, rows] = words::exactly(arguments)?;
    let challenge: F::Extension = words::element(challenge)?;
    let rows = words::row(rows)?;
    Ok(either(built::<F>(log_size, degree)?.map(|round| {
        listed(|| round.selector(challenge).bind(&rows).as_slice().to_vec())
    })))
}
