//! The calls of `CompressedLde`.

use crate::answer::{filled, list};
use crate::base::Base;
use crate::domain::{built, either};
use crate::fault::Fault;
use crate::guard::{LARGE, LONGEST_OUTPUT, PANIC, caught};
use crate::words;
use univariate_skip::univariate_skip::lde::{CompressedLde, CompressedLdeError};

pub fn refusal(error: &CompressedLdeError) -> String {
    let CompressedLdeError::SubspaceTooNarrow { log_size } = error;
    format!("refused 4 {log_size}")
}

/// The table, or the answer in its place.
fn tabulated<F: Base>(log_size: usize, log_extended: usize) -> Result<CompressedLde<F>, String> {
    let domain = built::<F>(log_size, log_extended)?;
    match caught(|| CompressedLde::new(&domain)) {
        None => Err(PANIC.to_string()),
        Some(made) => made.map_err(|error| refusal(&error)),
    }
}

/// Every entry: row v is the extension of the row whose byte 0 is v and whose other bytes are 0.
fn entries<F: Base>(table: &CompressedLde<F>) -> Vec<F> {
    let stride = table.num_transmitted();
    let mut entries = filled(table.table_len());
    let mut row = vec![0; table.num_chunks()];
    for (value, extended) in (0..=255).zip(entries.chunks_exact_mut(stride)) {
        row[0] = value;
        table.extend(&row, extended);
    }
    entries
}

pub fn table<F: Base>(arguments: &[&str]) -> Result<String, Fault> {
    let [log_size, log_extended, lent] = words::exactly(arguments)?;
    words::number(lent)?;
    let table = tabulated::<F>(words::number(log_size)?, words::number(log_extended)?);
    Ok(either(table.map(|table| {
        format!(
            "ok {} {} {} | {}",
            table.num_transmitted(),
            table.num_chunks(),
            table.table_len(),
            list(&entries(&table)),
        )
    })))
}

/// The answer of a call that extends: what came of it, and the output afterwards.
fn extending<F: Base>(
    arguments: &[&str],
    call: impl FnOnce(&CompressedLde<F>, &[u8], &mut [F]),
) -> Result<String, Fault> {
    let [log_size, log_extended, length, row] = words::exactly(arguments)?;
    let length = words::number(length)?;
    let row = words::row(row)?;
    let table = tabulated::<F>(words::number(log_size)?, words::number(log_extended)?);
    Ok(either(table.map(|table| {
        if length > LONGEST_OUTPUT {
            return LARGE.to_string();
        }
        let mut output = filled(length);
        let done = caught(|| call(&table, &row, &mut output));
        let outcome = if done.is_some() { "ok" } else { PANIC };
        format!("{outcome} | {}", list(&output))
    })))
}

pub fn extend<F: Base>(arguments: &[&str]) -> Result<String, Fault> {
    extending::<F>(arguments, |table, row, output| table.extend(row, output))
}

pub fn batch<F: Base>(arguments: &[&str]) -> Result<String, Fault> {
    extending::<F>(arguments, |table, rows, output| {
        table.extend_batch(rows, output)
    })
}
