//! What comes of a domain over fields that are too wide for the module's other questions.

use crate::domain::refusal;
use crate::fault::Fault;
use crate::guard::{LARGE, PANIC, caught, too_large};
use crate::words;
use p3_binary_field::TowerLevel;
use univariate_skip::univariate_skip::domain::SkipDomain;

pub fn new<F: TowerLevel>(arguments: &[&str]) -> Result<String, Fault> {
    let [log_size, log_extended, lent] = words::exactly(arguments)?;
    words::number(lent)?;
    let (log_size, log_extended) = (words::number(log_size)?, words::number(log_extended)?);
    if too_large::<F>(log_size, log_extended) {
        return Ok(LARGE.to_string());
    }
    let made = caught(|| SkipDomain::<F>::new(log_size, log_extended));
    Ok(match made {
        Some(Ok(_)) => "ok".to_string(),
        Some(Err(error)) => refusal(&error),
        None => PANIC.to_string(),
    })
}
