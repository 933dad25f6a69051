//! The operations of `fieldcalc`, as docs/PROGRAMS.md says.

use crate::answer::{element, element_or_none};
use crate::fault::Fault;
use crate::words;
use tower::{Byte, Level};

/// The sum of v_r over the set bits r of the index; a bit without a v_r adds nothing.
fn point<F: Level>(index: usize) -> F {
    (0..64)
        .filter(|r| index >> r & 1 == 1)
        .filter_map(F::basis)
        .fold(F::ZERO, F::plus)
}

fn one<F: Level>(operands: &[&str]) -> Result<F, Fault> {
    let [a] = words::exactly(operands)?;
    words::element(a)
}

fn two<F: Level>(operands: &[&str]) -> Result<(F, F), Fault> {
    let [a, b] = words::exactly(operands)?;
    Ok((words::element(a)?, words::element(b)?))
}

fn index(operands: &[&str]) -> Result<usize, Fault> {
    let [j] = words::exactly(operands)?;
    words::number(j)
}

pub fn answer<F: Level>(operation: &str, operands: &[&str]) -> Result<String, Fault> {
    Ok(match operation {
        "sum" => two::<F>(operands).map(|(a, b)| element(a.plus(b)))?,
        "product" => two::<F>(operands).map(|(a, b)| element(a.times(b)))?,
        "equal" => two::<F>(operands).map(|(a, b)| (a == b).to_string())?,
        "inverse" => element_or_none(one::<F>(operands)?.reciprocal()),
        "solve" => element_or_none(one::<F>(operands)?.solve()),
        "top" => words::exactly(operands).map(|[]| element(F::TOP))?,
        "bits" => words::exactly(operands).map(|[]| F::width().to_string())?,
        "basis" => element_or_none(F::basis(index(operands)?)),
        "point" => element(point::<F>(index(operands)?)),
        _ => return Err(Fault::UnknownOperation),
    })
}

/// The answer of a level above Byte, which has one operation more.
pub fn answer_above_byte<F: Level>(operation: &str, operands: &[&str]) -> Result<String, Fault> {
    if operation != "scale" {
        return answer::<F>(operation, operands);
    }
    let [a, byte] = words::exactly(operands)?;
    let a: F = words::element(a)?;
    let byte: Byte = words::element(byte)?;
    Ok(element(a.times(F::from_number(byte.number()))))
}
