//! Which call a question asks for.

use crate::base::Base;
use crate::fault::Fault;
use crate::{calculator, domain, round, rule, table, wide};
use tower::{Bit, Byte, Pair16, Pair32, Pair64, Pile2, Pile4, Pile8, Wide};
use univariate_skip::univariate_skip::composition::{Conjunction, SquareProduct};

type Calculator = fn(&str, &[&str]) -> Result<String, Fault>;

pub fn answer(words: &[&str]) -> Result<String, Fault> {
    let (&field, rest) = words.split_first().ok_or(Fault::UnknownField)?;
    let (&call, arguments) = rest.split_first().unwrap_or((&"", &[]));
    match field {
        "1" => calculator::answer::<Bit>(call, arguments),
        "p2" => calculator::answer::<Pile2>(call, arguments),
        "p4" => calculator::answer::<Pile4>(call, arguments),
        "p8" => module::<Pile8>(call, arguments, calculator::answer::<Pile8>),
        "8" => module::<Byte>(call, arguments, calculator::answer::<Byte>),
        "16" => module::<Pair16>(call, arguments, calculator::answer_above_byte::<Pair16>),
        "32" => module::<Pair32>(call, arguments, calculator::answer_above_byte::<Pair32>),
        "64" if call == "new" => wide::new::<Pair64>(arguments),
        "64" => calculator::answer_above_byte::<Pair64>(call, arguments),
        "wide" if call == "new" => wide::new::<Wide>(arguments),
        "wide" => Err(Fault::UnknownOperation),
        _ => Err(Fault::UnknownField),
    }
}

/// A call of the Rust module over F, or an operation of F.
fn module<F: Base>(
    call: &str,
    arguments: &[&str],
    calculator: Calculator,
) -> Result<String, Fault> {
    match call {
        "extra" => domain::extra::<F>(arguments),
        "new" => domain::new::<F>(arguments),
        "degree" => domain::degree::<F>(arguments),
        "admits" => domain::admits::<F>(arguments),
        "vanishing" => domain::vanishing::<F>(arguments),
        "vanishings" => domain::vanishings::<F>(arguments),
        "prefix" => domain::prefix::<F>(arguments),
        "interpolate" => domain::interpolate::<F>(arguments),
        "table" => table::table::<F>(arguments),
        "extend" => table::extend::<F>(arguments),
        "batch" => table::batch::<F>(arguments),
        "conjunction" => rule::value::<F, F>(&Conjunction, arguments),
        "square" => rule::value::<F, F>(&SquareProduct, arguments),
        "conjunction64" => rule::value::<F, F::Extension>(&Conjunction, arguments),
        "square64" => rule::value::<F, F::Extension>(&SquareProduct, arguments),
        "round" => round::round::<F>(arguments),
        "stream" => round::stream::<F>(arguments),
        "message" => round::message::<F>(arguments),
        "evaluate" => round::evaluate::<F>(arguments),
        "lagrange" => round::lagrange::<F>(arguments),
        "selector" => round::selector::<F>(arguments),
        "read" => round::read::<F>(arguments),
        "bind" => round::bind::<F>(arguments),
        _ => calculator(call, arguments),
    }
}
