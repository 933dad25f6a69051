//! What a word stands for.

use crate::fault::Fault;
use tower::Level;

/// Exactly as many words as the call has arguments.
pub fn exactly<'a, const COUNT: usize>(words: &[&'a str]) -> Result<[&'a str; COUNT], Fault> {
    words.try_into().map_err(|_| Fault::WrongOperands)
}

/// The first words, and the rest.
pub fn at_least<'a, 'b, const COUNT: usize>(
    words: &'b [&'a str],
) -> Result<([&'a str; COUNT], &'b [&'a str]), Fault> {
    match words.split_first_chunk() {
        Some((first, rest)) => Ok((*first, rest)),
        None => Err(Fault::WrongOperands),
    }
}

/// A decimal of at most 2^64 - 1.
pub fn number(word: &str) -> Result<usize, Fault> {
    if word.bytes().all(|byte| byte.is_ascii_digit()) {
        word.parse().map_err(|_| Fault::NotANumber)
    } else {
        Err(Fault::NotANumber)
    }
}

/// A hexadecimal number below 2^width.
pub fn element<F: Level>(word: &str) -> Result<F, Fault> {
    if !word.bytes().all(|byte| byte.is_ascii_hexdigit()) {
        return Err(Fault::NotAnElement);
    }
    let number = u64::from_str_radix(word, 16).map_err(|_| Fault::NotAnElement)?;
    let element = F::from_number(number);
    if element.number() == number {
        Ok(element)
    } else {
        Err(Fault::NotAnElement)
    }
}

pub fn elements<F: Level>(words: &[&str]) -> Result<Vec<F>, Fault> {
    words.iter().map(|word| element(word)).collect()
}

/// Hexadecimal bytes, byte 0 first; `-` for none.
pub fn row(word: &str) -> Result<Vec<u8>, Fault> {
    if word == "-" {
        return Ok(Vec::new());
    }
    let digits: Option<Vec<u32>> = word.chars().map(|digit| digit.to_digit(16)).collect();
    let (pairs, rest) = digits.as_deref().ok_or(Fault::NotARow)?.as_chunks::<2>();
    if rest.is_empty() {
        Ok(pairs.iter().map(|p| (p[0] << 4 | p[1]) as u8).collect())
    } else {
        Err(Fault::NotARow)
    }
}
