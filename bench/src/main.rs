//! The field operations in plain Rust, timed. Standard output has a checksum for each case, standard
//! error the nanoseconds an operation. An argument is the number of repetitions.

mod byte;
mod cases;
mod field;
mod generator;
mod pair;

use byte::Byte;
use cases::{batch_inverses, inverses, products, scales, solves};
use field::TowerLevel;
use generator::Generator;
use pair::{Pair16, Pair64};
use std::time::{Duration, Instant};

const SEED: u64 = 2024;
const LENGTH: usize = 4096;
const DEFAULT_REPETITIONS: u32 = 4;

/// Passes over the array in each repetition; odd, so that two inversions do not cancel.
const PASSES: usize = 7;

/// The sum so far with the values after another repetition.
fn checksum<F: TowerLevel>(so_far: u64, values: &[F]) -> u64 {
    values.iter().fold(so_far, |sum, x| {
        (sum.rotate_left(5) ^ x.to_number() as u64).wrapping_mul(0x517c_c1b7_2722_0a95)
    })
}

fn measure<F: TowerLevel, X: TowerLevel>(
    name: &str,
    repetitions: u32,
    pass: impl Fn(&mut [F], &[X]),
) {
    let mut source = Generator { state: SEED };
    let mut values: Vec<F> = source.elements(LENGTH);
    let operands: Vec<X> = source.elements(LENGTH);
    let mut least = Duration::MAX;
    let mut sum = 0;
    for _ in 0..repetitions {
        let start = Instant::now();
        for _ in 0..PASSES {
            pass(&mut values, &operands);
        }
        least = least.min(start.elapsed());
        sum = checksum(sum, &values);
    }
    println!("{name} {sum:016x}");
    let operations = (PASSES * LENGTH) as f64;
    eprintln!("{name} {:.3}", least.as_nanos() as f64 / operations);
}

fn main() {
    let repetitions = match std::env::args().nth(1) {
        Some(word) => word.parse().expect("the number of repetitions"),
        None => DEFAULT_REPETITIONS,
    };
    measure("product 8", repetitions, products::<Byte>);
    measure("product 16", repetitions, products::<Pair16>);
    measure("product 64", repetitions, products::<Pair64>);
    measure("scale 16", repetitions, scales::<Byte, Pair16>);
    measure("scale 64", repetitions, scales::<Byte, Pair64>);
    measure("inverse 8", repetitions, inverses::<Byte>);
    measure("inverse 16", repetitions, inverses::<Pair16>);
    measure("inverse 64", repetitions, inverses::<Pair64>);
    measure("solve 8", repetitions, solves::<Byte>);
    measure("solve 16", repetitions, solves::<Pair16>);
    measure("solve 64", repetitions, solves::<Pair64>);
    measure("batch inverse 64", repetitions, batch_inverses::<Pair64>);
}
