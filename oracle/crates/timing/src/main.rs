//! The Rust's extension of rows and its construction of tables, timed. Standard output has a checksum
//! for each case, standard error the nanoseconds a row or a table. An argument is the number of
//! repetitions.

mod generator;
mod measure;

use measure::{measure_rows, measure_table};
use tower::{Byte, Pair16};

const DEFAULT_REPETITIONS: u32 = 1;

/// Small tables that one repetition builds.
const TABLES: usize = 32;

fn main() {
    let repetitions = match std::env::args().nth(1) {
        Some(word) => word.parse().expect("the number of repetitions"),
        None => DEFAULT_REPETITIONS,
    };
    measure_rows::<Byte>("rows 6 7", 6, 7, repetitions);
    measure_rows::<Byte>("rows 7 8", 7, 8, repetitions);
    measure_table::<Byte>("table 6 7", 6, 7, TABLES, repetitions);
    measure_table::<Byte>("table 7 8", 7, 8, TABLES, repetitions);
    measure_table::<Pair16>("table 15 16", 15, 16, 1, repetitions);
}
