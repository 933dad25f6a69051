//! The time of a case, and a checksum of what it leaves.

use crate::generator::Generator;
use p3_binary_field::TowerLevel;
use std::hint::black_box;
use std::time::{Duration, Instant};
use tower::Level;
use univariate_skip::univariate_skip::domain::SkipDomain;
use univariate_skip::univariate_skip::lde::CompressedLde;

const SEED: u64 = 2024;

/// Rows that one call extends.
const ROWS: usize = 4096;

/// The sum so far with more elements.
fn checksum<F: Level>(so_far: u64, elements: &[F]) -> u64 {
    elements.iter().fold(so_far, |sum, x| {
        (sum.rotate_left(5) ^ x.number()).wrapping_mul(0x517c_c1b7_2722_0a95)
    })
}

fn print_time(name: &str, least: Duration, count: usize) {
    eprintln!("{name} {:.3}", least.as_nanos() as f64 / count as f64);
}

/// The least time of a repetition.
fn least_of(repetitions: u32, mut call: impl FnMut()) -> Duration {
    let mut least = Duration::MAX;
    for _ in 0..repetitions {
        let start = Instant::now();
        call();
        least = least.min(start.elapsed());
    }
    least
}

fn domain<F: TowerLevel>(log_size: usize, log_extended: usize) -> SkipDomain<F> {
    SkipDomain::new(log_size, log_extended).expect("the domain")
}

fn table<F: TowerLevel>(domain: &SkipDomain<F>) -> CompressedLde<F> {
    CompressedLde::new(domain).expect("the table")
}

/// Extends 4,096 packed rows by one call; nanoseconds a row.
pub fn measure_rows<F: TowerLevel + Level>(
    name: &str,
    log_size: usize,
    log_extended: usize,
    repetitions: u32,
) {
    let table = table(&domain::<F>(log_size, log_extended));
    let rows = Generator { state: SEED }.bytes(ROWS * table.num_chunks());
    let mut output = vec![<F as Level>::ZERO; ROWS * table.num_transmitted()];
    let mut least = Duration::MAX;
    let mut sum = 0;
    for _ in 0..repetitions {
        least = least.min(least_of(1, || table.extend_batch(&rows, &mut output)));
        sum = checksum(sum, &output);
    }
    println!("{name} {sum:016x}");
    print_time(name, least, ROWS);
}

/// Every entry: row v is the extension of the row whose byte 0 is v and whose other bytes are 0.
fn checksum_of_table<F: TowerLevel + Level>(table: &CompressedLde<F>) -> u64 {
    let mut row = vec![0; table.num_chunks()];
    let mut extended = vec![<F as Level>::ZERO; table.num_transmitted()];
    (0..=255).fold(0, |sum, value| {
        row[0] = value;
        table.extend(&row, &mut extended);
        checksum(sum, &extended)
    })
}

/// Builds tables, `count` in a repetition; nanoseconds a table, without the domain and with it.
pub fn measure_table<F: TowerLevel + Level>(
    name: &str,
    log_size: usize,
    log_extended: usize,
    count: usize,
    repetitions: u32,
) {
    let built = domain::<F>(log_size, log_extended);
    let alone = least_of(repetitions, || {
        for _ in 0..count {
            black_box(table(black_box(&built)));
        }
    });
    let with_domain = least_of(repetitions, || {
        for _ in 0..count {
            black_box(table(&domain::<F>(black_box(log_size), log_extended)));
        }
    });
    println!("{name} {:016x}", checksum_of_table(&table(&built)));
    print_time(name, alone, count);
    print_time(&format!("domain and {name}"), with_domain, count);
}
