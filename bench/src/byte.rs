//! The field of 256 elements, by tables of the powers of its least generator.

use crate::field::{Extension, Field, TowerLevel};

const GENERATOR: u8 = 0x12;

/// The powers of the generator, twice over, and zeros from 510 on.
static EXP: [u8; 1021] = powers();

/// The exponents; 510 for zero.
static LOG: [u16; 256] = exponents();

/// The products with the element 0x80.
static TIMES_TOP: [u8; 256] = top_products();

/// The even y with y·y + y = t, for t below 128.
static SOLUTIONS: [u8; 128] = solutions();

/// The product in the tower of pairs a + bX with X·X = X + top, on numbers of `bits` bits.
const fn tower_product(a: u8, b: u8, bits: u32) -> u8 {
    if bits == 1 {
        return a & b;
    }
    let half = bits / 2;
    let mask = (1u8 << half) - 1;
    let top = 1u8 << (half - 1);
    let (low, high) = (a & mask, a >> half);
    let (other_low, other_high) = (b & mask, b >> half);
    let lows = tower_product(low, other_low, half);
    let highs = tower_product(high, other_high, half);
    let both = tower_product(low ^ high, other_low ^ other_high, half);
    (lows ^ tower_product(highs, top, half)) | ((both ^ lows) << half)
}

const fn powers() -> [u8; 1021] {
    let mut table = [0; 1021];
    let mut power = 1;
    let mut i = 0;
    while i < 510 {
        table[i] = power;
        power = tower_product(power, GENERATOR, 8);
        i += 1;
    }
    table
}

const fn exponents() -> [u16; 256] {
    let powers = powers();
    let mut table = [510; 256];
    let mut i = 0;
    while i < 255 {
        table[powers[i] as usize] = i as u16;
        i += 1;
    }
    table
}

const fn top_products() -> [u8; 256] {
    let mut table = [0; 256];
    let mut i = 0;
    while i < 256 {
        table[i] = tower_product(i as u8, 0x80, 8);
        i += 1;
    }
    table
}

const fn solutions() -> [u8; 128] {
    let mut table = [0; 128];
    let mut y = 0;
    while y < 256 {
        let t = tower_product(y as u8, y as u8, 8) ^ y as u8;
        table[t as usize] = y as u8;
        y += 2;
    }
    table
}

#[derive(Clone, Copy)]
pub struct Byte(u8);

impl Field for Byte {
    fn zero() -> Byte {
        Byte(0)
    }

    fn one() -> Byte {
        Byte(1)
    }

    fn sum(self, other: Byte) -> Byte {
        Byte(self.0 ^ other.0)
    }

    fn product(self, other: Byte) -> Byte {
        Byte(EXP[LOG[self.0 as usize] as usize + LOG[other.0 as usize] as usize])
    }

    fn inverse(self) -> Option<Byte> {
        if self.0 == 0 {
            return None;
        }
        Some(Byte(EXP[255 - LOG[self.0 as usize] as usize]))
    }

    fn equals(self, other: Byte) -> bool {
        self.0 == other.0
    }
}

impl TowerLevel for Byte {
    fn log_bits() -> usize {
        3
    }

    fn from_number(n: u128) -> Byte {
        Byte(n as u8)
    }

    fn to_number(self) -> u128 {
        self.0 as u128
    }

    fn top() -> Byte {
        Byte(0x80)
    }

    fn times_top(self) -> Byte {
        Byte(TIMES_TOP[self.0 as usize])
    }

    fn solve(self) -> Option<Byte> {
        SOLUTIONS.get(self.0 as usize).map(|&y| Byte(y))
    }
}

impl Extension<Byte> for Byte {
    fn scale(self, x: Byte) -> Byte {
        self.product(x)
    }
}
