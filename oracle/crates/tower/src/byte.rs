//! The field of 256 elements, by tables of the powers of its least generator.

use crate::level::Level;

const GENERATOR: u8 = 0x12;

/// The powers of the generator, twice over, and zeros from 510 on.
static EXP: [u8; 1021] = powers();

/// The exponents; 510 for zero.
static LOG: [u16; 256] = exponents();

/// The even y with y·y + y = t, for t below 128; no other t has one.
static SOLUTIONS: [u8; 128] = solutions();

/// The product in the tower of pairs a + bX with X·X = X + top, on numbers of `bits` bits.
const fn tower_product(a: u8, b: u8, bits: u32) -> u8 {
    if bits == 1 {
        return a & b;
    }
    let half = bits / 2;
    let mask = (1u8 << half) - 1;
    let top = 1u8 << (half - 1);
    let (low, high) = (a & mask, a >> half);
    let (other_low, other_high) = (b & mask, b >> half);
    let lows = tower_product(low, other_low, half);
    let highs = tower_product(high, other_high, half);
    let both = tower_product(low ^ high, other_low ^ other_high, half);
    (lows ^ tower_product(highs, top, half)) | ((both ^ lows) << half)
}

const fn powers() -> [u8; 1021] {
    let mut table = [0; 1021];
    let mut power = 1;
    let mut i = 0;
    while i < 510 {
        table[i] = power;
        power = tower_product(power, GENERATOR, 8);
        i += 1;
    }
    table
}

const fn exponents() -> [u16; 256] {
    let powers = powers();
    let mut table = [510; 256];
    let mut i = 0;
    while i < 255 {
        table[powers[i] as usize] = i as u16;
        i += 1;
    }
    table
}

const fn solutions() -> [u8; 128] {
    let mut table = [0; 128];
    let mut y = 0;
    while y < 256 {
        let t = tower_product(y as u8, y as u8, 8) ^ y as u8;
        table[t as usize] = y as u8;
        y += 2;
    }
    table
}

#[derive(Clone, Copy, PartialEq, Eq, Debug)]
#[repr(transparent)]
pub struct Byte(u8);

impl Level for Byte {
    const LOG_BITS: usize = 3;
    const ZERO: Byte = Byte(0);
    const ONE: Byte = Byte(1);
    const TOP: Byte = Byte(0x80);

    fn from_number(number: u64) -> Byte {
        Byte(number as u8)
    }

    fn number(self) -> u64 {
        u64::from(self.0)
    }

    #[inline]
    fn plus(self, other: Byte) -> Byte {
        Byte(self.0 ^ other.0)
    }

    #[inline]
    fn times(self, other: Byte) -> Byte {
        Byte(EXP[LOG[self.0 as usize] as usize + LOG[other.0 as usize] as usize])
    }

    fn reciprocal(self) -> Option<Byte> {
        (self.0 != 0).then(|| Byte(EXP[255 - LOG[self.0 as usize] as usize]))
    }

    fn solve(self) -> Option<Byte> {
        SOLUTIONS.get(self.0 as usize).map(|&y| Byte(y))
    }
}
