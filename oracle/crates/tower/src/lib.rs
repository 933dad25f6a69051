//! The tower fields of characteristic two: Bit, Byte and pairs over either.

mod bit;
mod byte;
mod extension;
mod level;
mod operators;
mod pair;
#[cfg(test)]
mod tests;
mod wide;

pub use bit::Bit;
pub use byte::Byte;
pub use level::Level;
pub use pair::Pair;
pub use wide::Wide;

pub type Pair16 = Pair<Byte>;
pub type Pair32 = Pair<Pair16>;
pub type Pair64 = Pair<Pair32>;

pub type Pile2 = Pair<Bit>;
pub type Pile4 = Pair<Pile2>;
pub type Pile8 = Pair<Pile4>;

/// Three pairs over the pile of 8 bits.
pub type Pile64 = Pair<Pair<Pair<Pile8>>>;
