//! A level that says LOG_BITS 64 and has two elements only: a dummy, for the limit of a domain's dimensions.

use crate::bit::Bit;
use crate::level::Level;

#[derive(Clone, Copy, PartialEq, Eq, Debug)]
pub struct Wide(Bit);

impl Level for Wide {
    const LOG_BITS: usize = 64;
    const ZERO: Wide = Wide(Bit::ZERO);
    const ONE: Wide = Wide(Bit::ONE);
    const TOP: Wide = Wide(Bit::TOP);

    fn from_number(number: u64) -> Wide {
        Wide(Bit::from_number(number))
    }

    fn number(self) -> u64 {
        self.0.number()
    }

    fn plus(self, other: Wide) -> Wide {
        Wide(self.0.plus(other.0))
    }

    fn times(self, other: Wide) -> Wide {
        Wide(self.0.times(other.0))
    }

    fn reciprocal(self) -> Option<Wide> {
        self.0.reciprocal().map(Wide)
    }

    fn solve(self) -> Option<Wide> {
        self.0.solve().map(Wide)
    }
}
