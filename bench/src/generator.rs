//! Elements from a seeded generator (splitmix64).

use crate::field::TowerLevel;

pub struct Generator {
    pub state: u64,
}

impl Generator {
    fn number(&mut self) -> u64 {
        self.state = self.state.wrapping_add(0x9e37_79b9_7f4a_7c15);
        let mut z = self.state;
        z = (z ^ (z >> 30)).wrapping_mul(0xbf58_476d_1ce4_e5b9);
        z = (z ^ (z >> 27)).wrapping_mul(0x94d0_49bb_1331_11eb);
        z ^ (z >> 31)
    }

    /// An element other than zero: one, where zero is drawn.
    fn element<F: TowerLevel>(&mut self) -> F {
        let x = F::from_number(self.number() as u128);
        if x.equals(F::zero()) { F::one() } else { x }
    }

    pub fn elements<F: TowerLevel>(&mut self, count: usize) -> Vec<F> {
        (0..count).map(|_| self.element()).collect()
    }
}
