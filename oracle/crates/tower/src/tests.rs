//! The values of docs/FIELDS.md, and the laws on small fields and on samples of the others.

use crate::{Bit, Byte, Level, Pair16, Pair32, Pair64, Pile2, Pile4, Pile8, Pile64};

fn byte(number: u64) -> Byte {
    Byte::from_number(number)
}

#[test]
fn byte_values() {
    assert_eq!(byte(0x04).times(byte(0x04)), byte(0x06));
    assert_eq!(byte(0x10).times(byte(0x10)), byte(0x18));
    assert_eq!(byte(0x01).solve(), Some(byte(0x02)));
    assert_eq!(byte(0x80).solve(), None);
    assert_eq!(byte(0xae).solve(), None);
    let basis: Vec<u64> = (0..).map_while(Byte::basis).map(Byte::number).collect();
    assert_eq!(basis, [0x01, 0x02, 0x04, 0x0a, 0x14, 0x20, 0x4c, 0xae]);
}

#[test]
fn byte_equals_its_pile() {
    let pile = Pile8::from_number;
    for a in 0..256 {
        assert_eq!(
            byte(a).reciprocal().map(Byte::number),
            pile(a).reciprocal().map(Pile8::number)
        );
        assert_eq!(
            byte(a).solve().map(Byte::number),
            pile(a).solve().map(Pile8::number)
        );
        for b in 0..256 {
            assert_eq!(
                byte(a).times(byte(b)).number(),
                pile(a).times(pile(b)).number()
            );
        }
    }
}

/// Numbers of every width, from a multiplicative generator.
fn numbers() -> impl Iterator<Item = u64> {
    let drawn = (1..200u64).map(|i| i.wrapping_mul(0x9e37_79b9_7f4a_7c15));
    (0..256).chain(drawn)
}

fn laws<F: Level>() {
    let elements: Vec<F> = numbers().map(F::from_number).collect();
    for &a in &elements {
        assert_eq!(F::from_number(a.number()), a);
        assert_eq!(a.times(F::ONE), a);
        assert_eq!(a.times_top(), a.times(F::TOP));
        assert_eq!(a.reciprocal().is_none(), a == F::ZERO);
        if let Some(b) = a.reciprocal() {
            assert_eq!(a.times(b), F::ONE);
        }
        if let Some(y) = a.solve() {
            assert_eq!(y.times(y).plus(y), a);
            assert_eq!(y.number() & 1, 0);
        }
        assert_ne!(a.solve().is_some(), a.plus(F::TOP).solve().is_some());
    }
    for trio in elements.windows(3) {
        let (a, b, c) = (trio[0], trio[1], trio[2]);
        assert_eq!(a.plus(b).number(), a.number() ^ b.number());
        assert_eq!(a.times(b), b.times(a));
        assert_eq!(a.times(b).times(c), a.times(b.times(c)));
        assert_eq!(a.times(b.plus(c)), a.times(b).plus(a.times(c)));
    }
    let basis: Vec<F> = (0..).map_while(F::basis).collect();
    assert_eq!(basis.len(), F::width());
    assert_eq!(basis[0], F::ONE);
    for next in basis.windows(2) {
        assert_eq!(next[0].solve(), Some(next[1]));
    }
    assert_eq!(basis[basis.len() - 1].solve(), None);
    assert_eq!(F::basis(usize::MAX), None);
}

#[test]
fn laws_of_every_field() {
    laws::<Bit>();
    laws::<Byte>();
    laws::<Pair16>();
    laws::<Pair32>();
    laws::<Pair64>();
    laws::<Pile2>();
    laws::<Pile4>();
    laws::<Pile8>();
    laws::<Pile64>();
}
