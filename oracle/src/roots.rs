// Operands of the square root: every exponent, subnormals, squares and their neighbours, and random patterns.
use crate::source::Source;

pub fn each(s: &mut Source, random: usize, visit: &mut dyn FnMut(f64)) {
    for exponent in 0..2048u64 {
        for fraction in [
            0,
            1,
            2,
            1 << 51,
            (1 << 52) - 1,
            (1 << 52) - 2,
            s.bits() >> 12,
            s.bits() >> 12,
        ] {
            visit(f64::from_bits(exponent << 52 | fraction));
            visit(f64::from_bits(1 << 63 | exponent << 52 | fraction));
        }
    }
    for _ in 0..random / 10 {
        visit(f64::from_bits(s.bits() >> (12 + s.below(52))));
    }
    for _ in 0..random / 10 {
        let root = (s.bits() >> (38 + s.below(20))) as f64;
        near(root * root, visit);
    }
    for _ in 0..random / 10 {
        let root = f64::from_bits((s.bits() >> 12) | (1023 << 52));
        near(root * root, visit);
    }
    for _ in 0..random {
        visit(f64::from_bits(s.bits() >> 1));
    }
}

fn near(x: f64, visit: &mut dyn FnMut(f64)) {
    for bits in [x.to_bits().wrapping_sub(1), x.to_bits(), x.to_bits() + 1] {
        visit(f64::from_bits(bits));
    }
}
