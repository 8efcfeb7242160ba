// Numbers of many kinds, among them every limit of document 01 and its neighbours.
use crate::source::Source;

#[derive(Clone, Copy, Debug)]
pub enum Kind {
    Integers,
    Unit,
    Grid,
    Wide,
    TinyPivots,
    Specials,
    Patterns,
    Edges,
    // of sizes around this power of two
    Around(i64),
}

pub const KINDS: [Kind; 15] = [
    Kind::Integers,
    Kind::Unit,
    Kind::Grid,
    Kind::Wide,
    Kind::TinyPivots,
    Kind::Specials,
    Kind::Patterns,
    Kind::Edges,
    Kind::Edges,
    // where a part is no longer small, and where its square is too small to divide by without a look
    Kind::Around(200),
    Kind::Around(-200),
    // where products of three, and of two, are no longer finite
    Kind::Around(341),
    Kind::Around(511),
    // where sums are no longer finite
    Kind::Around(1021),
    Kind::Around(1021),
];

// sizes at which an answer may change from accepted to refused, or the way to it
pub const EDGES: [f64; 16] = [
    two_to(200),
    two_to(-200),
    two_to(-400),
    two_to(511),
    two_to(512),
    two_to(600),
    two_to(-498),
    two_to(-499),
    1e-150,
    1e-300,
    f64::MAX,
    f64::MAX / 2.0,
    f64::MIN_POSITIVE,
    5e-324,
    1.0,
    0.0,
];

pub const SPECIALS: [f64; 40] = [
    0.0,
    -0.0,
    1.0,
    -1.0,
    2.0,
    0.5,
    3.0,
    f64::INFINITY,
    f64::NEG_INFINITY,
    f64::NAN,
    1e-150,
    -1e-150,
    1e-151,
    1e-149,
    1e-300,
    9.999999999999999e-301,
    1.0000000000000003e-300,
    -1e-300,
    1e-301,
    1e-12,
    9.999999999999999e-13,
    1.0000000000000002e-12,
    -1e-12,
    1e-14,
    9.999999999999998e-15,
    1.0000000000000002e-14,
    -1e-14,
    1e-6,
    1e-7,
    f64::MAX,
    f64::MIN,
    f64::MIN_POSITIVE,
    5e-324,
    -5e-324,
    2.2250738585072009e-308,
    1e154,
    1.3407807929942596e154,
    1.3407807929942597e154,
    1e200,
    -1e-162,
];

// patterns of a NaN, quiet and signalling, of both signs
pub const NANS: [u64; 7] = [
    0xfff8_0000_0000_0000,
    0x7ff0_0000_0000_0001,
    0xfff0_0000_0000_0001,
    0x7fff_ffff_ffff_ffff,
    0xffff_ffff_ffff_ffff,
    0x7ff7_ffff_ffff_ffff,
    0xfff4_0000_0000_0000,
];

// 2^e, for exponents within the normal range
pub const fn two_to(e: i64) -> f64 {
    f64::from_bits(((e + 1023) as u64) << 52)
}

fn signed(s: &mut Source, x: f64) -> f64 {
    if s.one_in(2) {
        -x
    } else {
        x
    }
}

fn scaled(s: &mut Source, least: i64, most: i64) -> f64 {
    let e = least + s.below((most - least) as usize) as i64;
    let x = (1.0 + s.unit()) * two_to(e);
    signed(s, x)
}

pub fn real(s: &mut Source, kind: Kind) -> f64 {
    match kind {
        Kind::Integers => s.below(7) as f64 - 3.0,
        Kind::Unit => scaled(s, -1, 0),
        Kind::Grid => scaled(s, -12, 12),
        Kind::Wide => scaled(s, -1022, 1023),
        Kind::TinyPivots => scaled(s, -500, -496),
        Kind::Specials => special(s),
        Kind::Patterns => f64::from_bits(s.bits()),
        Kind::Edges => edge(s),
        Kind::Around(e) => scaled(s, e - 3, e + 3),
    }
}

// now and then not finite
fn special(s: &mut Source) -> f64 {
    let x = s.pick(&SPECIALS);
    if x.is_finite() || s.one_in(16) {
        x
    } else {
        special(s)
    }
}

// an edge or a neighbour of it, mostly a finite one
fn edge(s: &mut Source) -> f64 {
    let bits = s.pick(&EDGES).to_bits() + 1;
    let near = f64::from_bits(bits - s.below(3).min(bits as usize) as u64);
    let x = if near.is_finite() || s.one_in(16) {
        near
    } else {
        f64::MAX
    };
    signed(s, x)
}

pub fn reals(s: &mut Source, kind: Kind, count: usize) -> Vec<f64> {
    (0..count).map(|_| real(s, kind)).collect()
}

// mostly numbers of a grid, now and then one of any kind
pub fn kind(s: &mut Source) -> Kind {
    if s.one_in(3) {
        Kind::Grid
    } else {
        s.pick(&KINDS)
    }
}
