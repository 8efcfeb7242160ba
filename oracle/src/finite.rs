// The arithmetic of the models: it ends at the first number that is not finite, also one on the way (document 02, P9).
use crate::call::Function;
use crate::words::Pair;

pub const TINY: f64 = 1e-300;

// What ends the work of a call before it is done.
#[derive(Clone, Copy, Debug, PartialEq)]
pub enum Stop {
    // 11: the reducer has no such bus
    Absent,
    // 12 or 13: a bus's own entry or a chosen pivot is too small
    Small,
    // 18: the next row reduction would exceed the allowance (P8)
    Beyond,
    // 20
    NotFinite,
}

impl Stop {
    pub fn number(self, function: Function) -> u32 {
        match self {
            Stop::Absent => 11,
            Stop::Small if matches!(function, Function::EliminateBus | Function::EliminateBuses) => 12,
            Stop::Small => 13,
            Stop::Beyond => 18,
            Stop::NotFinite => 20,
        }
    }
}

// a number computed
pub fn met(x: f64) -> Result<f64, Stop> {
    if x.is_finite() {
        Ok(x)
    } else {
        Err(Stop::NotFinite)
    }
}

pub fn cadd(a: Pair, b: Pair) -> Result<Pair, Stop> {
    Ok((met(a.0 + b.0)?, met(a.1 + b.1)?))
}

pub fn csub(a: Pair, b: Pair) -> Result<Pair, Stop> {
    Ok((met(a.0 - b.0)?, met(a.1 - b.1)?))
}

pub fn cmul(a: Pair, b: Pair) -> Result<Pair, Stop> {
    Ok((
        met(met(a.0 * b.0)? - met(a.1 * b.1)?)?,
        met(met(a.0 * b.1)? + met(a.1 * b.0)?)?,
    ))
}

// the squared magnitude
pub fn sqmag(a: Pair) -> Result<f64, Stop> {
    met(met(a.0 * a.0)? + met(a.1 * a.1)?)
}

// by a divisor that is too small the Rust's is (inf, inf)
pub fn cdiv(a: Pair, b: Pair) -> Result<Pair, Stop> {
    let d = sqmag(b)?;
    if d < TINY {
        return Err(Stop::NotFinite);
    }
    Ok((
        met(met(met(a.0 * b.0)? + met(a.1 * b.1)?)? / d)?,
        met(met(met(a.1 * b.0)? - met(a.0 * b.1)?)? / d)?,
    ))
}

pub fn magnitude(a: Pair) -> Result<f64, Stop> {
    met(sqmag(a)?.sqrt())
}
