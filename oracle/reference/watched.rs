// The copy of reduction.rs, which oracle/build makes, on numbers that end the work at the first result that is not finite.
use std::cell::Cell;
use std::iter::Sum;
use std::ops::{Add, AddAssign, Div, Mul, Neg, Sub, SubAssign};
use std::panic::panic_any;

include!(env!("JETURIPE_WATCHED_RS"));

#[derive(Clone, Copy, Debug, PartialEq, PartialOrd)]
pub struct W(pub f64);

// what a watched run ends with, as a panic
pub struct NotFinite;

thread_local! {
    static ROWS: Cell<u64> = const { Cell::new(0) };
}

fn met(x: f64) -> W {
    if !x.is_finite() {
        panic_any(NotFinite)
    }
    W(x)
}

impl W {
    fn infinity() -> W {
        met(f64::INFINITY)
    }
    fn cast(n: usize) -> W {
        met(n as f64)
    }
    pub fn abs(self) -> W {
        W(self.0.abs())
    }
    pub fn sqrt(self) -> W {
        met(self.0.sqrt())
    }
    fn max(self, other: W) -> W {
        W(self.0.max(other.0))
    }
}

impl Add for W {
    type Output = W;
    fn add(self, other: W) -> W {
        met(self.0 + other.0)
    }
}

impl Sub for W {
    type Output = W;
    fn sub(self, other: W) -> W {
        met(self.0 - other.0)
    }
}

impl Mul for W {
    type Output = W;
    fn mul(self, other: W) -> W {
        met(self.0 * other.0)
    }
}

impl Div for W {
    type Output = W;
    fn div(self, other: W) -> W {
        met(self.0 / other.0)
    }
}

impl Neg for W {
    type Output = W;
    fn neg(self) -> W {
        W(-self.0)
    }
}

impl AddAssign for W {
    fn add_assign(&mut self, other: W) {
        *self = *self + other;
    }
}

impl SubAssign for W {
    fn sub_assign(&mut self, other: W) {
        *self = *self - other;
    }
}

impl<'a> Sum<&'a W> for W {
    fn sum<I: Iterator<Item = &'a W>>(terms: I) -> W {
        terms.fold(W(0.0), |sum, &x| sum + x)
    }
}

fn count_row() {
    ROWS.set(ROWS.get() + 1);
}

// What f answers, and how many rows its solves began to reduce.
pub fn watching<T>(f: impl FnOnce() -> T) -> (T, u64) {
    ROWS.set(0);
    let answer = f();
    (answer, ROWS.get())
}

pub type Pair = (W, W);

pub fn numbers(xs: &[f64]) -> Vec<W> {
    xs.iter().map(|&x| W(x)).collect()
}

pub fn pairs(xs: &[(f64, f64)]) -> Vec<Pair> {
    xs.iter().map(|&(re, im)| (W(re), W(im))).collect()
}

pub fn rows(rows: &[Vec<(f64, f64)>]) -> Vec<Vec<Pair>> {
    rows.iter().map(|row| pairs(row)).collect()
}

// What is private in the copy.
pub mod reach {
    use super::{KronReducer, Pair};

    pub fn cadd(a: Pair, b: Pair) -> Pair {
        super::cadd(a, b)
    }
    pub fn csub(a: Pair, b: Pair) -> Pair {
        super::csub(a, b)
    }
    pub fn cneg(a: Pair) -> Pair {
        super::cneg(a)
    }
    pub fn cmul(a: Pair, b: Pair) -> Pair {
        super::cmul(a, b)
    }
    pub fn cdiv(a: Pair, b: Pair) -> Pair {
        super::cdiv(a, b)
    }
    pub fn complex_matrix_inverse(mat: &[Vec<Pair>]) -> crate::error::Result<Vec<Vec<Pair>>> {
        super::complex_matrix_inverse(mat)
    }

    // A reducer some of whose buses are gone already.
    pub fn reducer(active_buses: Vec<usize>, y_full: Vec<Vec<Pair>>) -> KronReducer {
        KronReducer {
            n_buses: active_buses.len(),
            y_full,
            active_buses,
        }
    }
    pub fn active(r: &KronReducer) -> &[usize] {
        &r.active_buses
    }
}
