// solve_linear(n, a, b, allowance, x, work, rows_reduced)
use super::{ASKED, LIMIT};
use crate::allowances::NONE;
use crate::ask::{ask, watched, Asked};
use crate::call::{dirty, Call, Function};
use crate::eliminated;
use crate::elimination::{Rule, Solver};
use crate::expected::{faults, numbers_in, then_given, Expected};
use crate::finite::Stop;
use crate::matrices::matrix;
use crate::numbers::{kind, reals};
use crate::source::Source;
use crate::words::{bytes_of_reals, pairs_of, rows_of, words_of_pairs};
use reference::reduction::WardEquivalent;
use reference::watched as copy;

const A: usize = 0;
const B: usize = 1;
const X: usize = 2;
const WORK: usize = 3;

pub fn of(n: usize, a: &[f64], b: &[f64]) -> Call {
    Call {
        function: Function::SolveLinear,
        wholes: vec![n as u64, NONE],
        reals: Vec::new(),
        slices: vec![
            bytes_of_reals(a),
            bytes_of_reals(b),
            dirty(2 * n),
            dirty(2 * n * (n + 1)),
            dirty(1),
        ],
    }
}

pub fn expected(call: &Call) -> Expected {
    let n = call.size();
    let wide = n as u128;
    let lengths = call.holds(A, 2 * wide * wide) && call.holds(X, 2 * wide) && call.holds(WORK, 2 * wide * (wide + 1));
    let refusals = faults(&[
        (1, n > LIMIT),
        (2, !lengths),
        (5, n == 0 || call.count(B) as u128 != 2 * wide),
    ]);
    let system = || (rows_of(&call.slices[A], n, n), right_side(call));
    let asked = if n > ASKED {
        Asked::NotAsked
    } else {
        let (a, b) = system();
        ask(|| WardEquivalent::solve_linear(&a, &b))
    };
    let refusals = then_given(refusals, numbers_in(call, &[A, B]));
    let asked = watched(&refusals, asked, || {
        let (a, b) = system();
        copy::WardEquivalent::solve_linear(&copy::rows(&a), &copy::pairs(&b))
    });
    let model = || {
        let (a, b) = system();
        Some(move |solver: &mut Solver| solver.solution(&a, &b))
    };
    eliminated::by_rows(call, &refusals, asked, model, WORK, |e, x| {
        e.words(X, words_of_pairs(&x))
    })
}

// the row reductions until the work of a sound call ends, and the most
pub fn reductions(call: &Call) -> (u64, u64) {
    let n = call.size();
    let mut solver = Solver::new(Rule::First, NONE);
    let _ = solver.solution(&rows_of(&call.slices[A], n, n), &right_side(call));
    (solver.reduced, (n * n - n) as u64)
}

// whether a call that is refused with 20 meets it left of a pivot alone
pub fn left_alone(call: &Call) -> bool {
    let n = call.size();
    let mut solver = Solver::new(Rule::First, call.allowance()).from_pivots();
    let end = solver.solution(&rows_of(&call.slices[A], n, n), &right_side(call));
    end != Err(Stop::NotFinite)
}

// half a complex number too many is one too many, half a one missing is one missing
fn right_side(call: &Call) -> Vec<(f64, f64)> {
    let mut b = pairs_of(&call.slices[B]);
    if call.count(B) % 2 == 1 && b.len() >= call.size() {
        b.push((0.0, 0.0));
    }
    b
}

pub fn random(s: &mut Source, n: usize) -> Call {
    let a = matrix(s, n);
    let kind = kind(s);
    let b = if s.one_in(4) {
        vec![0.0; 2 * n]
    } else {
        reals(s, kind, 2 * n)
    };
    of(n, &a, &b)
}
