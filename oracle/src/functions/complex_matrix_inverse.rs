// complex_matrix_inverse(n, mat, inverse, work)
use super::{ASKED, LIMIT};
use crate::ask::{ask, watched, Asked};
use crate::call::{dirty, Call, Function};
use crate::eliminated;
use crate::elimination::{identity, Solver};
use crate::expected::{faults, numbers_in, then_given, Expected};
use crate::matrices::matrix;
use crate::source::Source;
use crate::words::{bytes_of_reals, rows_of, words_of_rows};
use reference::reduction::reach;
use reference::watched as copy;

const MAT: usize = 0;
const INVERSE: usize = 1;
const WORK: usize = 2;

pub fn of(n: usize, mat: &[f64]) -> Call {
    Call {
        function: Function::ComplexMatrixInverse,
        wholes: vec![n as u64],
        reals: Vec::new(),
        slices: vec![bytes_of_reals(mat), dirty(2 * n * n), dirty(4 * n * n)],
    }
}

pub fn expected(call: &Call) -> Expected {
    let n = call.size();
    let square = 2 * n as u128 * n as u128;
    let lengths = call.holds(MAT, square) && call.holds(INVERSE, square) && call.holds(WORK, 2 * square);
    let refusals = faults(&[(1, n > LIMIT), (2, !lengths), (5, n == 0)]);
    let asked = if n > ASKED {
        Asked::NotAsked
    } else {
        ask(|| reach::complex_matrix_inverse(&rows_of(&call.slices[MAT], n, n)))
    };
    let refusals = then_given(refusals, numbers_in(call, &[MAT]));
    let (asked, _) = watched(&refusals, asked, || {
        copy::reach::complex_matrix_inverse(&copy::rows(&rows_of(&call.slices[MAT], n, n)))
    });
    let model = || {
        let mat = rows_of(&call.slices[MAT], n, n);
        Some(move |solver: &mut Solver| solver.solutions(&mat, &identity(n)))
    };
    eliminated::by_pivots(call, &refusals, asked, model, WORK, |e, z| {
        e.words(INVERSE, words_of_rows(&z))
    })
}

pub fn random(s: &mut Source, n: usize) -> Call {
    let mat = matrix(s, n);
    of(n, &mat)
}
