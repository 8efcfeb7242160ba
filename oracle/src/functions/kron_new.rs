// kron_new(n, y, numbers, rec)
use super::reducer::{self, RECORD};
use super::{ASKED, LIMIT};
use crate::ask::{ask, Asked};
use crate::buses::{numbers, repeats};
use crate::call::{dirty_bytes, Call, Function};
use crate::expected::{self, faults, numbers_in, then_given, Expected};
use crate::matrices::matrix;
use crate::source::Source;
use crate::words::{buses_of, bytes_of_buses, bytes_of_reals, rows_of};
use reference::reduction::{reach, KronReducer};

const Y: usize = 0;
const NUMBERS: usize = 1;
const REC: usize = 2;

pub fn of(n: usize, y: &[f64], numbers: &[u32]) -> Call {
    Call {
        function: Function::KronNew,
        wholes: vec![n as u64],
        reals: Vec::new(),
        slices: vec![bytes_of_reals(y), bytes_of_buses(numbers), dirty_bytes(RECORD)],
    }
}

pub fn expected(call: &Call) -> Expected {
    let n = call.size();
    let numbers = buses_of(&call.slices[NUMBERS]);
    let lengths = call.holds(Y, 2 * n as u128 * n as u128) && numbers.len() == n && call.holds(REC, RECORD as u128);
    let refusals = faults(&[
        (1, n > LIMIT || numbers.len() > LIMIT),
        (2, !lengths),
        (8, repeats(&numbers)),
    ]);
    let refusals = then_given(refusals, numbers_in(call, &[Y]));
    let asked = if n > ASKED {
        Asked::NotAsked
    } else {
        ask(|| Ok(KronReducer::new(n, rows_of(&call.slices[Y], n, n))))
    };
    expected::expected(call, &refusals, asked, None, |e, r| {
        e.bytes(REC, reducer::bytes(&numbers, reach::active(&r)))
    })
}

pub fn random(s: &mut Source, n: usize) -> Call {
    let y = matrix(s, n);
    of(n, &y, &numbers(s, n))
}
