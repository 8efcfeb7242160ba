// build_b_bus(n, branch_from, branch_to, branch_x, b)
use super::{ASKED, LIMIT};
use crate::ask::{ask, watched, Asked, Manner};
use crate::call::{dirty, Call, Function};
use crate::expected::{self, faults, numbers_in, then_given, Expected};
use crate::numbers::{kind, real, Kind};
use crate::source::Source;
use crate::words::{bytes_of, bytes_of_reals, reals_of, wholes_of, words_of_reals, words_of_wholes};
use reference::reduction;
use reference::watched as copy;

const FROM: usize = 0;
const TO: usize = 1;
const X: usize = 2;
const B: usize = 3;

pub fn of(n: usize, from: &[usize], to: &[usize], x: &[f64]) -> Call {
    let list = |xs: &[usize]| bytes_of(&words_of_wholes(xs));
    Call {
        function: Function::BuildBBus,
        wholes: vec![n as u64],
        reals: Vec::new(),
        slices: vec![list(from), list(to), bytes_of_reals(x), dirty(n * n)],
    }
}

pub fn expected(call: &Call) -> Expected {
    let n = call.size();
    let (from, to, x) = (
        wholes_of(&call.slices[FROM]),
        wholes_of(&call.slices[TO]),
        reals_of(&call.slices[X]),
    );
    let long = (FROM..=X).any(|i| call.count(i) > LIMIT);
    let unequal = call.count(TO) != call.count(FROM) || call.count(X) != call.count(FROM);
    let outside = |bus: &usize| *bus >= n;
    let refusals = faults(&[
        (1, n > LIMIT || long),
        (2, !call.holds(B, n as u128 * n as u128)),
        (3, unequal),
        (6, from.iter().any(outside) || to.iter().any(outside)),
    ]);
    let refusals = then_given(refusals, numbers_in(call, &[X]));
    let asked = if n > ASKED {
        Asked::NotAsked
    } else {
        ask(|| Ok(reduction::build_b_bus(n, &from, &to, &x)))
    };
    let (asked, _) = watched(&refusals, asked, || {
        Ok(copy::build_b_bus(n, &from, &to, &copy::numbers(&x)))
    });
    let manner = asked.manner();
    let e = expected::expected(call, &refusals, asked, None, |e, b| {
        e.words(B, words_of_reals(&b.concat()))
    });
    // a branch that the Rust skips is the only one whose end it does not look up
    let looked_up =
        (0..x.len().min(from.len()).min(to.len())).any(|k| !(x[k].abs() < 1e-12) && (from[k] >= n || to[k] >= n));
    if refusals == [6] && (manner == Manner::Panics) != looked_up {
        return e.failing("a missing branch end, and the Rust does not do what is listed");
    }
    e
}

pub fn random(s: &mut Source, n: usize) -> Call {
    let m = if n == 0 { 0 } else { s.below((2 * n).min(LIMIT) + 1) };
    let ends = |s: &mut Source| (0..m).map(|_| s.below(n)).collect::<Vec<_>>();
    let (from, to) = (ends(s), ends(s));
    let kind = kind(s);
    let x: Vec<f64> = (0..m)
        .map(|_| {
            if s.one_in(8) {
                real(s, Kind::Specials)
            } else {
                real(s, kind)
            }
        })
        .collect();
    of(n, &from, &to, &x)
}
