// reduced_matrix(rec, y, out)
use super::reducer;
use crate::ask::{ask, Asked};
use crate::call::{dirty, Call, Function};
use crate::expected::{self, Expected};
use crate::source::Source;
use crate::words::{padded, words_of_rows};

const Y: usize = 1;
const OUT: usize = 2;

pub fn of(rec: Vec<u8>, y: Vec<u8>) -> Call {
    let out = dirty(y.len() / 8);
    Call {
        function: Function::ReducedMatrix,
        wholes: Vec::new(),
        reals: Vec::new(),
        slices: vec![rec, y, out],
    }
}

pub fn expected(call: &Call) -> Expected {
    let refusals = reducer::refused(call, false, |made| {
        call.holds(Y, reducer::square(made)) && call.holds(OUT, reducer::square(made))
    });
    let asked = match reducer::reducer(call) {
        None => Asked::NotAsked,
        Some((_, r)) => ask(|| Ok(r.reduced_matrix())),
    };
    expected::expected(call, &refusals, asked, None, |e, rows| {
        e.words(OUT, padded(words_of_rows(&rows), call.count(OUT)))
    })
}

pub fn random(s: &mut Source, made: usize) -> Call {
    let drawn = reducer::random(s, made);
    of(drawn.rec, drawn.y)
}
