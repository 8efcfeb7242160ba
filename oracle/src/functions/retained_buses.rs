// retained_buses(n, interior, retained, count)
use super::{ASKED, LIMIT};
use crate::ask::{ask, Asked};
use crate::call::{dirty, Call, Function};
use crate::expected::{self, faults, Expected};
use crate::source::Source;
use crate::words::{bytes_of, padded, wholes_of, words_of_wholes};
use reference::reduction;

const INTERIOR: usize = 0;
const RETAINED: usize = 1;
const COUNT: usize = 2;

pub fn of(n: usize, interior: &[usize]) -> Call {
    Call {
        function: Function::RetainedBuses,
        wholes: vec![n as u64],
        reals: Vec::new(),
        slices: vec![bytes_of(&words_of_wholes(interior)), dirty(n), dirty(1)],
    }
}

pub fn expected(call: &Call) -> Expected {
    let n = call.size();
    let long = call.count(INTERIOR) > LIMIT;
    let refusals = faults(&[(1, n > LIMIT || long), (2, !call.holds(RETAINED, n as u128))]);
    let interior = wholes_of(&call.slices[INTERIOR]);
    let asked = if n > ASKED {
        Asked::NotAsked
    } else {
        ask(|| Ok(reduction::retained_buses(n, &interior)))
    };
    expected::expected(call, &refusals, asked, None, |e, kept| {
        e.words(COUNT, vec![kept.len() as u64])
            .words(RETAINED, padded(words_of_wholes(&kept), n))
    })
}

pub fn random(s: &mut Source, n: usize) -> Call {
    let count = if s.one_in(10) {
        s.below(LIMIT + 1)
    } else {
        s.below(n.min(LIMIT - 2) + 2)
    };
    let interior: Vec<usize> = (0..count)
        .map(|_| {
            if s.one_in(20) {
                s.bits() as usize
            } else {
                s.below(n + 2)
            }
        })
        .collect();
    of(n, &interior)
}
