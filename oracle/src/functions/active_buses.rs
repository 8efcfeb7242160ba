// active_buses(rec, buses, count)
use super::reducer::{self, Record};
use super::ASKED;
use crate::ask::{ask, Asked};
use crate::buses;
use crate::call::{dirty, dirty_bytes, Call, Function};
use crate::elimination::identity;
use crate::expected::{self, faults, Expected};
use crate::source::Source;
use crate::words::bytes_of_buses;
use reference::reduction::{reach, KronReducer};

const REC: usize = 0;
const BUSES: usize = 1;
const COUNT: usize = 2;

pub fn of(rec: Vec<u8>, made: usize) -> Call {
    Call {
        function: Function::ActiveBuses,
        wholes: Vec::new(),
        reals: Vec::new(),
        slices: vec![rec, dirty_bytes(4 * made), dirty(1)],
    }
}

// the rows of the Rust's reducer of so many buses after the removals that leave these
fn left(made: usize, active: &[usize]) -> Asked<Vec<usize>> {
    let gone: Vec<usize> = (0..made).filter(|bus| !active.contains(bus)).collect();
    let mut r = KronReducer::new(made, identity(made));
    ask(|| r.eliminate_buses(&gone).map(|_| reach::active(&r).to_vec()))
}

// the numbers of these rows, with 0 behind
fn numbers(r: &Record, rows: &[usize], length: usize) -> Vec<u8> {
    let mut buses: Vec<u32> = rows.iter().map(|&row| r.numbers()[row]).collect();
    buses.resize(length, 0);
    bytes_of_buses(&buses)
}

pub fn expected(call: &Call) -> Expected {
    let refusals = faults(&reducer::refusals(call, false, |made| call.holds(BUSES, made)));
    let asked = match reducer::record(call, REC) {
        Some(r) if r.sound() && r.made <= ASKED => left(r.made, r.active()).map(|rows| (r, rows)),
        _ => Asked::NotAsked,
    };
    expected::expected(call, &refusals, asked, None, |e, (r, rows)| {
        e.words(COUNT, vec![rows.len() as u64])
            .bytes(BUSES, numbers(&r, &rows, call.count(BUSES)))
    })
}

pub fn random(s: &mut Source, made: usize) -> Call {
    let numbers = buses::numbers(s, made);
    let active = reducer::some(s, made);
    of(reducer::bytes(&numbers, &active), made)
}
