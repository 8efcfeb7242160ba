// eliminate_buses(rec, y, buses, removed): removed is written on 11, 12 and 20 too
use super::reducer::{self, Model, Record};
use super::LIMIT;
use crate::ask::{ask, Asked, Kind};
use crate::call::{dirty, Call, Function};
use crate::expected::{self, Expected};
use crate::source::Source;
use crate::words::{buses_of, bytes_of_buses};
use reference::error::OxiGridError;
use reference::reduction::{reach, KronReducer};
use reference::watched as copy;

const REC: usize = 0;
const Y: usize = 1;
const BUSES: usize = 2;
const REMOVED: usize = 3;

pub fn of(rec: Vec<u8>, y: Vec<u8>, buses: &[u32]) -> Call {
    Call {
        function: Function::EliminateBuses,
        wholes: Vec::new(),
        reals: Vec::new(),
        slices: vec![rec, y, bytes_of_buses(buses), dirty(1)],
    }
}

// the number of the first refusal
fn number(removals: impl FnOnce() -> Result<(), OxiGridError>) -> u32 {
    match ask(removals) {
        Asked::Accepts(()) => 0,
        Asked::Errs(Kind::InvalidParameter) => 11,
        Asked::Errs(Kind::LinearAlgebra) => 12,
        Asked::NotFinite => 20,
        _ => u32::MAX,
    }
}

struct Removed {
    number: u32,
    count: usize,
    before: Record,
    // by the Rust
    left: KronReducer,
    // the watched copy, or the model, ends otherwise
    unlike: bool,
}

// The Rust goes on where its watched copy ends, so it is asked for the removals before that alone.
fn removed(before: Record, mut r: KronReducer, rows: &[usize]) -> Removed {
    let (count, end) = Model::of(&r).remove_all(rows);
    let by_model = end.map_or_else(|stop| stop.number(Function::EliminateBuses), |()| 0);
    let mut watched = reducer::watched_copy(&r);
    let (by_copy, _) = copy::watching(|| number(|| watched.eliminate_buses(rows)));
    let until = if by_model == 20 { count } else { rows.len() };
    let own = number(|| r.eliminate_buses(&rows[..until]));
    let expected_own = if by_model == 20 { 0 } else { by_model };
    let counts = [reach::active(&r).len(), copy::reach::active(&watched).len()].map(|left| before.n_buses - left);
    Removed {
        number: by_model,
        count,
        unlike: by_copy != by_model || own != expected_own || counts != [count, count],
        before,
        left: r,
    }
}

pub fn expected(call: &Call) -> Expected {
    let long = call.count(BUSES) > LIMIT;
    let refusals = reducer::refused(call, long, |made| call.holds(Y, reducer::square(made)));
    let asked = match reducer::reducer(call) {
        Some((before, r)) if refusals.is_empty() => {
            let buses = buses_of(&call.slices[BUSES]);
            let rows: Vec<usize> = buses.into_iter().map(|bus| before.row(bus)).collect();
            Asked::Accepts(removed(before, r, &rows))
        }
        _ => Asked::NotAsked,
    };
    expected::expected(call, &refusals, asked, None, |mut e, removed| {
        e.number = removed.number;
        e = e.words(REMOVED, vec![removed.count as u64]);
        if removed.unlike {
            e.failing("the Rust, its watched copy and the model do not end alike")
        } else if removed.count > 0 {
            let (rec, y) = reducer::left(&removed.before, call.count(Y), &removed.left);
            e.bytes(REC, rec).words(Y, y)
        } else {
            e
        }
    })
}

pub fn random(s: &mut Source, made: usize) -> Call {
    let drawn = reducer::random(s, made);
    let most = if s.one_in(4) { made + 1 } else { 3 };
    let mut left = drawn.left.clone();
    let mut buses = Vec::new();
    for _ in 0..s.below(most + 1).min(LIMIT) {
        let from = if s.one_in(4) { &drawn.left } else { &left };
        let bus = drawn.bus(s, from);
        left.retain(|&b| b != bus);
        buses.push(bus);
    }
    of(drawn.rec, drawn.y, &buses)
}
