// eliminate_bus(rec, y, bus)
use super::reducer::{self, Model};
use crate::ask::{ask, watched, Asked};
use crate::call::{Call, Function};
use crate::expected::{self, Expected};
use crate::source::Source;

const REC: usize = 0;
const Y: usize = 1;

pub fn of(rec: Vec<u8>, y: Vec<u8>, bus: u32) -> Call {
    Call {
        function: Function::EliminateBus,
        wholes: vec![bus.into()],
        reals: Vec::new(),
        slices: vec![rec, y],
    }
}

pub fn expected(call: &Call) -> Expected {
    let refusals = reducer::refused(call, false, |made| call.holds(Y, reducer::square(made)));
    let Some((before, mut r)) = reducer::reducer(call) else {
        return expected::expected(call, &refusals, Asked::<()>::NotAsked, None, |e, _| e);
    };
    let row = before.row(call.wholes[0] as u32);
    let (mut copy, mut model) = (reducer::watched_copy(&r), Model::of(&r));
    let asked = ask(|| r.eliminate_bus(row).map(|_| (before, r)));
    let (asked, _) = watched(&refusals, asked, || copy.eliminate_bus(row));
    expected::by_work(
        call,
        &refusals,
        asked,
        || model.remove(row),
        |e, (before, r)| {
            let (rec, y) = reducer::left(&before, call.count(Y), &r);
            e.bytes(REC, rec).words(Y, y)
        },
    )
}

pub fn random(s: &mut Source, made: usize) -> Call {
    let drawn = reducer::random(s, made);
    let bus = drawn.bus(s, &drawn.left);
    of(drawn.rec, drawn.y, bus)
}
