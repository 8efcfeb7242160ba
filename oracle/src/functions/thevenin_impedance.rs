// thevenin_impedance(rec, y, bus_i, bus_j, work, z_re, z_im)
use super::reducer::{self, Record};
use crate::ask::{ask, watched, Asked};
use crate::call::{dirty, Call, Function};
use crate::eliminated;
use crate::elimination::{identity, Solver};
use crate::expected::Expected;
use crate::finite::{cadd, cmul, csub, Stop};
use crate::source::Source;
use crate::words::{words_of_pairs, Pair};
use reference::reduction::reach;

const Y: usize = 1;
const WORK: usize = 2;
// real, then imaginary
const Z: usize = 3;

pub fn of(rec: Vec<u8>, y: Vec<u8>, bus_i: u32, bus_j: u32) -> Call {
    let work = dirty(2 * (y.len() / 8));
    Call {
        function: Function::TheveninImpedance,
        wholes: vec![bus_i.into(), bus_j.into()],
        reals: Vec::new(),
        slices: vec![rec, y, work, dirty(1), dirty(1)],
    }
}

pub fn expected(call: &Call) -> Expected {
    let refusals = reducer::refused(call, false, |made| {
        call.holds(Y, reducer::square(made)) && call.holds(WORK, 2 * reducer::square(made))
    });
    let asked = match reducer::reducer(call) {
        None => Asked::NotAsked,
        Some((before, r)) => {
            let [i, j] = rows(call, &before);
            let asked = ask(|| r.thevenin_impedance(i, j));
            watched(&refusals, asked, || reducer::watched_copy(&r).thevenin_impedance(i, j)).0
        }
    };
    eliminated::by_pivots(
        call,
        &refusals,
        asked,
        || model(call),
        WORK,
        |e, z| e.singles(Z, &words_of_pairs(&[z])),
    )
}

// the rows of the two buses
fn rows(call: &Call, before: &Record) -> [usize; 2] {
    [0, 1].map(|i| before.row(call.wholes[i] as u32))
}

fn model(call: &Call) -> Option<impl Fn(&mut Solver) -> Result<Pair, Stop>> {
    let (before, r) = reducer::reducer(call)?;
    let at = |row: usize| reach::active(&r).iter().position(|&active| active == row);
    let [i, j] = rows(call, &before).map(at);
    let (i, j) = (i?, j?);
    let y = r.reduced_matrix();
    Some(move |solver: &mut Solver| {
        let z = solver.solutions(&y, &identity(y.len()))?;
        csub(cadd(z[i][i], z[j][j])?, cmul((2.0, 0.0), z[i][j])?)
    })
}

pub fn random(s: &mut Source, made: usize) -> Call {
    let drawn = reducer::random(s, made);
    let (i, j) = (drawn.bus(s, &drawn.left), drawn.bus(s, &drawn.left));
    of(drawn.rec, drawn.y, i, j)
}
