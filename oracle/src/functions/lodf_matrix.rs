// lodf_matrix(n, ptdf, branch_from, branch_to, lodf)
use super::{ASKED, LIMIT};
use crate::ask::{ask, watched, Asked, Manner};
use crate::call::{dirty, Call, Function};
use crate::expected::{self, faults, numbers_in, then_given, Expected};
use crate::finite::{met, Stop};
use crate::numbers::{kind, reals, Kind};
use crate::source::Source;
use crate::words::{bytes_of, bytes_of_reals, real_rows_of, wholes_of, words_of_reals, words_of_wholes};
use reference::reduction;
use reference::watched as copy;

const PTDF: usize = 0;
const FROM: usize = 1;
const TO: usize = 2;
const LODF: usize = 3;

pub fn of(n: usize, ptdf: &[f64], from: &[usize], to: &[usize]) -> Call {
    let list = |xs: &[usize]| bytes_of(&words_of_wholes(xs));
    let m = from.len();
    Call {
        function: Function::LodfMatrix,
        wholes: vec![n as u64],
        reals: Vec::new(),
        slices: vec![bytes_of_reals(ptdf), list(from), list(to), dirty(m * m)],
    }
}

// of every two branches; a lone one computes nothing
fn model(t: &[Vec<f64>], from: &[usize], to: &[usize]) -> Result<(), Stop> {
    for l in 0..t.len() {
        for k in (0..t.len()).filter(|&k| k != l) {
            let across = |branch: usize| met(t[branch][from[k]] - t[branch][to[k]]);
            let rest = met(1.0 - across(k)?)?;
            if !(rest.abs() < 1e-12) {
                met(across(l)? / rest)?;
            }
        }
    }
    Ok(())
}

pub fn expected(call: &Call) -> Expected {
    let n = call.size();
    let m = call.count(FROM);
    let (from, to) = (wholes_of(&call.slices[FROM]), wholes_of(&call.slices[TO]));
    let wide = m as u128;
    let outside = |bus: &usize| *bus >= n;
    let missing = from.iter().any(outside) || to.iter().any(outside);
    let refusals = faults(&[
        (1, n > LIMIT || m > LIMIT || call.count(TO) > LIMIT),
        (2, !call.holds(PTDF, wide * n as u128) || !call.holds(LODF, wide * wide)),
        (3, call.count(TO) != m),
        (6, missing),
    ]);
    let refusals = then_given(refusals, numbers_in(call, &[PTDF]));
    let too_large = n > ASKED || m > ASKED;
    let rows = if too_large { 0 } else { m };
    let t = real_rows_of(&call.slices[PTDF], rows, n);
    let asked = if too_large {
        Asked::NotAsked
    } else {
        ask(|| Ok(reduction::lodf_matrix(&t, &from, &to)))
    };
    let (asked, _) = watched(&refusals, asked, || {
        let rows: Vec<_> = t.iter().map(|row| copy::numbers(row)).collect();
        Ok(copy::lodf_matrix(&rows, &from, &to))
    });
    let manner = asked.manner();
    let e = expected::by_work(
        call,
        &refusals,
        asked,
        || model(&t, &from, &to),
        |e, l| e.words(LODF, words_of_reals(&l.concat())),
    );
    // the ends of a branch are looked up only where there is another branch
    if refusals == [6] && (manner == Manner::Panics) != (m > 1) {
        return e.failing("a missing branch end, and the Rust does not do what is listed");
    }
    e
}

pub fn random(s: &mut Source, n: usize) -> Call {
    let m = if n == 0 { 0 } else { s.below((n + 3).min(LIMIT) + 1) };
    let ends = |s: &mut Source| (0..m).map(|_| s.below(n)).collect::<Vec<_>>();
    let (from, to) = (ends(s), ends(s));
    let kind = if s.one_in(3) { Kind::Unit } else { kind(s) };
    let ptdf = reals(s, kind, m * n);
    of(n, &ptdf, &from, &to)
}
