// rei_compute(generator_buses, load_buses, y_sub, p_inj, q_inj, next_bus_id,
//     spoke_buses, spokes, tie_buses, ties, rei_bus_id, rei_voltage_pu, rei_p_mw, rei_q_mvar, n_ties)
use super::{ASKED, LIMIT};
use crate::ask::{ask, watched, Asked, Kind, Manner};
use crate::call::{dirty, Call, Function};
use crate::differences::{Difference, Told};
use crate::expected::{self, faults, numbers_in, then_given, Expected};
use crate::finite::{magnitude, met, Stop};
use crate::matrices::matrix;
use crate::numbers::{kind, reals};
use crate::source::Source;
use crate::words::{bytes_of, bytes_of_reals, padded, reals_of, rows_of, wholes_of, word, words_of_wholes};
use reference::reduction::{ReiEquivalent, ReiResult};
use reference::watched as copy;

const GENERATORS: usize = 0;
const LOADS: usize = 1;
const Y_SUB: usize = 2;
const P: usize = 3;
const Q: usize = 4;
const SPOKE_BUSES: usize = 5;
const SPOKES: usize = 6;
const TIE_BUSES: usize = 7;
const TIES: usize = 8;
// the five single answers
const SUMMARY: usize = 9;

pub fn of(generators: &[usize], loads: &[usize], y: &[f64], p: &[f64], q: &[f64], id: u64) -> Call {
    let n = generators.len() + loads.len();
    let pairs = n * n.saturating_sub(1);
    let list = |xs: &[usize]| bytes_of(&words_of_wholes(xs));
    let mut slices = vec![
        list(generators),
        list(loads),
        bytes_of_reals(y),
        bytes_of_reals(p),
        bytes_of_reals(q),
    ];
    slices.extend([n, 2 * n, pairs, pairs, 1, 1, 1, 1, 1].map(dirty));
    Call {
        function: Function::ReiCompute,
        wholes: vec![id],
        reals: Vec::new(),
        slices,
    }
}

fn refusals(call: &Call) -> Vec<u32> {
    let n = (call.count(GENERATORS) + call.count(LOADS)) as u128;
    let pairs = n * n.saturating_sub(1);
    let lengths = call.holds(Y_SUB, 2 * n * n)
        && call.holds(SPOKE_BUSES, n)
        && call.holds(SPOKES, 2 * n)
        && call.holds(TIE_BUSES, pairs)
        && call.holds(TIES, pairs);
    let long = [GENERATORS, LOADS, P, Q].iter().any(|&i| call.count(i) > LIMIT);
    let unmatched = call.count(P) as u128 != n || call.count(Q) as u128 != n;
    let told = faults(&[
        (1, n > LIMIT as u128 || long),
        (2, !lengths),
        (3, unmatched),
        (4, n == 0),
    ]);
    then_given(told, numbers_in(call, &[Y_SUB, P, Q]))
}

fn asked(call: &Call) -> Asked<ReiResult> {
    let n = call.count(GENERATORS) + call.count(LOADS);
    if n > ASKED {
        return Asked::NotAsked;
    }
    let rei = ReiEquivalent {
        generator_buses: wholes_of(&call.slices[GENERATORS]),
        load_buses: wholes_of(&call.slices[LOADS]),
    };
    let (p, q) = (reals_of(&call.slices[P]), reals_of(&call.slices[Q]));
    // all the numbers given, so that the Rust sees rows too many as well
    let rows = rows_of(&call.slices[Y_SUB], usize::MAX.min(n * n + 1), n);
    ask(|| rei.compute(&rows, &p, &q, call.wholes[0] as usize))
}

fn watched_copy(call: &Call) -> reference::error::Result<copy::ReiResult> {
    let rei = copy::ReiEquivalent {
        generator_buses: wholes_of(&call.slices[GENERATORS]),
        load_buses: wholes_of(&call.slices[LOADS]),
    };
    let n = rei.generator_buses.len() + rei.load_buses.len();
    let [p, q] = [P, Q].map(|i| copy::numbers(&reals_of(&call.slices[i])));
    let rows = copy::rows(&rows_of(&call.slices[Y_SUB], n, n));
    rei.compute(&rows, &p, &q, call.wholes[0] as usize)
}

// both sums, then each spoke; a turned tie is no number of its own
fn model(call: &Call) -> Result<(), Stop> {
    for i in [P, Q] {
        reals_of(&call.slices[i]).iter().try_fold(0.0, |sum, x| met(sum + x))?;
    }
    let n = call.count(GENERATORS) + call.count(LOADS);
    for (i, row) in rows_of(&call.slices[Y_SUB], n, n).iter().enumerate() {
        if magnitude(row[i])? > 1e-12 {
            met(row[i].0 / n as f64)?;
            met(row[i].1 / n as f64)?;
        }
    }
    Ok(())
}

// a sum that starts at +0
fn sum(xs: &[f64]) -> f64 {
    xs.iter().fold(0.0, |sum, x| sum + x)
}

fn written(call: &Call, e: Expected, rei: ReiResult) -> Expected {
    let (p, q) = (sum(&reals_of(&call.slices[P])), sum(&reals_of(&call.slices[Q])));
    let buses: Vec<u64> = rei.spoke_admittances.iter().map(|s| s.0 as u64).collect();
    let spokes = rei
        .spoke_admittances
        .iter()
        .flat_map(|s| [word(s.1), word(s.2)])
        .collect();
    let tie_buses = rei
        .tie_admittances
        .iter()
        .flat_map(|t| [t.0 .0 as u64, t.0 .1 as u64])
        .collect();
    let ties = rei
        .tie_admittances
        .iter()
        .flat_map(|t| [word(t.1), word(t.2)])
        .collect();
    let count = rei.tie_admittances.len() as u64;
    let e = e
        .words(SPOKE_BUSES, buses)
        .words(SPOKES, spokes)
        .words(TIE_BUSES, padded(tie_buses, call.count(TIE_BUSES)))
        .words(TIES, padded(ties, call.count(TIES)))
        .singles(
            SUMMARY,
            &[rei.rei_bus_id as u64, word(rei.rei_voltage_pu), word(p), word(q), count],
        );
    if word(p) == word(rei.rei_p_mw) && word(q) == word(rei.rei_q_mvar) {
        e
    } else if agrees(call, P, rei.rei_p_mw, p) && agrees(call, Q, rei.rei_q_mvar, q) {
        e.noting(Difference::ReiSum)
    } else {
        e.failing("an REI sum differs, and not for a list of -0")
    }
}

// only a sum of a list of -0 may differ, and only in its sign
fn agrees(call: &Call, list: usize, got: f64, ours: f64) -> bool {
    let negative = |x: &f64| word(*x) == word(-0.0);
    word(got) == word(ours) || (got == 0.0 && reals_of(&call.slices[list]).iter().all(negative))
}

pub fn expected(call: &Call) -> Expected {
    let refusals = refusals(call);
    let (asked, _) = watched(&refusals, asked(call), || watched_copy(call));
    let manner = asked.manner();
    let mut e = expected::by_work(call, &refusals, asked, || model(call), |e, rei| written(call, e, rei));
    // the Rust refuses a wrong matrix of an REI study itself
    if refusals == [2] && manner == Manner::Errs(Kind::InvalidParameter) {
        e.told = Told::ByReference;
    }
    e
}

pub fn random(s: &mut Source, n: usize) -> Call {
    let generators = s.below(n + 1);
    let ids: Vec<usize> = (0..n)
        .map(|_| if s.one_in(20) { s.bits() as usize } else { s.below(100) })
        .collect();
    let y = matrix(s, n);
    let kind = kind(s);
    let minus = s.one_in(12);
    let (p, q) = if minus {
        (vec![-0.0; n], reals(s, kind, n))
    } else {
        (reals(s, kind, n), reals(s, kind, n))
    };
    let id = if s.one_in(8) { s.bits() } else { n as u64 };
    of(&ids[..generators], &ids[generators..], &y, &p, &q, id)
}
