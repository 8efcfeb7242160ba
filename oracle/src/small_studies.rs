// Ward studies that show document 02's 19 and 20 (P9), with the number that each must answer.
use crate::allowances::NONE;
use crate::buses::rows;
use crate::functions::ward::Study;
use crate::functions::{ward_compute, ward_compute_extended};
use crate::numbers::two_to;
use crate::small::entries;
use crate::small_finite::Visit;

const MAX: f64 = f64::MAX;
const INF: f64 = f64::INFINITY;
const NAN: f64 = f64::NAN;

// the last buses are external, those before them at the boundary
fn study(y: &[f64], external: usize, change: impl FnOnce(&mut Study)) -> Study {
    let n = y.len().isqrt();
    let buses = rows(n);
    let (boundary, rest) = buses.split_at(n - external);
    let mut study = Study {
        n,
        y: entries(y),
        numbers: rows(n),
        internal: vec![],
        external: rest.to_vec(),
        boundary: boundary.to_vec(),
        base: 100.0,
        p: vec![50.0; external],
        q: vec![-25.0; external],
        v: vec![1.25; external],
    };
    change(&mut study);
    study
}

const GRID: [f64; 4] = [1.0, -1.0, -1.0, 2.0];
const FULL: [f64; 9] = [5.0, 1.0, 1.0, 1.0, 2.0, 1.0, 1.0, 1.0, 2.0];

fn both(visit: Visit, study: &Study, allowance: u64, number: u32) {
    visit(ward_compute::of(study).allowing(allowance), number);
    visit(ward_compute_extended::of(study).allowing(allowance), number);
}

fn given(visit: Visit) {
    both(visit, &study(&GRID, 1, |s| s.y[7] = NAN), 0, 19);
    both(visit, &study(&GRID, 1, |s| s.base = -INF), 0, 19);
    both(visit, &study(&GRID, 1, |s| s.p[0] = INF), 0, 19);
    both(visit, &study(&GRID, 1, |s| s.q[0] = NAN), 0, 19);
    // of a bus in no list, and a base that nothing is divided by
    both(
        visit,
        &study(&[1.0, 0.0, 0.0, INF], 0, |s| s.boundary.truncate(1)),
        0,
        19,
    );
    both(visit, &study(&GRID, 0, |s| s.base = NAN), 0, 19);
    both(visit, &study(&GRID, 0, |s| s.base = 0.0), 0, 0);
    // told last, and before the work
    both(visit, &study(&[INF; 4], 0, |s| s.numbers = vec![1, 1]), 0, 7);
    both(visit, &study(&[INF; 4], 0, |s| s.boundary = vec![1, 1]), 0, 8);
    both(visit, &study(&[NAN, 0.0, 0.0, 0.0], 1, |_| ()), 0, 19);
    let voltage = study(&GRID, 1, |s| s.v[0] = -INF);
    visit(ward_compute::of(&voltage), 0);
    visit(ward_compute_extended::of(&voltage), 19);
}

fn computed(visit: Visit) {
    // the currents come after the retained buses' solves
    let baseless = study(&FULL, 2, |s| s.base = 0.0);
    both(visit, &baseless, 1, 18);
    both(visit, &baseless, 2, 20);
    both(visit, &study(&FULL, 2, |_| ()), 4, 0);
    let singular = study(&[1.0; 9], 2, |s| s.base = 0.0);
    both(visit, &singular, 0, 18);
    both(visit, &singular, 1, 13);
    // no bus is retained: the currents come first
    let alone = |base| study(&[2.0, 1.0, 1.0, 2.0], 2, |s| s.base = base);
    both(visit, &alone(0.0), 0, 20);
    both(visit, &alone(1.0), 1, 18);
    both(visit, &alone(1.0), 2, 0);
    // an entry of the equivalent, a current, an injection
    both(visit, &study(&[1.0, two_to(600), two_to(600), 1.0], 1, |_| ()), 0, 20);
    let current = |p| study(&[1.0; 4], 1, |s| (s.base, s.p[0]) = (1e-300, p));
    both(visit, &current(1e5), 0, 0);
    both(visit, &current(1e9), 0, 20);
    let injection = |p| study(&[1.0, 1e9, 1.0, 1.0], 1, |s| (s.base, s.p[0]) = (1e300, p));
    both(visit, &injection(1e298), 0, 0);
    both(visit, &injection(1e308), 0, 20);
}

fn corrections(visit: Visit) {
    // a weight times a deviation, and a weight's square
    let far = study(&[1.0, 2.0, 2.0, 2.0], 1, |s| s.v[0] = 1.7e308);
    let heavy = study(&[1.0, two_to(512), 0.0, 1.0], 1, |s| s.v[0] = 1.0);
    for study in [far, heavy] {
        visit(ward_compute::of(&study), 0);
        visit(ward_compute_extended::of(&study), 20);
    }
    // after the study
    let late = |y_ee: [f64; 4]| {
        let y = [1.0, 1.0, 1.0, 0.0, y_ee[0], y_ee[1], 0.0, y_ee[2], y_ee[3]];
        ward_compute_extended::of(&study(&y, 2, |s| s.v = vec![MAX, MAX]))
    };
    visit(late([2.0, 1.0, 1.0, 2.0]).allowing(4), 20);
    visit(late([2.0, 1.0, 1.0, 2.0]).allowing(3), 18);
    visit(late([1.0, 0.0, 0.0, 0.0]).allowing(NONE), 13);
}

pub fn finite(visit: Visit) {
    given(visit);
    computed(visit);
    corrections(visit);
}
