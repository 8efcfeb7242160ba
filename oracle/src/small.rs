// Every small case: one and two buses with entries from short lists, short lists of branches, conversions.
use crate::allowances;
use crate::buses::rows;
use crate::call::Call;
use crate::functions::ward::Study;
use crate::functions::*;
use crate::header::{Function, Of};
use crate::numbers::{two_to, NANS, SPECIALS};
use crate::small_allowances;
use crate::small_records::{self, fresh};
use crate::words::bytes_of_reals;

// all lists of `count` numbers out of `from`
pub fn each<T: Copy>(from: &[T], count: usize, visit: &mut dyn FnMut(&[T])) {
    let mut at = vec![0; count];
    loop {
        let xs: Vec<T> = at.iter().map(|&i: &usize| from[i]).collect();
        visit(&xs);
        let Some(i) = (0..count).rev().find(|&i| at[i] + 1 < from.len()) else {
            return;
        };
        at[i] += 1;
        at[i + 1..].fill(0);
    }
}

// every call of a matrix of one or two buses, whose numbers are the rows' the other way round
fn on_matrix(n: usize, y: &[f64], visit: &mut dyn FnMut(Call)) {
    let slice = || bytes_of_reals(y);
    let numbers: Vec<u32> = (0..n as u32).rev().collect();
    let (first, last) = (numbers[0], numbers[n - 1]);
    let right: Vec<f64> = (0..2 * n).map(|i| 2.0 - i as f64).collect();
    allowances::each(solve_linear::of(n, y, &right), visit);
    visit(complex_matrix_inverse::of(n, y));
    visit(eliminate_bus::of(fresh(&numbers), slice(), last));
    visit(eliminate_buses::of(fresh(&numbers), slice(), &[first, last]));
    visit(thevenin_impedance::of(fresh(&numbers), slice(), first, last));
    let study = Study {
        n,
        y: y.to_vec(),
        internal: vec![],
        external: vec![last],
        boundary: numbers[..n - 1].to_vec(),
        numbers,
        base: 100.0,
        p: vec![50.0],
        q: vec![-25.0],
        v: vec![1.25],
    };
    visit(ward_compute::of(&study));
    visit(ward_compute_extended::of(&study));
    visit(rei_compute::of(
        &[7],
        &[3][..n - 1],
        y,
        &vec![-0.0; n],
        &vec![1.0; n],
        9,
    ));
}

// both calls of a study, with every allowance
pub fn on_study(study: &Study, visit: &mut dyn FnMut(Call)) {
    allowances::each(ward_compute::of(study), visit);
    allowances::each(ward_compute_extended::of(study), visit);
}

// with no imaginary part
pub fn entries(xs: &[f64]) -> Vec<f64> {
    xs.iter().flat_map(|&x| [x, 0.0]).collect()
}

// the inputs by which docs/DIFFERENCES.md shows the rule for equal pivots
fn equal_pivots(visit: &mut dyn FnMut(Call)) {
    let tied = entries(&[1.0, 1.0, 1.0, 4.0]);
    allowances::each(solve_linear::of(2, &tied, &entries(&[0.0, 1.0])), visit);
    visit(complex_matrix_inverse::of(2, &tied));
    let held = entries(&[f64::NAN, 0.0, 0.0, 1.0]);
    allowances::each(solve_linear::of(2, &held, &entries(&[1.0, 1.0])), visit);
    let y = entries(&[1.0, 1.0, 1.0, -2.0]);
    visit(thevenin_impedance::of(fresh(&[0, 1]), bytes_of_reals(&y), 0, 1));
    for y in [
        entries(&[0.0, 1.0, 0.0, 0.0, 1.0, 1.0, 1.0, 1.0, 4.0]),
        entries(&[0.0, 0.0, 1.0, 0.0, f64::NAN, 0.0, 1.0, 0.0, 1.0]),
    ] {
        let study = Study {
            n: 3,
            y,
            numbers: rows(3),
            internal: vec![],
            external: vec![1, 2],
            boundary: vec![0],
            base: 100.0,
            p: vec![50.0, 25.0],
            q: vec![-25.0, 10.0],
            v: vec![1.25, 0.75],
        };
        on_study(&study, visit);
    }
}

// the inputs by which docs/DIFFERENCES.md shows the sign of the currents
fn currents(visit: &mut dyn FnMut(Call)) {
    let study = |y: [f64; 8], base, p, q| Study {
        n: 2,
        y: y.to_vec(),
        numbers: rows(2),
        internal: vec![],
        external: vec![1],
        boundary: vec![0],
        base,
        p: vec![p],
        q: vec![q],
        v: vec![1.25],
    };
    for study in [
        study([1.0, 0.0, -1.0, 0.0, -1.0, 0.0, 1.0, 1.0], 1.0, 0.0, 1.0),
        study([1.0, 0.0, -1.0, 0.0, -1.0, 0.0, 2.0, 0.0], 100.0, 50.0, 0.0),
    ] {
        on_study(&study, visit);
    }
}

fn branches(visit: &mut dyn FnMut(Call)) {
    let reactances = [0.1, -0.0, 1e-12, 9.999999999999999e-13, f64::NAN, f64::INFINITY];
    for ends in 0..81 {
        let e = [ends % 3, ends / 3 % 3, ends / 9 % 3, ends / 27];
        each(&reactances, 2, &mut |x| visit(build_b_bus::of(2, &e[..2], &e[2..], x)));
        each(&[0.0, 1.0, 0.5, f64::NAN], 4, &mut |t| {
            visit(lodf_matrix::of(2, t, &e[..2], &e[2..]))
        });
    }
    for n in 0..5 {
        for list in 0..216 {
            for count in 0..4 {
                visit(retained_buses::of(n, &[list % 6, list / 6 % 6, list / 36][..count]));
            }
        }
    }
}

// every edge number and pattern of a NaN alone, every byte of an element in its place,
// and every length in bytes beside every short count
fn converted(visit: &mut dyn FnMut(Call)) {
    for function in conversions::ALL {
        let edges = SPECIALS.iter().map(|x| x.to_bits());
        for word in edges
            .chain(NANS)
            .chain([0x0102_0304_0506_0708, 1, 0xff, 1 << 31, u64::MAX >> 32])
        {
            visit(conversions::of(function, &[word]));
        }
        let bytes = function.slices().iter().position(|slice| slice.of == Of::Bytes);
        for length in 0..40 {
            for count in 0..5 {
                let mut call = conversions::of(function, &NANS[..count]);
                call.slices[bytes.expect("a slice of bytes")].resize(length, 0);
                visit(call);
            }
        }
    }
}

// two buses with parts at the ends of what is finite, or may be divided by: real ones, and imaginary ones off the diagonal
fn large_and_small(visit: &mut dyn FnMut(Call)) {
    let [small, large, most] = [two_to(-498), two_to(200), two_to(511)];
    let edges = [1.0, -small, small / 2.0, large, most, 2.0 * most, -f64::MAX, 5e-324];
    each(&edges, 4, &mut |y| {
        on_matrix(2, &entries(y), visit);
        on_matrix(2, &[y[0], 0.0, 0.0, y[1], 0.0, y[2], y[3], 0.0], visit);
    });
}

pub fn every(visit: &mut dyn FnMut(Call)) {
    each(&SPECIALS, 2, &mut |y| {
        on_matrix(1, y, visit);
        for function in Function::scalars() {
            let (a, b) = (y[0], y[1]);
            visit(scalars::of(function, vec![a, b, b, a]));
            visit(scalars::of(function, vec![1.0, a, a, b]));
        }
    });
    each(&[-1.0, 0.0, 1.0], 8, &mut |y| on_matrix(2, y, visit));
    let edges = [0.0, -0.0, 1.0, -2.0, f64::NAN, f64::INFINITY, 1e-150, 9.99e-151];
    each(&edges, 4, &mut |y| {
        on_matrix(2, &[y[0], 0.0, y[1], -0.0, y[2], 0.0, y[3], 0.0], visit)
    });
    large_and_small(visit);
    equal_pivots(visit);
    currents(visit);
    branches(visit);
    small_records::every(visit);
    small_allowances::every(visit);
    converted(visit);
}
