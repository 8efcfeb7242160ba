// Calls that show document 02's 19 and 20 (P9), with the number that each must answer.
use crate::allowances::NONE;
use crate::buses::rows;
use crate::call::{Call, Function};
use crate::functions::*;
use crate::numbers::two_to;
use crate::small::entries;
use crate::small_records::fresh;
use crate::small_studies;
use crate::words::bytes_of_reals;

const MAX: f64 = f64::MAX;
const INF: f64 = f64::INFINITY;
const NAN: f64 = f64::NAN;

pub type Visit<'a> = &'a mut dyn FnMut(Call, u32);

fn single(visit: Visit) {
    let mut of = |function, reals: &[f64], number| visit(scalars::of(function, reals.to_vec()), number);
    let huge = two_to(512);
    of(Function::Cadd, &[MAX, 0.0, MAX, 0.0], 20);
    of(Function::Cadd, &[NAN, 0.0, 1.0, 0.0], 19);
    of(Function::Csub, &[0.0, MAX, 0.0, -MAX], 20);
    of(Function::Csub, &[INF, 0.0, INF, 0.0], 19);
    // the two products that are not finite would cancel
    of(Function::Cmul, &[huge, huge, huge, huge], 20);
    of(Function::Cmul, &[0.0, 0.0, INF, 0.0], 19);
    // the quotient would be 0
    of(Function::Cdiv, &[1.0, 0.0, huge, 0.0], 20);
    of(Function::Cdiv, &[1.0, 0.0, INF, 0.0], 19);
    of(Function::Cdiv, &[1.0, 0.0, 1e-150, 0.0], 0);
    of(Function::Cdiv, &[1.0, 0.0, 9.999999999999999e-151, 0.0], 20);
    of(Function::ComplexInv, &[two_to(-498), 0.0], 0);
    of(Function::ComplexInv, &[two_to(-499), 0.0], 20);
    of(Function::ComplexInv, &[two_to(511), 0.0], 0);
    of(Function::ComplexInv, &[huge, 0.0], 20);
    of(Function::ComplexInv, &[0.0, NAN], 19);
    of(Function::Cneg, &[MAX, -MAX], 0);
    of(Function::Cneg, &[1.0, INF], 19);
    of(Function::Abs, &[-MAX], 0);
    of(Function::Abs, &[-INF], 19);
    of(Function::Sqrt, &[-1.0], 20);
    of(Function::Sqrt, &[-5e-324], 20);
    of(Function::Sqrt, &[-0.0], 0);
    of(Function::Sqrt, &[MAX], 0);
    of(Function::Sqrt, &[INF], 19);
    of(Function::Sqrt, &[NAN], 19);
    of(Function::Magnitude, &[huge, 0.0], 20);
    of(Function::Magnitude, &[two_to(511), 0.0], 0);
    of(Function::Magnitude, &[0.0, -INF], 19);
}

fn systems(visit: Visit) {
    let solve = |a: [f64; 4], b: [f64; 2]| solve_linear::of(2, &entries(&a), &entries(&b));
    // where the Rust takes the last of equals, and ends otherwise
    visit(solve([1e-150, 3.0, 1e-150, 0.0], [MAX, two_to(-400)]), 20);
    let a = [1e-150, 4.0, MAX, 1.0, 1e-150, 4.0, MAX, 3.0];
    visit(solve_linear::of(2, &a, &entries(&[0.0, 5.0])), 0);
    // a pivot too small, after a right side that is not finite and without it
    let small = [two_to(-400), 0.0, 0.0, 0.0];
    visit(solve(small, [two_to(700), 0.0]), 20);
    visit(solve(small, [1.0, 0.0]), 13);
    let second = [1.0, two_to(600), two_to(500), 1.0];
    visit(solve(second, [1.0, 1.0]).allowing(0), 18);
    visit(solve(second, [1.0, 1.0]).allowing(1), 20);
    // The second row reduction meets 20 in the first column alone, left of its pivot: 49 times its rounded inverse is not 1.
    let large = two_to(600);
    let left = [49.0, 0.0, large, 0.0, 1.0, 0.0, large * (1.0 / 49.0), 1e-150];
    for (allowance, number) in [(0, 18), (1, 18), (2, 20), (3, 20), (NONE, 20)] {
        visit(solve_linear::of(2, &left, &[0.0; 4]).allowing(allowance), number);
    }
    // a weight that is not the pivot's, and the pivot's own square
    visit(solve([1.0, 0.0, two_to(512), 1.0], [1.0, 1.0]), 20);
    visit(solve_linear::of(1, &entries(&[two_to(512)]), &entries(&[1.0])), 20);
    visit(solve_linear::of(1, &entries(&[two_to(511)]), &entries(&[1.0])), 0);
    visit(solve([1.0, NAN, 0.0, 1.0], [1.0, 1.0]).allowing(0), 19);
    visit(solve([0.0; 4], [1.0, INF]), 19);
    visit(complex_matrix_inverse::of(1, &entries(&[two_to(512)])), 20);
    visit(complex_matrix_inverse::of(1, &entries(&[two_to(-498)])), 0);
    visit(complex_matrix_inverse::of(1, &entries(&[two_to(-499)])), 13);
    visit(complex_matrix_inverse::of(2, &entries(&[1.0, 1.0, 1.0, INF])), 19);
}

fn removals(visit: Visit) {
    let bus = |y: &[f64], n: usize, bus| eliminate_bus::of(fresh(&rows(n)), bytes_of_reals(&entries(y)), bus);
    visit(bus(&[1.0, 1.0, 1.0, two_to(512)], 2, 1), 20);
    visit(bus(&[1.0, 1.0, 1.0, two_to(511)], 2, 1), 0);
    visit(bus(&[1.0, 1.0, 1.0, two_to(-499)], 2, 1), 12);
    visit(bus(&[MAX, -MAX, 1.0, 1.0], 2, 1), 20);
    visit(bus(&[two_to(512)], 1, 0), 20);
    visit(bus(&[two_to(511)], 1, 0), 0);
    visit(bus(&[1e-160], 1, 0), 12);
    visit(bus(&[1.0, 1.0, NAN, 1.0], 2, 7), 19);
    let list =
        |y: &[f64], n: usize, buses: &[u32]| eliminate_buses::of(fresh(&rows(n)), bytes_of_reals(&entries(y)), buses);
    let second = [1.0, 0.0, 0.0, 0.0, two_to(512), 0.0, 0.0, 0.0, 1.0];
    visit(list(&second, 3, &[2, 1, 0]), 20);
    visit(list(&second, 3, &[2, 0]), 0);
    visit(list(&second, 3, &[2, 2, 1]), 11);
    visit(list(&[INF], 1, &[]), 19);
    visit(list(&[MAX], 1, &[]), 0);
    visit(kron_new::of(1, &[0.0, INF], &[3]), 19);
    visit(kron_new::of(1, &[MAX, MAX], &[3]), 0);
    visit(kron_new::of(2, &entries(&[NAN; 4]), &[3, 3]), 8);
    // two of three buses are left, and behind their rows stands what is not given
    let gone = reducer::bytes(&[4, 5, 6], &[0, 2]);
    let behind = |x| bytes_of_reals(&[entries(&[1.0, 2.0, 3.0, x]), vec![INF; 10]].concat());
    visit(reduced_matrix::of(gone.clone(), behind(4.0)), 0);
    visit(reduced_matrix::of(gone.clone(), behind(NAN)), 19);
    visit(eliminate_bus::of(gone.clone(), behind(4.0), 6), 0);
    visit(eliminate_buses::of(gone.clone(), behind(4.0), &[6, 4]), 0);
    visit(thevenin_impedance::of(gone.clone(), behind(5.0), 4, 6), 0);
    visit(thevenin_impedance::of(gone, behind(-INF), 4, 5), 19);
}

fn impedances(visit: Visit) {
    let mut between = |y: &[f64], n: usize, i, j, number| {
        visit(
            thevenin_impedance::of(fresh(&rows(n)), bytes_of_reals(&entries(y)), i, j),
            number,
        )
    };
    // (2, 0) times the entry that is read
    let tied = [1e-79, 1e150, 0.0, 1e-79];
    between(&tied, 2, 0, 1, 20);
    between(&tied, 2, 1, 0, 0);
    // a column of the inverse that is not read
    let apart = [1.0, 0.0, 0.0, 0.0, 1e-100, 1e150, 0.0, 0.0, 1e-100];
    between(&apart, 3, 0, 0, 20);
    between(&[1.0, 0.0, 0.0, two_to(512)], 2, 0, 0, 20);
}

fn rei(visit: Visit) {
    let one = |own| rei_compute::of(&[7], &[], &entries(&[own]), &[1.0], &[1.0], 9);
    visit(one(two_to(512)), 20);
    visit(one(two_to(511)), 0);
    visit(one(-INF), 19);
    let of_two = |y: [f64; 4], p: [f64; 2], q: [f64; 2]| rei_compute::of(&[7], &[3], &entries(&y), &p, &q, 9);
    let y = [1.0; 4];
    visit(of_two(y, [MAX, MAX], [0.0; 2]), 20);
    visit(of_two(y, [0.0; 2], [-MAX, -MAX]), 20);
    visit(of_two(y, [MAX, -MAX], [0.0; 2]), 0);
    visit(of_two(y, [NAN, 0.0], [0.0; 2]), 19);
    // only the diagonal is computed with
    visit(of_two([1.0, MAX, MAX, 1.0], [0.0; 2], [0.0; 2]), 0);
    visit(of_two([1.0, 0.0, INF, 1.0], [0.0; 2], [0.0; 2]), 19);
}

fn branches(visit: Visit) {
    let alone = |t: &[f64]| lodf_matrix::of(2, t, &[0], &[1]);
    visit(alone(&[MAX, -MAX]), 0);
    visit(alone(&[MAX, INF]), 19);
    let two = |t: &[f64]| lodf_matrix::of(2, t, &[0, 0], &[1, 1]);
    visit(two(&[MAX, -MAX, 0.5, 0.25]), 20);
    visit(two(&[0.5, 0.25, MAX, -MAX]), 20);
    visit(two(&[0.5, 0.25, MAX, MAX]), 0);
    // a divisor alone: every quotient would be 0
    let own = [MAX, -MAX, MAX, 0.5, 0.25, 0.125];
    visit(lodf_matrix::of(3, &own, &[0, 0], &[1, 2]), 20);
    // a quotient by a small rest
    visit(two(&[MAX, 0.0, 1.0, 2e-12]), 20);
    visit(build_b_bus::of(2, &[0], &[1], &[MAX]), 0);
    visit(build_b_bus::of(2, &[0], &[1], &[1e-12]), 0);
    visit(build_b_bus::of(2, &[0], &[1], &[INF]), 19);
    visit(build_b_bus::of(2, &[0], &[2], &[NAN]), 6);
}

pub fn stated(visit: Visit) {
    for of in [
        single,
        systems,
        removals,
        impedances,
        small_studies::finite,
        rei,
        branches,
    ] {
        of(visit);
    }
}
