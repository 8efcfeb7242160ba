// Small cases of counts and allowances.
use crate::allowances;
use crate::buses::rows;
use crate::call::Call;
use crate::functions::ward::Study;
use crate::functions::*;
use crate::numbers::SPECIALS;
use crate::small::{each, entries, on_study};

// a study of e external buses with these entries among them, and of so many internal and boundary buses before them
fn external(e: usize, y_ee: &[f64], internal: usize, boundary: usize) -> Study {
    let r = internal + boundary;
    let n = r + e;
    let entry = |i: usize, j: usize| {
        if i < r || j < r {
            1.0 + (i + 2 * j) as f64
        } else {
            y_ee[(i - r) * e + j - r]
        }
    };
    let y: Vec<f64> = (0..n * n).map(|at| entry(at / n, at % n)).collect();
    let list = |start: usize, count: usize| rows(n)[start..start + count].to_vec();
    Study {
        n,
        y: entries(&y),
        numbers: rows(n),
        internal: list(0, internal),
        external: list(r, e),
        boundary: list(internal, boundary),
        base: 100.0,
        p: vec![50.0; e],
        q: vec![-25.0; e],
        v: vec![1.25; e],
    }
}

// How many rows a call reduces, or the number that it is refused with.
pub type Stated = Result<u64, u32>;

// calls that show document 02's count and allowance (P8)
pub fn stated(visit: &mut dyn FnMut(Call, Stated)) {
    let mut solve = |a: [f64; 4], b: [f64; 2], allowance: u64, stated: Stated| {
        let call = solve_linear::of(2, &entries(&a), &entries(&b));
        visit(call.allowing(allowance), stated);
    };
    // with the last of equals, as in the Rust, one row would be skipped
    let tied = [-1.0, 4.0, 1.0, 0.0];
    solve(tied, [2.0, -1.0], allowances::NONE, Ok(2));
    solve(tied, [2.0, -1.0], 2, Ok(2));
    solve(tied, [2.0, -1.0], 1, Err(18));
    // and this one accepted
    let small = [7.0, 1e-150, 7.0, 0.0];
    solve(small, [4.0, 1e-150], 1, Err(13));
    solve(small, [4.0, 1e-150], 0, Err(18));
    let singular = [1.0; 4];
    solve(singular, [1.0, 1.0], 1, Err(13));
    solve(singular, [1.0, 1.0], 0, Err(18));
    // nothing to reduce
    solve([1.0, 0.0, -0.0, 1.0], [1.0, 1.0], 0, Ok(0));
    let mut both = |study: &Study, allowance: u64, stated: Stated| {
        visit(ward_compute::of(study).allowing(allowance), stated);
        visit(ward_compute_extended::of(study).allowing(allowance), stated);
    };
    // two solves, each of two rows
    let twice = Study {
        y: entries(&[5.0, 1.0, 1.0, 1.0, 2.0, 1.0, 1.0, 1.0, 2.0]),
        ..external(2, &[0.0; 4], 0, 1)
    };
    both(&twice, 3, Err(18));
    both(&twice, 4, Ok(4));
    both(&twice, allowances::NONE, Ok(4));
    let singular = external(2, &singular, 0, 1);
    both(&singular, 0, Err(18));
    both(&singular, 1, Err(13));
    both(&external(2, &tied, 1, 1), 5, Err(18));
    both(&external(2, &tied, 1, 1), 6, Ok(6));
    both(&external(0, &[], 1, 1), 0, Ok(0));
}

// 3 x 3 entries with zeros at every set of places: all of one size, or no two
fn with_zeros(visit: &mut dyn FnMut(&[f64])) {
    const UNLIKE: [f64; 9] = [2.0, -3.0, 7.0, 5.0, 11.0, 0.5, -13.0, 1.0, 17.0];
    for entries in [[1.0; 9], UNLIKE] {
        each(&[false, true], 9, &mut |zero| {
            let kept: Vec<f64> = (0..9).map(|at| if zero[at] { 0.0 } else { entries[at] }).collect();
            visit(&kept);
        });
    }
}

// factors around those that are skipped, systems of three unknowns, and studies of up to three external buses, each with every
// allowance
pub fn every(visit: &mut dyn FnMut(Call)) {
    each(&SPECIALS, 2, &mut |factor| {
        let a = [1.0, 0.0, 0.0, 0.0, factor[0], factor[1], 1.0, 0.0];
        allowances::each(solve_linear::of(2, &a, &entries(&[2.0, -1.0])), visit);
    });
    with_zeros(&mut |a| allowances::each(solve_linear::of(3, &entries(a), &entries(&[2.0, -1.0, 3.0])), visit));
    with_zeros(&mut |y_ee| on_study(&external(3, y_ee, 1, 1), visit));
    for (internal, boundary) in [(0, 0), (1, 0), (0, 1), (1, 1)] {
        on_study(&external(0, &[], internal, boundary), visit);
        on_study(&external(1, &[2.0], internal, boundary), visit);
        each(&[0.0, 1.0, -3.0, f64::NAN], 4, &mut |y_ee| {
            on_study(&external(2, y_ee, internal, boundary), visit);
        });
    }
}
