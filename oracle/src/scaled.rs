// The same input at several scales, all of them powers of two, at which a shorter way may or may not be taken (02 P9): where no number
// on the way is rounded otherwise, so are the answers.
use crate::buses::rows;
use crate::call::Call;
use crate::expected::{After, Expected};
use crate::functions::ward::Study;
use crate::functions::*;
use crate::matrices::grid;
use crate::numbers::two_to;
use crate::small_records::fresh;
use crate::source::Source;
use crate::words::{bytes_of_reals, reals_of, words_of_reals};

// Answers that are scaled by 2^power: those in a slice, from its first to its last.
#[derive(Clone, Copy)]
pub struct Part {
    slice: usize,
    places: (usize, usize),
    power: i64,
}

fn whole(slice: usize, power: i64) -> Part {
    Part {
        slice,
        places: (0, usize::MAX),
        power,
    }
}

// A call, the same at another scale, and what of its answers is scaled then.
pub struct Scaled {
    pub own: Call,
    pub other: Call,
    parts: Vec<Part>,
}

impl Scaled {
    pub fn answers_agree(&self) -> bool {
        let [own, other] = [&self.own, &self.other].map(expected);
        let agree = |part: &Part| numbers(&own, part, part.power) == numbers(&other, part, 0);
        own.number == 0 && other.number == 0 && self.parts.iter().all(agree)
    }
}

// the numbers that an accepted call leaves there, times 2^power
fn numbers(e: &Expected, part: &Part, power: i64) -> Vec<u64> {
    let After::Bytes(bytes) = &e.after[part.slice] else {
        panic!("an accepted call writes slice {}", part.slice)
    };
    let (xs, (first, last)) = (reals_of(bytes), part.places);
    words_of_reals(&times(&xs[first..last.min(xs.len())], power))
}

fn times(xs: &[f64], e: i64) -> Vec<f64> {
    xs.iter().map(|x| x * two_to(e)).collect()
}

// a study of a grid with its last bus external, and the one before it where there is one
fn study(n: usize, y: Vec<f64>) -> Study {
    let retained = n.saturating_sub(2).max(1) as u32;
    let (boundary, external): (Vec<u32>, Vec<u32>) = rows(n).into_iter().partition(|&bus| bus < retained);
    let e = external.len();
    Study {
        n,
        y,
        numbers: rows(n),
        internal: vec![],
        external,
        boundary,
        base: 100.0,
        p: vec![50.0; e],
        q: vec![-25.0; e],
        v: vec![1.25; e],
    }
}

// calls on a matrix whose entries are scaled by 2^e
fn on_grid(n: usize, y: &[f64], e: i64, visit: &mut dyn FnMut(Scaled)) {
    let mut both = |of: &dyn Fn(Vec<f64>) -> Call, powers: &[(usize, i64)]| {
        visit(Scaled {
            own: of(y.to_vec()),
            other: of(times(y, e)),
            parts: powers.iter().map(|&(slice, power)| whole(slice, power)).collect(),
        })
    };
    let (last, numbers) = (n as u32 - 1, rows(n));
    let right: Vec<f64> = (0..2 * n).map(|i| 2.0 - i as f64).collect();
    both(&|y| solve_linear::of(n, &y, &right), &[(2, -e), (4, 0)]);
    both(&|y| complex_matrix_inverse::of(n, &y), &[(1, -e)]);
    both(
        &|y| eliminate_bus::of(fresh(&numbers), bytes_of_reals(&y), last),
        &[(1, e)],
    );
    both(
        &|y| eliminate_buses::of(fresh(&numbers), bytes_of_reals(&y), &[last, 0][..n.min(2)]),
        &[(1, e)],
    );
    both(
        &|y| thevenin_impedance::of(fresh(&numbers), bytes_of_reals(&y), 0, last),
        &[(3, -e), (4, -e)],
    );
    both(&|y| ward_compute::of(&study(n, y)), &[(7, e), (8, 0), (9, 0), (14, 0)]);
    // smaller entries would count for none
    if e > 0 {
        both(
            &|y| ward_compute_extended::of(&study(n, y)),
            &[(8, e), (9, 0), (10, 0), (11, 0), (12, e)],
        );
        both(
            &|y| rei_compute::of(&vec![7; n], &[], &y, &right[..n], &right[n..], 9),
            &[(6, e), (8, e), (11, 0)],
        );
    }
}

// transfer factors of one branch scaled: the branch leads from a bus to itself, so that its own outage takes none over
fn on_factors(n: usize, s: &mut Source, e: i64, visit: &mut dyn FnMut(Scaled)) {
    let t: Vec<f64> = (0..n * n).map(|_| s.unit() / 4.0).collect();
    let scaled = [&times(&t[..n], e)[..], &t[n..]].concat();
    let from: Vec<usize> = (0..n).collect();
    let to: Vec<usize> = (0..n).map(|i| if i == 0 { 0 } else { (i + 1) % n }).collect();
    let [own, other] = [t, scaled].map(|t| lodf_matrix::of(n, &t, &from, &to));
    // of its row of answers the first is -1
    let row = Part {
        slice: 3,
        places: (1, n),
        power: e,
    };
    visit(Scaled {
        own,
        other,
        parts: vec![row],
    });
}

pub fn each(s: &mut Source, visit: &mut dyn FnMut(Scaled)) {
    let scales: Vec<i64> = (190..=203)
        .chain(-206..=-193)
        .chain([100, 250, 300, -100, -250])
        .collect();
    for n in [1, 2, 3, 5, 9] {
        let y = grid(s, n);
        for &e in &scales {
            on_grid(n, &y, e, visit);
            if n > 1 {
                on_factors(n, s, e, visit);
            }
        }
    }
}
