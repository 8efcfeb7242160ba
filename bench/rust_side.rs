// The Rust: matrices as it takes them, made before the clock starts; its answers are dropped within.
use crate::inputs::Inputs;
use crate::timing::{work, Work};
use crate::Task;
use oracle::words::{bytes_of_reals, pairs_of, rows_of, NAN};
use reference::reduction::{self, reach, KronReducer, ReiEquivalent, WardEquivalent, WardEquivalentConfig};
use std::hint::black_box;

fn ward(i: &Inputs, rows: Vec<Vec<(f64, f64)>>) -> WardEquivalent {
    let config = WardEquivalentConfig {
        internal_buses: i.internal.clone(),
        external_buses: i.external.clone(),
        boundary_buses: i.boundary.clone(),
        include_load_transfer: true,
        base_mva: 100.0,
    };
    WardEquivalent::new(i.n, rows, config)
}

// a call whose answer is dropped within
fn answers<T>(mut call: impl FnMut() -> T + 'static) -> Box<dyn Work> {
    work((), move |_| drop(black_box(call())))
}

// loops over the numbers, into slices made before
fn conversion(task: Task, y: &[f64]) -> Box<dyn Work> {
    let (mut bytes, mut numbers) = (bytes_of_reals(y), y.to_vec());
    let one_nan = |x: f64| if x.is_nan() { f64::from_bits(NAN) } else { x };
    if let Task::NumbersOfBytes = task {
        return answers(move || {
            for (x, from) in numbers.iter_mut().zip(black_box(&bytes).chunks_exact(8)) {
                *x = one_nan(f64::from_le_bytes(from.try_into().unwrap()));
            }
            black_box(&numbers);
        });
    }
    answers(move || {
        for (to, &x) in bytes.chunks_exact_mut(8).zip(black_box(&numbers)) {
            to.copy_from_slice(&one_nan(x).to_le_bytes());
        }
        black_box(&bytes);
    })
}

pub fn side(task: Task, i: &Inputs) -> Box<dyn Work> {
    let n = i.n;
    let rows = rows_of(&bytes_of_reals(&i.y), n, n);
    let (p, q, v) = (i.p.clone(), i.q.clone(), i.v.clone());
    let (from, to, x, half) = (i.from.clone(), i.to.clone(), i.x.clone(), i.half.clone());
    let b = pairs_of(&bytes_of_reals(&i.right));
    let ptdf: Vec<Vec<f64>> = i.ptdf.chunks(n).map(|row| row.to_vec()).collect();
    let reducer = KronReducer::new(n, rows.clone());
    let study = ward(i, rows.clone());
    let rei = ReiEquivalent {
        generator_buses: from[..n / 2].to_vec(),
        load_buses: from[n / 2..].to_vec(),
    };
    match task {
        Task::NumbersOfBytes | Task::BytesOfNumbers => conversion(task, &i.y),
        Task::Removal => work(reducer, move |r| r.eliminate_bus(n / 2).unwrap()),
        Task::Removals => work(reducer, move |r| r.eliminate_buses(&half).unwrap()),
        Task::Solve => answers(move || WardEquivalent::solve_linear(&rows, &b).unwrap()),
        Task::Inverse => answers(move || reach::complex_matrix_inverse(&rows).unwrap()),
        Task::Thevenin => answers(move || reducer.thevenin_impedance(0, n - 1).unwrap()),
        Task::Ward => answers(move || study.compute(&p, &q).unwrap()),
        Task::ExtendedWard => answers(move || study.compute_extended(&p, &q, &v).unwrap()),
        Task::Rei => answers(move || rei.compute(&rows, &x, &x, n).unwrap()),
        Task::Retained => answers(move || reduction::retained_buses(n, &half)),
        Task::BBus => answers(move || reduction::build_b_bus(n, &from, &to, &x)),
        Task::Lodf => answers(move || reduction::lodf_matrix(&ptdf, &from, &to)),
    }
}
