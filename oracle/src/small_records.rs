// Every small case of bus numbers and records.
use crate::buses::rows;
use crate::call::Call;
use crate::functions::reducer::{bytes, NUMBERS_AT, RECORD, ROWS_AT};
use crate::functions::ward::Study;
use crate::functions::*;
use crate::small::each;
use crate::words::bytes_of_reals;

// the record of a making with these numbers
pub fn fresh(numbers: &[u32]) -> Vec<u8> {
    bytes(numbers, &(0..numbers.len()).collect::<Vec<_>>())
}

// a matrix whose rows are all different
fn unlike(n: usize) -> Vec<f64> {
    let entry = |i: usize, j: usize| {
        if i == j {
            [4.0 + i as f64, -9.0]
        } else {
            [-1.0 / (1.0 + (i + 2 * j) as f64), j as f64]
        }
    };
    (0..n * n).flat_map(|at| entry(at / n, at % n)).collect()
}

// the inputs by which docs/DIFFERENCES.md shows the limit and the numbers
fn numbered(visit: &mut dyn FnMut(Call)) {
    visit(kron_new::of(1, &[1.0, 0.0], &rows(LIMIT + 1)));
    visit(kron_new::of(1, &[1.0, 0.0], &[]));
    visit(kron_new::of(2, &unlike(2), &[0, 0]));
    visit(retained_buses::of(1, &[0; LIMIT + 1]));
    visit(eliminate_bus::of(fresh(&[5, 3]), bytes_of_reals(&unlike(2)), 3));
    for (n, numbers, boundary) in [
        (1, rows(LIMIT + 1), vec![]),
        (1, vec![], vec![]),
        (1, vec![0], vec![1]),
        (1, vec![0], vec![0, 0]),
        (2, vec![0, 0], vec![]),
    ] {
        let study = Study {
            n,
            y: unlike(n),
            numbers,
            internal: vec![],
            external: vec![],
            boundary,
            base: 100.0,
            p: vec![],
            q: vec![],
            v: vec![],
        };
        visit(ward_compute::of(&study));
        visit(ward_compute_extended::of(&study));
    }
}

// every set of up to six buses left
fn active(visit: &mut dyn FnMut(Call)) {
    let numbers = [7, u32::MAX, 0, 1, 3, 2];
    for made in 0..=6 {
        for set in 0..1 << made {
            let left: Vec<usize> = (0..made).filter(|bus| set >> bus & 1 == 1).collect();
            visit(active_buses::of(bytes(&numbers[..made], &left), made));
        }
    }
}

// records that are not of their length, beside sizes and lists up to the limit and above it
fn unfit(visit: &mut dyn FnMut(Call)) {
    for length in [
        0,
        8,
        ROWS_AT,
        NUMBERS_AT,
        528,
        RECORD - 8,
        RECORD - 4,
        RECORD - 1,
        RECORD + 1,
        RECORD + 4,
        2 * RECORD,
        3088,
    ] {
        for count in [0, 1, LIMIT, LIMIT + 1] {
            let mut call = kron_new::of(count, &vec![1.0; 2 * count * count], &rows(count));
            call.slices[2].resize(length, 0);
            visit(call);
            let mut record = fresh(&[0]);
            record.resize(length, 0);
            let y = bytes_of_reals(&[1.0, 0.0]);
            visit(eliminate_buses::of(record, y, &vec![0; count]));
        }
    }
}

// up to three numbers, beside every size: in makings, in records, whose last ones may stand behind, and in studies; and every
// bus that a call may name beside them
fn named(visit: &mut dyn FnMut(Call)) {
    const FROM: [u32; 4] = [0, 1, 2, u32::MAX];
    let mut with = |numbers: &[u32]| {
        for n in 0..=3 {
            visit(kron_new::of(n, &unlike(n), numbers));
        }
        for made in 0..=numbers.len() {
            on_record(made, numbers, &FROM, visit);
        }
        for count in 0..=3 {
            each(&FROM, count, &mut |listed| on_study(numbers, listed, visit));
        }
    };
    for count in 0..=3 {
        each(&FROM, count, &mut with);
    }
}

fn on_record(made: usize, places: &[u32], buses: &[u32], visit: &mut dyn FnMut(Call)) {
    let record = || {
        let mut record = bytes(places, &(0..made).collect::<Vec<_>>());
        record[0] = made as u8;
        record
    };
    let y = || bytes_of_reals(&unlike(made));
    visit(active_buses::of(record(), made));
    visit(reduced_matrix::of(record(), y()));
    for &bus in buses {
        visit(eliminate_bus::of(record(), y(), bus));
        for &other in buses {
            visit(eliminate_buses::of(record(), y(), &[bus, other]));
            visit(thevenin_impedance::of(record(), y(), bus, other));
        }
    }
}

// of three buses, at most one in each list
fn on_study(numbers: &[u32], listed: &[u32], visit: &mut dyn FnMut(Call)) {
    let [external, boundary, internal] = [0, 1, 2].map(|i| listed.get(i).copied().into_iter().collect::<Vec<_>>());
    let e = external.len();
    let study = Study {
        n: 3,
        y: unlike(3),
        numbers: numbers.to_vec(),
        internal,
        external,
        boundary,
        base: 100.0,
        p: vec![50.0; e],
        q: vec![-25.0; e],
        v: vec![1.25; e],
    };
    visit(ward_compute::of(&study));
    visit(ward_compute_extended::of(&study));
}

pub fn every(visit: &mut dyn FnMut(Call)) {
    numbered(visit);
    active(visit);
    named(visit);
    unfit(visit);
}
