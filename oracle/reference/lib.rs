// The Rust reference: reduction.rs and error.rs, unchanged, at the paths that the build names; and a copy of what is ported of
// reduction.rs that watches its numbers.
#![allow(dead_code, unused, clippy::all)]

mod stubs;

pub mod error {
    include!(env!("JETURIPE_ERROR_RS"));
}

pub mod reduction {
    use super::stubs::{nalgebra, num_complex, sprs};

    include!(env!("JETURIPE_REDUCTION_RS"));

    // What is private there and compared here.
    pub mod reach {
        use super::{KronReducer, Result};

        pub type Pair = (f64, f64);

        pub fn cadd(a: Pair, b: Pair) -> Pair {
            super::cadd(a, b)
        }
        pub fn csub(a: Pair, b: Pair) -> Pair {
            super::csub(a, b)
        }
        pub fn cneg(a: Pair) -> Pair {
            super::cneg(a)
        }
        pub fn cmul(a: Pair, b: Pair) -> Pair {
            super::cmul(a, b)
        }
        pub fn cdiv(a: Pair, b: Pair) -> Pair {
            super::cdiv(a, b)
        }
        pub fn complex_matrix_inverse(mat: &[Vec<Pair>]) -> Result<Vec<Vec<Pair>>> {
            super::complex_matrix_inverse(mat)
        }

        // A reducer some of whose buses are gone already.
        pub fn reducer(active_buses: Vec<usize>, y_full: Vec<Vec<Pair>>) -> KronReducer {
            KronReducer { n_buses: active_buses.len(), y_full, active_buses }
        }
        pub fn active(r: &KronReducer) -> &[usize] {
            &r.active_buses
        }
    }
}

pub mod watched;
