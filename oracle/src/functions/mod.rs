// For each entry: calls of it, and what the Rust and document 01 say of a call.
use crate::call::{Call, Function};
use crate::expected::Expected;
use crate::source::Source;

pub mod active_buses;
pub mod build_b_bus;
pub mod complex_matrix_inverse;
pub mod conversions;
pub mod eliminate_bus;
pub mod eliminate_buses;
pub mod kron_new;
pub mod lodf_matrix;
pub mod reduced_matrix;
pub mod reducer;
pub mod rei_compute;
pub mod retained_buses;
pub mod scalars;
pub mod solve_linear;
pub mod thevenin_impedance;
pub mod ward;
pub mod ward_compute;
pub mod ward_compute_extended;
pub mod ward_model;

// The library's limit on buses, branches and lists.
pub const LIMIT: usize = 256;

// Beyond this size the Rust, which has no limit, is not asked.
pub const ASKED: usize = 258;

pub fn expected(call: &Call) -> Expected {
    match call.function {
        Function::SolveLinear => solve_linear::expected(call),
        Function::ComplexMatrixInverse => complex_matrix_inverse::expected(call),
        Function::KronNew => kron_new::expected(call),
        Function::EliminateBus => eliminate_bus::expected(call),
        Function::EliminateBuses => eliminate_buses::expected(call),
        Function::ActiveBuses => active_buses::expected(call),
        Function::ReducedMatrix => reduced_matrix::expected(call),
        Function::TheveninImpedance => thevenin_impedance::expected(call),
        Function::WardCompute => ward_compute::expected(call),
        Function::WardComputeExtended => ward_compute_extended::expected(call),
        Function::ReiCompute => rei_compute::expected(call),
        Function::RetainedBuses => retained_buses::expected(call),
        Function::BuildBBus => build_b_bus::expected(call),
        Function::LodfMatrix => lodf_matrix::expected(call),
        scalar if scalar.is_scalar() => scalars::expected(call),
        _ => conversions::expected(call),
    }
}

// Of a sound call that takes an allowance: the row reductions until its work ends, and the most.
pub fn reductions(call: &Call) -> Option<(u64, u64)> {
    match call.function {
        Function::SolveLinear => Some(solve_linear::reductions(call)),
        Function::WardCompute | Function::WardComputeExtended => Some(ward_model::reductions(call)),
        _ => None,
    }
}

// A call with n buses (or branches by n) whose lengths and lists are right, with no allowance.
pub fn sound(function: Function, s: &mut Source, n: usize) -> Call {
    match function {
        Function::SolveLinear => solve_linear::random(s, n),
        Function::ComplexMatrixInverse => complex_matrix_inverse::random(s, n),
        Function::KronNew => kron_new::random(s, n),
        Function::EliminateBus => eliminate_bus::random(s, n),
        Function::EliminateBuses => eliminate_buses::random(s, n),
        Function::ActiveBuses => active_buses::random(s, n),
        Function::ReducedMatrix => reduced_matrix::random(s, n),
        Function::TheveninImpedance => thevenin_impedance::random(s, n),
        Function::WardCompute => ward_compute::random(s, n),
        Function::WardComputeExtended => ward_compute_extended::random(s, n),
        Function::ReiCompute => rei_compute::random(s, n),
        Function::RetainedBuses => retained_buses::random(s, n),
        Function::BuildBBus => build_b_bus::random(s, n),
        Function::LodfMatrix => lodf_matrix::random(s, n),
        scalar if scalar.is_scalar() => scalars::random(scalar, s),
        conversion => conversions::random(conversion, s, n),
    }
}
