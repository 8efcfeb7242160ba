// The numbers that an entry may answer.
use crate::call::Function;
use Function::*;

pub fn of(function: Function) -> &'static [u32] {
    match function {
        Cneg | Abs => &[0, 19],
        SolveLinear => &[0, 1, 2, 5, 13, 18, 19, 20],
        ComplexMatrixInverse => &[0, 1, 2, 5, 13, 19, 20],
        KronNew => &[0, 1, 2, 8, 19],
        EliminateBus | EliminateBuses => &[0, 1, 2, 9, 11, 12, 19, 20],
        ActiveBuses => &[0, 1, 2, 9],
        ReducedMatrix => &[0, 1, 2, 9, 19],
        TheveninImpedance => &[0, 1, 2, 9, 11, 13, 19, 20],
        WardCompute | WardComputeExtended => &[0, 1, 2, 3, 7, 8, 13, 18, 19, 20],
        ReiCompute => &[0, 1, 2, 3, 4, 19, 20],
        RetainedBuses => &[0, 1, 2],
        BuildBBus => &[0, 1, 2, 3, 6, 19],
        LodfMatrix => &[0, 1, 2, 3, 6, 19, 20],
        scalar if scalar.is_scalar() => &[0, 19, 20],
        _ => &[0, 2],
    }
}

pub fn may_answer(function: Function, number: u32) -> bool {
    of(function).contains(&number)
}
