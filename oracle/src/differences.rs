// The differences that docs/DIFFERENCES.md lists, and what it says the Rust does in each.
use crate::ask::{Kind, Manner};
use crate::call::Function;

#[derive(Clone, Copy, Debug, PartialEq, Eq, PartialOrd, Ord)]
pub enum Difference {
    // the port's refusal, where the Rust has none of that kind
    Refusal(u32),
    // several input refusals apply: only their order is checked, not what the Rust does
    SeveralFaults,
    // the sum of a list of -0 is +0
    ReiSum,
    // the Rust's field include_load_transfer, either way, changes nothing
    LoadTransfer,
    // the Rust's own currents are (P + jQ)/base
    Currents,
}

pub enum Told {
    // the Rust, or the model of elimination, gives the same answer, or errs with the kind that belongs to the number
    ByReference,
    Differs(Difference, Manner),
    Wrong(String),
}

// the kind of Rust error that belongs to a number, where the Rust errs too
fn kind_of(function: Function, number: u32) -> Option<Kind> {
    let branches = matches!(function, Function::BuildBBus | Function::LodfMatrix);
    match number {
        3 if !branches => Some(Kind::InvalidParameter),
        4 | 11 => Some(Kind::InvalidParameter),
        5 | 12 | 13 => Some(Kind::LinearAlgebra),
        _ => None,
    }
}

fn listed(function: Function, number: u32, manner: Manner) -> bool {
    use Manner::*;
    match (number, manner) {
        (_, NotAsked) => true,
        (1, Accepts | Errs(Kind::InvalidParameter | Kind::LinearAlgebra)) => true,
        (2, Accepts | Panics | Errs(Kind::InvalidParameter | Kind::LinearAlgebra)) => true,
        (3, Accepts) => true,
        (3, Panics) => function == Function::LodfMatrix,
        (6, Accepts | Panics) => true,
        (7 | 8, Accepts | Errs(Kind::LinearAlgebra)) => true,
        (19, Accepts | Errs(Kind::InvalidParameter | Kind::LinearAlgebra)) => true,
        _ => false,
    }
}

// Input refusals that apply, lowest first, beside what the Rust did.
pub fn judged(function: Function, faults: &[u32], manner: Manner) -> Told {
    if faults.len() > 1 {
        return Told::Differs(Difference::SeveralFaults, manner);
    }
    let number = faults[0];
    match kind_of(function, number) {
        Some(kind) if manner == Manner::Errs(kind) => Told::ByReference,
        Some(kind) => Told::Wrong(format!("refusal {number} belongs to {kind:?}, the Rust {manner:?}")),
        None if listed(function, number, manner) => Told::Differs(Difference::Refusal(number), manner),
        None => Told::Wrong(format!("refusal {number}, and the Rust {manner:?}: not listed")),
    }
}

// The number of a refusal from the state, by the kind of the Rust's error.
pub fn state_number(function: Function, kind: Kind) -> Option<u32> {
    match (kind, function) {
        (Kind::InvalidParameter, _) => Some(11),
        (Kind::LinearAlgebra, Function::EliminateBus | Function::EliminateBuses) => Some(12),
        (Kind::LinearAlgebra, _) => Some(13),
        (Kind::Other, _) => None,
    }
}
