// What a call that eliminates must answer: as the Rust says, or the model where the two rules for pivots may choose otherwise.
use crate::allowances::NONE;
use crate::ask::{Asked, Kind};
use crate::call::Call;
use crate::elimination::{Rule, Solver};
use crate::expected::{expected, stopped, Expected};
use crate::finite::Stop;
use crate::pivots::{self, Judge};

// What the work of a call must answer by the model, whose solver it is handed.
fn by_model<T>(
    call: &Call,
    mut solver: Solver,
    answer: &impl Fn(&mut Solver) -> Result<T, Stop>,
    work: usize,
    written: impl FnOnce(Expected, T) -> Expected,
) -> (Solver, Expected) {
    let asked = match answer(&mut solver) {
        Ok(answer) => Asked::Accepts(answer),
        Err(stop) => return (solver, stopped(call, stop.number(call.function), Some(work))),
    };
    (solver, expected(call, &[], asked, Some(work), written))
}

// whether the Rust went on to eliminate
fn eliminates<T>(faults: &[u32], asked: &Asked<T>) -> bool {
    faults.is_empty()
        && matches!(
            asked,
            Asked::Accepts(_) | Asked::NotFinite | Asked::Errs(Kind::LinearAlgebra)
        )
}

// The same as `expected` of a call that searches pivots: the model answers where document 02's rule may choose otherwise than the
// Rust. `model` is the work by a solver, none where nothing is to be eliminated.
pub fn by_pivots<T, M: Fn(&mut Solver) -> Result<T, Stop>>(
    call: &Call,
    faults: &[u32],
    asked: Asked<T>,
    model: impl FnOnce() -> Option<M>,
    work: usize,
    written: impl Fn(Expected, T) -> Expected,
) -> Expected {
    let model = if eliminates(faults, &asked) { model() } else { None };
    let rust = expected(call, faults, asked, Some(work), &written);
    let Some(model) = model else {
        return rust;
    };
    let [(solver, first), (_, last)] =
        [Rule::First, Rule::Last].map(|rule| by_model(call, Solver::new(rule, NONE), &model, work, &written));
    pivots::judged(solver.choice, rust, first, last)
}

// The same of a call that takes an allowance and tells its row reductions, beside those of the Rust, which has no allowance.
pub fn by_rows<T, M: Fn(&mut Solver) -> Result<T, Stop>>(
    call: &Call,
    faults: &[u32],
    (asked, rust_rows): (Asked<T>, u64),
    model: impl FnOnce() -> Option<M>,
    work: usize,
    written: impl Fn(Expected, T) -> Expected,
) -> Expected {
    let model = if eliminates(faults, &asked) { model() } else { None };
    let rust = expected(call, faults, asked, Some(work), &written);
    let Some(model) = model else {
        return rust.reducing(call, 0);
    };
    let run = |rule, allowance| {
        let (solver, e) = by_model(call, Solver::new(rule, allowance), &model, work, &written);
        (solver.choice, e.reducing(call, solver.reduced))
    };
    let (choice, first) = run(Rule::First, NONE);
    let free = pivots::judged(choice, rust.reducing(call, rust_rows), first, run(Rule::Last, NONE).1);
    let (Some(judge), Some(rows)) = (free.judge, free.rows) else {
        return free;
    };
    // a larger allowance alters no answer but 18: below the count every one is refused, from there on none changes the answer
    let allowance = call.allowance();
    let due = if allowance < rows {
        stopped(call, 18, Some(work)).reducing(call, allowance).by(judge)
    } else {
        free
    };
    let (_, within) = run(Rule::First, allowance);
    if !within.same(&due) {
        return due.failing("the model within the allowance does not answer by its count without one");
    }
    due.allowing(allowance, rows, counted_by(judge, rows == rust_rows))
}

// who tells the count
fn counted_by(judge: Judge, alike: bool) -> Judge {
    match judge {
        Judge::Model { .. } => Judge::Model { alike },
        Judge::Rust => Judge::Rust,
    }
}
