// Counts of a run, by entry, by number, by difference and by allowance, and the first calls that fail.
use crate::allowances::Met;
use crate::ask::Manner;
use crate::call::{shown, Call, Function};
use crate::crossing::Crossing;
use crate::differences::{Difference, Told};
use crate::expected::{After, Expected};
use crate::functions::{expected, solve_linear};
use crate::outcomes;
use crate::pivots::Judge;
use crate::port::{Part, Port};
use crate::scaled::Scaled;
use crate::small_allowances::Stated;
use crate::words::words_of;
use std::collections::BTreeMap;

#[derive(Default)]
pub struct Tally {
    pub calls: BTreeMap<Function, usize>,
    pub answers: BTreeMap<(Function, u32), usize>,
    pub differences: BTreeMap<(Difference, Manner), usize>,
    pub judges: BTreeMap<(Function, Judge), usize>,
    pub allowances: BTreeMap<(Function, Met), usize>,
    // of row reductions above 0
    pub counts: BTreeMap<(Function, Judge), usize>,
    // solves that meet 20 left of a pivot alone
    pub left_alone: usize,
    pub failed: BTreeMap<Function, usize>,
}

const SHOWN: usize = 10;

// the calls that search pivots
const PIVOTING: [Function; 5] = [
    Function::SolveLinear,
    Function::ComplexMatrixInverse,
    Function::TheveninImpedance,
    Function::WardCompute,
    Function::WardComputeExtended,
];

// the calls that take an allowance
const ALLOWING: [Function; 3] = [
    Function::SolveLinear,
    Function::WardCompute,
    Function::WardComputeExtended,
];

impl Tally {
    // one call: what the reference says of it, which is answered, and, where there is a port, what that does
    pub fn run(&mut self, call: &Call, port: Option<Port>) -> u32 {
        let e = expected(call);
        *self.calls.entry(call.function).or_default() += 1;
        *self.answers.entry((call.function, e.number)).or_default() += 1;
        match &e.told {
            Told::ByReference => {}
            Told::Differs(difference, manner) => *self.differences.entry((*difference, *manner)).or_default() += 1,
            Told::Wrong(why) => {
                self.fail(call, why);
                return e.number;
            }
        }
        for difference in &e.noted {
            *self.differences.entry((*difference, Manner::Accepts)).or_default() += 1;
        }
        if call.function == Function::SolveLinear && e.number == 20 && solve_linear::left_alone(call) {
            self.left_alone += 1;
        }
        if let Some(judge) = e.judge {
            *self.judges.entry((call.function, judge)).or_default() += 1;
        }
        if let Some(allowed) = &e.allowed {
            *self.allowances.entry((call.function, allowed.met)).or_default() += 1;
            if let Some(judge) = allowed.counted_by {
                *self.counts.entry((call.function, judge)).or_default() += 1;
            }
        }
        if let Some(port) = port {
            if let Err(why) = compared(call, &e, port, self.total()) {
                self.fail(call, &why);
            }
        }
        e.number
    }

    // a call whose answer is stated beforehand
    pub fn stated(&mut self, call: &Call, stated: Stated, port: Option<Port>) {
        let e = expected(call);
        let answered = match (e.number, &e.after[call.rows_reduced()]) {
            (0, After::Bytes(rows)) => Ok(words_of(rows)[0]),
            (number, _) => Err(number),
        };
        if answered != stated {
            self.fail(call, &format!("stated is {stated:?}, expected {answered:?}"));
        }
        self.run(call, port);
    }

    // a call whose number is stated beforehand
    pub fn stated_number(&mut self, call: &Call, number: u32, port: Option<Port>) {
        let answered = self.run(call, port);
        if answered != number {
            self.fail(call, &format!("stated is {number}, expected {answered}"));
        }
    }

    // a call at two scales
    pub fn scaled(&mut self, scaled: &Scaled, port: Option<Port>) {
        if !scaled.answers_agree() {
            self.fail(&scaled.other, "the answers are not those of the unscaled call, scaled");
        }
        self.run(&scaled.own, port);
        self.run(&scaled.other, port);
    }

    pub fn total(&self) -> usize {
        self.calls.values().sum()
    }

    pub fn failures(&self) -> usize {
        self.failed.values().sum()
    }

    fn fail(&mut self, call: &Call, why: &str) {
        *self.failed.entry(call.function).or_default() += 1;
        if self.failures() <= SHOWN {
            println!("FAILED: {why}\n  {}", shown(call));
        }
    }

    pub fn print(&self) {
        for (function, count) in &self.calls {
            let mut line = format!("{function:?}: {count} calls;");
            for ((_, number), times) in self.answers.iter().filter(|a| a.0 .0 == *function) {
                line += &if *number == 0 {
                    format!(" accepted {times}")
                } else {
                    format!(", refused {number}: {times}")
                };
            }
            if let Some(times) = self.failed.get(function) {
                line += &format!("; FAILED {times}");
            }
            println!("{line}");
        }
        for ((difference, manner), times) in &self.differences {
            println!("listed difference {difference:?}, the Rust {manner:?}: {times}");
        }
        for function in PIVOTING {
            let answers = told("answers", of(&self.judges, function));
            println!("pivots of {function:?}: {answers}");
        }
        for function in ALLOWING {
            let [beyond, singular, not_finite, exactly, within] = self.met(function);
            let refused = format!("{beyond} refused with 18, {singular} with 13 and {not_finite} with 20 before that");
            let accepted = format!("{exactly} accepted at the very count, {within} above it or without one");
            let counts = told("counts above 0", of(&self.counts, function));
            println!("allowances of {function:?}: {refused}, {accepted}; {counts}");
        }
        println!("solves refused with 20 left of a pivot alone: {}", self.left_alone);
    }

    fn met(&self, function: Function) -> [usize; 5] {
        Met::ALL.map(|met| self.allowances.get(&(function, met)).copied().unwrap_or(0))
    }

    pub fn by_model(&self) -> usize {
        let by_model = self.judges.iter().filter(|entry| entry.0 .1 != Judge::Rust);
        by_model.map(|entry| entry.1).sum()
    }

    // no answer showed this difference
    pub fn lacks(&self, difference: Difference) -> bool {
        !self.differences.contains_key(&(difference, Manner::Accepts))
    }

    // a function of which the Rust gave no answer, or the model none unlike the Rust's
    pub fn unjudged(&self) -> Option<Function> {
        let mut functions = PIVOTING.into_iter();
        functions.find(|&function| one_sided(of(&self.judges, function)))
    }

    // a function whose allowances were not met in every way, or that lacks a count by the Rust or one by the model that is unlike
    pub fn unallowed(&self) -> Option<Function> {
        let mut functions = ALLOWING.into_iter();
        let lacks = |function, met: Met| {
            outcomes::may_answer(function, met.number()) && !self.allowances.contains_key(&(function, met))
        };
        functions.find(|&f| Met::ALL.into_iter().any(|met| lacks(f, met)) || one_sided(of(&self.counts, f)))
    }

    // a function and a number that it may answer and never did
    pub fn unseen(&self) -> Option<(Function, u32)> {
        let all = Function::ALL
            .iter()
            .flat_map(|&function| outcomes::of(function).iter().map(move |&number| (function, number)));
        all.into_iter().find(|outcome| !self.answers.contains_key(outcome))
    }
}

// by the Rust, and by the model alike and unlike the Rust
fn of(judges: &BTreeMap<(Function, Judge), usize>, function: Function) -> [usize; 3] {
    let each = [Judge::Rust, Judge::Model { alike: true }, Judge::Model { alike: false }];
    each.map(|judge| judges.get(&(function, judge)).copied().unwrap_or(0))
}

fn told(what: &str, [by_rust, alike, unlike]: [usize; 3]) -> String {
    let by_model = alike + unlike;
    format!("{by_rust} {what} by the Rust, {by_model} by the model, {unlike} of them unlike the Rust's")
}

fn one_sided([by_rust, _, unlike]: [usize; 3]) -> bool {
    by_rust == 0 || unlike == 0
}

fn compared(call: &Call, e: &Expected, port: Port, turn: usize) -> Result<(), String> {
    let of_slice = |i: usize| move |why: String| format!("slice {i} {why}");
    let slices = call.function.slices();
    assert_eq!(call.slices.len(), slices.len());
    let mut crossings = Vec::new();
    for (i, (&slice, bytes)) in slices.iter().zip(&call.slices).enumerate() {
        crossings.push(Crossing::to(port, slice, bytes, (turn + i) % 8).map_err(of_slice(i))?);
    }
    let parts: Vec<Part> = crossings.iter_mut().map(Crossing::part).collect();
    let number = port(call.function, &call.wholes, &call.reals, &parts);
    if number != e.number {
        return Err(format!("answered {number}, expected {}", e.number));
    }
    for (i, crossing) in crossings.into_iter().enumerate() {
        crossing.back(port, &e.after[i], &call.slices[i]).map_err(of_slice(i))?;
    }
    Ok(())
}
