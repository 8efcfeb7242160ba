// cadd csub cmul cdiv cneg complex_inv abs sqrt magnitude: numbers in, one or two out.
use crate::ask::{ask, watched};
use crate::call::{dirty, Call, Function};
use crate::expected::{self, then_given, Expected};
use crate::finite::{self, met, Stop};
use crate::numbers::{kind, reals};
use crate::source::Source;
use crate::words::{word, Pair};
use reference::reduction::{reach, WardEquivalent};
use reference::watched::{self as copy, W};

// of the first so many numbers that it takes
pub fn of(function: Function, mut reals: Vec<f64>) -> Call {
    reals.truncate(function.shape().reals);
    Call {
        function,
        wholes: Vec::new(),
        reals,
        slices: vec![dirty(1); function.slices().len()],
    }
}

// a and b, of which a call of fewer numbers has only the first
fn operands(x: &[f64]) -> (Pair, Pair) {
    let at = |i: usize| x.get(i).copied().unwrap_or(0.0);
    ((at(0), at(1)), (at(2), at(3)))
}

fn answer(function: Function, x: &[f64]) -> Vec<f64> {
    let (a, b) = operands(x);
    let pair = match function {
        Function::Cadd => reach::cadd(a, b),
        Function::Csub => reach::csub(a, b),
        Function::Cneg => reach::cneg(a),
        Function::Cmul => reach::cmul(a, b),
        Function::Cdiv => reach::cdiv(a, b),
        Function::ComplexInv => WardEquivalent::complex_inv(a.0, a.1),
        Function::Abs => return vec![a.0.abs()],
        Function::Sqrt => return vec![a.0.sqrt()],
        _ => return vec![(a.0 * a.0 + a.1 * a.1).sqrt()],
    };
    vec![pair.0, pair.1]
}

// the same by the watched copy
fn watched_answer(function: Function, x: &[f64]) {
    let (a, b) = operands(x);
    let [a, b] = [a, b].map(|c| (W(c.0), W(c.1)));
    match function {
        Function::Cadd => drop(copy::reach::cadd(a, b)),
        Function::Csub => drop(copy::reach::csub(a, b)),
        Function::Cneg => drop(copy::reach::cneg(a)),
        Function::Cmul => drop(copy::reach::cmul(a, b)),
        Function::Cdiv => drop(copy::reach::cdiv(a, b)),
        Function::ComplexInv => drop(copy::WardEquivalent::complex_inv(a.0, a.1)),
        Function::Abs => drop(a.0.abs()),
        Function::Sqrt => drop(a.0.sqrt()),
        _ => drop((a.0 * a.0 + a.1 * a.1).sqrt()),
    }
}

fn model(function: Function, x: &[f64]) -> Result<(), Stop> {
    let (a, b) = operands(x);
    match function {
        Function::Cadd => finite::cadd(a, b).map(drop),
        Function::Csub => finite::csub(a, b).map(drop),
        Function::Cmul => finite::cmul(a, b).map(drop),
        Function::Cdiv => finite::cdiv(a, b).map(drop),
        Function::ComplexInv => finite::cdiv((1.0, 0.0), a).map(drop),
        Function::Sqrt => met(a.0.sqrt()).map(drop),
        Function::Magnitude => finite::magnitude(a).map(drop),
        // a sign is no number of its own
        _ => Ok(()),
    }
}

pub fn expected(call: &Call) -> Expected {
    let (function, x) = (call.function, &call.reals[..]);
    let refusals = then_given(Vec::new(), x.iter().copied());
    let (asked, _) = watched(&refusals, ask(|| Ok(answer(function, x))), || {
        watched_answer(function, x);
        Ok(())
    });
    let work = || model(function, x);
    expected::by_work(call, &refusals, asked, work, |e, xs| {
        e.singles(0, &xs.into_iter().map(word).collect::<Vec<_>>())
    })
}

pub fn random(function: Function, s: &mut Source) -> Call {
    let kind = kind(s);
    of(function, reals(s, kind, function.shape().reals))
}
