// What a call must answer, and what every slice must hold after it.
use crate::allowances::{Allowed, Met};
use crate::ask::Asked;
use crate::call::Call;
use crate::differences::{judged, state_number, Difference, Told};
use crate::finite::Stop;
use crate::header::Of;
use crate::outcomes::may_answer;
use crate::pivots::Judge;
use crate::words::{bytes_of, plain, reals_of, words_of};

#[derive(Clone, Debug, PartialEq)]
pub enum After {
    // the same bits
    Held,
    Zero,
    Bytes(Vec<u8>),
}

impl After {
    // the bytes that come back of a slice that held `before`
    pub fn bytes(&self, of: Of, before: &[u8]) -> Vec<u8> {
        match self {
            After::Held if of == Of::Numbers => bytes_of(&plain(of, &words_of(before))),
            After::Held => before.to_vec(),
            After::Zero => vec![0; before.len()],
            After::Bytes(bytes) => bytes.clone(),
        }
    }
}

pub struct Expected {
    pub number: u32,
    pub after: Vec<After>,
    pub told: Told,
    // listed differences that the answer shows
    pub noted: Vec<Difference>,
    // none where no pivot was searched
    pub judge: Option<Judge>,
    // the row reductions until the work ends, where they are counted
    pub rows: Option<u64>,
    // none where nothing was eliminated within an allowance
    pub allowed: Option<Allowed>,
}

impl Expected {
    pub fn held(call: &Call, number: u32, told: Told) -> Self {
        Expected {
            number,
            after: vec![After::Held; call.slices.len()],
            told,
            noted: Vec::new(),
            judge: None,
            rows: None,
            allowed: None,
        }
    }

    fn wrong(call: &Call, why: String) -> Self {
        Self::held(call, 0, Told::Wrong(why))
    }

    pub fn with(mut self, slice: usize, after: After) -> Self {
        self.after[slice] = after;
        self
    }

    pub fn bytes(self, slice: usize, bytes: Vec<u8>) -> Self {
        self.with(slice, After::Bytes(bytes))
    }

    pub fn words(self, slice: usize, words: Vec<u64>) -> Self {
        self.bytes(slice, bytes_of(&words))
    }

    // single answers, one in each slice from the first
    pub fn singles(self, first: usize, words: &[u64]) -> Self {
        let places = first..;
        places
            .zip(words)
            .fold(self, |e, (slice, &word)| e.words(slice, vec![word]))
    }

    // of an answer that the Rust gives
    pub fn noting(mut self, difference: Difference) -> Self {
        if matches!(self.told, Told::ByReference) {
            self.noted.push(difference);
        }
        self
    }

    pub fn is_wrong(&self) -> bool {
        matches!(self.told, Told::Wrong(_))
    }

    pub fn by(mut self, judge: Judge) -> Self {
        self.judge = Some(judge);
        self
    }

    // after so many row reductions, which an accepted call tells
    pub fn reducing(mut self, call: &Call, rows: u64) -> Self {
        self.rows = Some(rows);
        if self.number == 0 {
            self.words(call.rows_reduced(), vec![rows])
        } else {
            self
        }
    }

    pub fn same(&self, other: &Expected) -> bool {
        self.number == other.number && self.after == other.after && self.rows == other.rows
    }

    pub fn allowing(mut self, allowance: u64, rows: u64, counted_by: Judge) -> Self {
        self.allowed = Some(Allowed {
            met: Met::of(self.number, allowance, rows),
            counted_by: (rows > 0).then_some(counted_by),
        });
        self
    }

    pub fn failing(mut self, why: &str) -> Self {
        self.told = Told::Wrong(why.to_string());
        self
    }
}

// Refused by the input if a fault applies; else as the Rust says, with what is written where it accepts.
// `work` is the slice that 13 and 20 leave all +0.
pub fn expected<T>(
    call: &Call,
    faults: &[u32],
    asked: Asked<T>,
    work: Option<usize>,
    written: impl FnOnce(Expected, T) -> Expected,
) -> Expected {
    if !faults.is_empty() {
        return Expected::held(call, faults[0], judged(call.function, faults, asked.manner()));
    }
    match asked {
        Asked::Accepts(answer) => {
            let done = written(Expected::held(call, 0, Told::ByReference), answer);
            match work {
                Some(w) => done.with(w, After::Zero),
                None => done,
            }
        }
        Asked::Errs(kind) => match state_number(call.function, kind) {
            Some(number) if may_answer(call.function, number) => stopped(call, number, work),
            _ => Expected::wrong(call, format!("no fault, and the Rust errs with {kind:?}")),
        },
        Asked::NotFinite if may_answer(call.function, 20) => stopped(call, 20, work),
        Asked::Unlike => Expected::wrong(call, "the watched copy of the Rust does otherwise".to_string()),
        other => Expected::wrong(call, format!("no fault, and the Rust {:?}", other.manner())),
    }
}

// refused in its work
pub fn stopped(call: &Call, number: u32, work: Option<usize>) -> Expected {
    let held = Expected::held(call, number, Told::ByReference);
    match work {
        Some(w) if number != 11 => held.with(w, After::Zero),
        _ => held,
    }
}

// The same of a call that no elimination decides: a model of its work must end alike.
pub fn by_work<T>(
    call: &Call,
    faults: &[u32],
    asked: Asked<T>,
    model: impl FnOnce() -> Result<(), Stop>,
    written: impl FnOnce(Expected, T) -> Expected,
) -> Expected {
    let e = expected(call, faults, asked, None, written);
    if !faults.is_empty() {
        return e;
    }
    let number = model().map_or_else(|stop| stop.number(call.function), |()| 0);
    if e.number == number {
        e
    } else {
        e.failing(&format!("the model answers {number}, and the Rust otherwise"))
    }
}

// The refusals of a list of (number, whether it applies), lowest first.
pub fn faults(of: &[(u32, bool)]) -> Vec<u32> {
    let mut numbers: Vec<u32> = of.iter().filter(|f| f.1).map(|f| f.0).collect();
    numbers.sort();
    numbers.dedup();
    numbers
}

// 19 is told last: of a call that nothing else refuses, where one of these numbers is not finite.
pub fn then_given(faults: Vec<u32>, given: impl IntoIterator<Item = f64>) -> Vec<u32> {
    if faults.is_empty() && given.into_iter().any(|x| !x.is_finite()) {
        vec![19]
    } else {
        faults
    }
}

// all numbers in these slices
pub fn numbers_in(call: &Call, slices: &[usize]) -> Vec<f64> {
    slices.iter().flat_map(|&i| reals_of(&call.slices[i])).collect()
}
