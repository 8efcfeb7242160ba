// numbers_of_bytes(bytes, numbers), bytes_of_numbers(numbers, bytes), the same of words and of bus numbers:
// what Rust's own from_le_bytes and to_le_bytes give, any NaN in one pattern.
use crate::ask::Asked;
use crate::call::{dirty_bytes, Call, Function};
use crate::differences::Told;
use crate::expected::{self, faults, Expected};
use crate::header::Of;
use crate::numbers::{kind, real};
use crate::source::Source;
use crate::words::{bytes_of_elements, elements_of, plain};

pub const ALL: [Function; 6] = [
    Function::NumbersOfBytes,
    Function::BytesOfNumbers,
    Function::WordsOfBytes,
    Function::BytesOfWords,
    Function::BusNumbersOfBytes,
    Function::BytesOfBusNumbers,
];

const GIVEN: usize = 0;
const OUT: usize = 1;

// what the bytes are those of
fn of_elements(function: Function) -> Of {
    let [given, out] = [GIVEN, OUT].map(|i| function.slices()[i].of);
    if given == Of::Bytes {
        out
    } else {
        given
    }
}

pub fn of(function: Function, elements: &[u64]) -> Call {
    let given = bytes_of_elements(of_elements(function), elements);
    let out = dirty_bytes(given.len());
    Call {
        function,
        wholes: Vec::new(),
        reals: Vec::new(),
        slices: vec![given, out],
    }
}

pub fn expected(call: &Call) -> Expected {
    let misfit = call.slices[GIVEN].len() != call.slices[OUT].len();
    let of = of_elements(call.function);
    let elements = plain(of, &elements_of(of, &call.slices[GIVEN]));
    let answer = if misfit {
        Asked::NotAsked
    } else {
        Asked::Accepts(elements)
    };
    let mut e = expected::expected(call, &faults(&[(2, misfit)]), answer, None, |e, elements| {
        e.bytes(OUT, bytes_of_elements(of, &elements))
    });
    // a refusal is the header's own, beside no Rust
    e.told = Told::ByReference;
    e
}

// mostly numbers, among them NaNs of any pattern; words and bus numbers are any
fn drawn(s: &mut Source, of: Of) -> u64 {
    let kind = kind(s);
    match s.below(4) {
        0 => s.bits() | 0x7ff0_0000_0000_0000,
        1 => s.bits(),
        2 if of != Of::Numbers => s.below(100) as u64,
        _ => real(s, kind).to_bits(),
    }
}

pub fn random(function: Function, s: &mut Source, n: usize) -> Call {
    let count = if s.one_in(8) { s.below(400) } else { n };
    let words: Vec<u64> = (0..count).map(|_| drawn(s, of_elements(function))).collect();
    of(function, &words)
}
