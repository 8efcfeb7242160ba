// Records answers of the Rust and, in one file, of the model of elimination: record FOLDER.
// README.md describes the files.
use oracle::allowances;
use oracle::ask::quietly;
use oracle::call::Call;
use oracle::functions::{conversions, expected, reductions, sound};
use oracle::header::Function;
use oracle::pivots::Judge;
use oracle::recorded::{case, filled};
use oracle::small_finite;
use oracle::source::Source;
use oracle::spoil::{spoil, unmatch};
use oracle::words::bytes_of;
use std::collections::BTreeMap;
use Function::*;

// for each function of a file: how many small cases, and the larger sizes
type Wanted<'a> = &'a [(Function, usize, &'a [usize])];

// the file of the answers that the model gives; in the others the Rust gives all, Ward's with Q turned
const BY_MODEL: &str = "tied.bin";

// a longer case is left out: of 256 buses those of a grid are recorded
const LONGEST: usize = 3 << 16;

fn small_size(s: &mut Source, at: usize) -> usize {
    let most = if s.one_in(4) { 6 } else { 3 };
    if at < 3 {
        0
    } else {
        1 + s.below(most)
    }
}

fn drawn(function: Function, s: &mut Source, allowances: &mut Source, n: usize) -> Call {
    let mut call = allowances::drawn(allowances, sound(function, s, n));
    match s.below(12) {
        0 => spoil(s, &mut call),
        1 => unmatch(s, &mut call),
        _ => {}
    }
    call
}

struct File {
    by_model: bool,
    count: u64,
    bytes: Vec<u8>,
    outcomes: BTreeMap<(Function, u32), usize>,
}

impl File {
    fn add(&mut self, call: &Call) -> bool {
        let call = filled(call.clone());
        let e = expected(&call);
        if self.by_model != matches!(e.judge, Some(Judge::Model { .. })) {
            return false;
        }
        let Some(bytes) = case(&call, &e).filter(|bytes| bytes.len() <= LONGEST) else {
            return false;
        };
        *self.outcomes.entry((call.function, e.number)).or_default() += 1;
        self.count += 1;
        self.bytes.extend(bytes);
        true
    }

    fn write(&self, folder: &str, name: &str) {
        let bytes = [bytes_of(&[self.count]), self.bytes.clone()].concat();
        std::fs::write(format!("{folder}/{name}"), &bytes).expect("the folder is there");
        println!(
            "{name}: {} cases, {} bytes; (function, outcome) and how often: {:?}",
            self.count,
            bytes.len(),
            self.outcomes
        );
    }
}

fn record(folder: &str, name: &str, seed: u64, wanted: Wanted) {
    let mut s = Source::new(seed);
    let mut allowances = Source::new(!seed);
    let mut file = File {
        by_model: name == BY_MODEL,
        count: 0,
        bytes: Vec::new(),
        outcomes: BTreeMap::new(),
    };
    // those whose number is stated come first
    small_finite::stated(&mut |call, _| {
        if wanted.iter().any(|w| w.0 == call.function) {
            file.add(&call);
        }
    });
    for &(function, count, _) in wanted {
        let mut taken = 0;
        while taken < count {
            let n = if file.by_model {
                1 + s.below(6)
            } else {
                small_size(&mut s, taken)
            };
            taken += file.add(&drawn(function, &mut s, &mut allowances, n)) as usize;
        }
    }
    // the large ones at the end
    for &(function, _, sizes) in wanted {
        for &n in sizes {
            while !file.add(&carried_out(function, &mut s, n)) {}
        }
    }
    file.write(folder, name);
}

// a large call that is carried out, with an allowance that is the count
fn carried_out(function: Function, s: &mut Source, n: usize) -> Call {
    loop {
        let call = sound(function, s, n);
        let call = match reductions(&call) {
            Some((rows, _)) => call.allowing(rows),
            None => call,
        };
        if expected(&call).number == 0 && sizeable(&call, n) {
            return call;
        }
    }
}

// a list or record that has not shrunk to nothing
fn sizeable(call: &Call, n: usize) -> bool {
    call.slices.iter().map(|s| s.len()).sum::<usize>() >= 8 * n
}

const FILES: [(&str, Wanted); 8] = [
    (
        "systems.bin",
        &[
            (SolveLinear, 500, &[7, 8, 16, 33, 64, 256]),
            (ComplexMatrixInverse, 400, &[7, 8, 16, 32, 65]),
        ],
    ),
    (
        "reducers.bin",
        &[
            (KronNew, 60, &[16, 64, 256]),
            (EliminateBus, 180, &[16, 64, 256]),
            (ActiveBuses, 80, &[16, 64, 256]),
            (ReducedMatrix, 80, &[16, 256]),
        ],
    ),
    ("lists.bin", &[(EliminateBuses, 220, &[8, 16, 33, 256])]),
    ("thevenin.bin", &[(TheveninImpedance, 300, &[8, 16, 48, 256])]),
    (
        "ward.bin",
        &[
            (WardCompute, 300, &[8, 16, 66]),
            (WardComputeExtended, 300, &[8, 16, 66]),
        ],
    ),
    ("rei.bin", &[(ReiCompute, 250, &[8, 16, 40, 256])]),
    (
        "dc.bin",
        &[
            (RetainedBuses, 150, &[16, 64, 256]),
            (BuildBBus, 250, &[8, 16, 64, 256]),
            (LodfMatrix, 250, &[8, 16, 66]),
        ],
    ),
    (
        BY_MODEL,
        &[
            (SolveLinear, 120, &[8, 16]),
            (ComplexMatrixInverse, 120, &[8, 16]),
            (TheveninImpedance, 120, &[8, 16]),
            (WardCompute, 120, &[8, 16]),
            (WardComputeExtended, 120, &[8, 16]),
        ],
    ),
];

fn main() {
    quietly();
    let folder = std::env::args().nth(1).expect("a folder");
    let scalars: Vec<_> = Function::scalars().map(|scalar| (scalar, 100, &[][..])).collect();
    let conversions = conversions::ALL.map(|conversion| (conversion, 60, &[][..]));
    let others: [(&str, Wanted); 2] = [("scalars.bin", &scalars), ("conversions.bin", &conversions)];
    for (i, (name, wanted)) in FILES.into_iter().chain(others).enumerate() {
        record(&folder, name, i as u64 + 1, wanted);
    }
}
