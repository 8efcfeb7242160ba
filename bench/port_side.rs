// The port: slices made before the clock starts; outputs and work slices are not cleared between calls.
use crate::inputs::Inputs;
use crate::timing::Work;
use crate::Task;
use oracle::call::Call;
use oracle::functions::ward::Study;
use oracle::functions::*;
use oracle::header::Function;
use oracle::port::{Part, Port};
use oracle::words::{bytes_of_reals, words_of, words_of_reals};

fn study(i: &Inputs) -> Study {
    Study {
        n: i.n,
        y: i.y.clone(),
        numbers: i.numbers.clone(),
        internal: i.named(&i.internal),
        external: i.named(&i.external),
        boundary: i.named(&i.boundary),
        base: 100.0,
        p: i.p.clone(),
        q: i.q.clone(),
        v: i.v.clone(),
    }
}

fn call(task: Task, i: &Inputs) -> Call {
    let n = i.n;
    let record = || reducer::bytes(&i.numbers, &(0..n).collect::<Vec<_>>());
    let y = || bytes_of_reals(&i.y);
    match task {
        Task::NumbersOfBytes => conversions::of(Function::NumbersOfBytes, &words_of_reals(&i.y)),
        Task::BytesOfNumbers => conversions::of(Function::BytesOfNumbers, &words_of_reals(&i.y)),
        Task::Removal => eliminate_bus::of(record(), y(), i.numbers[n / 2]),
        Task::Removals => eliminate_buses::of(record(), y(), &i.named(&i.half)),
        Task::Solve => solve_linear::of(n, &i.y, &i.right),
        Task::Inverse => complex_matrix_inverse::of(n, &i.y),
        Task::Thevenin => thevenin_impedance::of(record(), y(), i.numbers[0], i.numbers[n - 1]),
        Task::Ward => ward_compute::of(&study(i)),
        Task::ExtendedWard => ward_compute_extended::of(&study(i)),
        Task::Rei => rei_compute::of(&i.from[..n / 2], &i.from[n / 2..], &i.y, &i.x, &i.x, n as u64),
        Task::Retained => retained_buses::of(n, &i.half),
        Task::BBus => build_b_bus::of(n, &i.from, &i.to, &i.x),
        Task::Lodf => lodf_matrix::of(n, &i.ptdf, &i.from, &i.to),
    }
}

// The slices of one call, aligned as numbers, and where they stand.
struct Lent {
    _slices: Vec<Vec<u64>>,
    parts: Vec<Part>,
}

fn lent(call: &Call) -> Lent {
    // with a word more than the bytes fill
    let words = |bytes: &Vec<u8>| words_of(&[&bytes[..], &[0; 8]].concat());
    let mut slices: Vec<Vec<u64>> = call.slices.iter().map(words).collect();
    let parts = slices
        .iter_mut()
        .enumerate()
        .map(|(i, words)| Part {
            at: words.as_mut_ptr().cast(),
            count: call.count(i),
        })
        .collect();
    Lent { _slices: slices, parts }
}

struct PortWork {
    call: Call,
    port: Port,
    // a removal changes its slices, so each call has its own
    changing: bool,
    copies: Vec<Lent>,
}

impl Work for PortWork {
    fn reset(&mut self, copies: usize) {
        let wanted = if self.changing { copies } else { 1 };
        if self.changing || self.copies.is_empty() {
            self.copies = (0..wanted).map(|_| lent(&self.call)).collect();
        }
    }
    fn run(&mut self, copy: usize) {
        let parts = &self.copies[if self.changing { copy } else { 0 }].parts;
        let call = &self.call;
        assert_eq!((self.port)(call.function, &call.wholes, &call.reals, parts), 0);
    }
}

pub fn side(task: Task, i: &Inputs, port: Port) -> Box<dyn Work> {
    let changing = matches!(task, Task::Removal | Task::Removals);
    Box::new(PortWork {
        call: call(task, i),
        port,
        changing,
        copies: Vec::new(),
    })
}
