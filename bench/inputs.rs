// One grid of each size, and the studies that every side is timed on.
use oracle::buses;
use oracle::source::Source;

pub struct Inputs {
    pub n: usize,
    // the bus matrix, real then imaginary, row after row
    pub y: Vec<f64>,
    // of each row's bus, in no order
    pub numbers: Vec<u32>,
    pub right: Vec<f64>,
    // lists of rows: every second one, and a study's
    pub half: Vec<usize>,
    pub internal: Vec<usize>,
    pub external: Vec<usize>,
    pub boundary: Vec<usize>,
    pub p: Vec<f64>,
    pub q: Vec<f64>,
    pub v: Vec<f64>,
    pub from: Vec<usize>,
    pub to: Vec<usize>,
    pub x: Vec<f64>,
    pub ptdf: Vec<f64>,
}

// a full matrix, as after the first removals: diagonal above the rest, so that no pivot is small
fn full(s: &mut Source, n: usize) -> Vec<f64> {
    let mut y = Vec::new();
    for i in 0..n {
        for j in 0..n {
            let own = if i == j { n as f64 } else { 0.0 };
            y.push(own + s.unit() - 0.5);
            y.push(-4.0 * (own + s.unit() - 0.5));
        }
    }
    y
}

impl Inputs {
    // the numbers of the buses of these rows
    pub fn named(&self, rows: &[usize]) -> Vec<u32> {
        rows.iter().map(|&row| self.numbers[row]).collect()
    }
}

pub fn inputs(n: usize) -> Inputs {
    let mut s = Source::new(n as u64);
    let y = full(&mut s, n);
    let numbers = buses::any(&mut s, n);
    let rows = s.shuffled(n);
    let (internal, rest) = rows.split_at(n / 8);
    let (boundary, external) = rest.split_at(n / 8);
    let mut list = |count: usize, base: f64| (0..count).map(|_| base + s.unit()).collect::<Vec<f64>>();
    let (right, x, ptdf) = (list(2 * n, 0.0), list(n, 0.1), list(n * n, -0.5));
    let (p, q, v) = (
        list(external.len(), 10.0),
        list(external.len(), 1.0),
        list(external.len(), 0.5),
    );
    Inputs {
        n,
        y,
        numbers,
        right,
        half: (0..n).step_by(2).collect(),
        internal: internal.to_vec(),
        external: external.to_vec(),
        boundary: boundary.to_vec(),
        p,
        q,
        v,
        from: (0..n).collect(),
        to: (0..n).map(|i| (i + 1) % n).collect(),
        x,
        ptdf,
    }
}

// The same with admittances and factors times 2^210.
pub fn huge(n: usize) -> Inputs {
    let mut given = inputs(n);
    for x in given.y.iter_mut().chain(&mut given.ptdf) {
        *x *= 2f64.powi(210);
    }
    given
}
