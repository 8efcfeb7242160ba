// What both Ward calls share: the study's lists, its refusals, and the Rust's answer in the entry's order.
use super::{ASKED, LIMIT};
use crate::buses::{self, repeats};
use crate::call::Call;
use crate::matrices::matrix;
use crate::numbers::{kind, real, reals, Kind};
use crate::source::Source;
use crate::words::{buses_of, bytes_of_buses, bytes_of_reals, reals_of, rows_of, word, Rows};
use reference::reduction::{WardEquivalent, WardEquivalentConfig, WardEquivalentResult};
use reference::watched as copy;

pub const Y: usize = 0;
pub const NUMBERS: usize = 1;
pub const INTERNAL: usize = 2;
pub const EXTERNAL: usize = 3;
pub const BOUNDARY: usize = 4;
pub const P_EXT: usize = 5;
pub const Q_EXT: usize = 6;

pub struct Study {
    pub n: usize,
    pub y: Vec<f64>,
    // of each row
    pub numbers: Vec<u32>,
    pub internal: Vec<u32>,
    pub external: Vec<u32>,
    pub boundary: Vec<u32>,
    pub base: f64,
    pub p: Vec<f64>,
    pub q: Vec<f64>,
    pub v: Vec<f64>,
}

impl Study {
    pub fn retained(&self) -> usize {
        self.internal.len() + self.boundary.len()
    }

    pub fn work(&self) -> usize {
        let e = self.external.len();
        2 * e * (e + self.retained() + 1)
    }

    // matrix, numbers, lists and injections, as both calls take them
    pub fn given(&self) -> Vec<Vec<u8>> {
        vec![
            bytes_of_reals(&self.y),
            bytes_of_buses(&self.numbers),
            bytes_of_buses(&self.internal),
            bytes_of_buses(&self.external),
            bytes_of_buses(&self.boundary),
            bytes_of_reals(&self.p),
            bytes_of_reals(&self.q),
        ]
    }
}

// the outputs that follow the given slices
pub struct Places {
    pub y_ward: usize,
    pub p_ward: usize,
    pub q_ward: usize,
    pub work: usize,
    // n_buses_reduced, n_buses_equivalent, reduction_ratio; behind them rows_reduced
    pub summary: usize,
}

// 1 2 3 7 8, without what the extended call adds
pub fn refusals(call: &Call, at: &Places) -> Vec<(u32, bool)> {
    let n = call.size();
    let (e, b) = (call.count(EXTERNAL) as u128, call.count(BOUNDARY) as u128);
    let r = call.count(INTERNAL) as u128 + b;
    let lengths = call.holds(Y, 2 * n as u128 * n as u128)
        && call.holds(NUMBERS, n as u128)
        && call.holds(at.y_ward, 2 * r * r)
        && call.holds(at.p_ward, b)
        && call.holds(at.q_ward, b)
        && call.holds(at.work, 2 * e * (e + r + 1));
    let numbers = buses_of(&call.slices[NUMBERS]);
    let listed: Vec<u32> = (INTERNAL..=BOUNDARY).flat_map(|i| buses_of(&call.slices[i])).collect();
    let missing = listed.iter().any(|bus| !numbers.contains(bus));
    let twice = repeats(&numbers) || repeats(&listed);
    let unmatched = call.count(P_EXT) as u128 != e || call.count(Q_EXT) as u128 != e;
    let long = (NUMBERS..=Q_EXT).any(|i| call.count(i) > LIMIT);
    vec![
        (1, n > LIMIT || long),
        (2, !lengths),
        (3, unmatched),
        (7, missing),
        (8, twice),
    ]
}

// the rows of list i: for a number that no row has one that the matrix lacks
pub fn rows(call: &Call, i: usize) -> Vec<usize> {
    let numbers = buses_of(&call.slices[NUMBERS]);
    let row = |bus: u32| buses::row(&numbers, bus).unwrap_or(call.size());
    buses_of(&call.slices[i]).into_iter().map(row).collect()
}

// the Rust's study; none where it is too large to ask
pub fn study(call: &Call, include_load_transfer: bool) -> Option<WardEquivalent> {
    let n = call.size();
    (n <= ASKED).then(|| study_of(call, rows_of(&call.slices[Y], n, n), include_load_transfer))
}

// the same of another matrix
pub fn study_of(call: &Call, y: Rows, include_load_transfer: bool) -> WardEquivalent {
    let config = WardEquivalentConfig {
        internal_buses: rows(call, INTERNAL),
        external_buses: rows(call, EXTERNAL),
        boundary_buses: rows(call, BOUNDARY),
        include_load_transfer,
        base_mva: call.reals[0],
    };
    WardEquivalent::new(call.size(), y, config)
}

// the watched copy of the study, and the injections that it is asked with
pub fn watched_copy(call: &Call) -> (copy::WardEquivalent, [Vec<copy::W>; 2]) {
    let n = call.size();
    let config = copy::WardEquivalentConfig {
        internal_buses: rows(call, INTERNAL),
        external_buses: rows(call, EXTERNAL),
        boundary_buses: rows(call, BOUNDARY),
        include_load_transfer: true,
        base_mva: copy::W(call.reals[0]),
    };
    let study = copy::WardEquivalent::new(n, copy::rows(&rows_of(&call.slices[Y], n, n)), config);
    let injections = [reals_of(&call.slices[P_EXT]), turned_q(call)];
    (study, injections.map(|xs| copy::numbers(&xs)))
}

fn negated(xs: &[f64]) -> Vec<f64> {
    xs.iter().map(|x| -x).collect()
}

// Q as given, and as the Rust is asked: a current is (P - jQ)/base by document 02 (P3), and the Rust's is (P + jQ)/base
pub fn own_q(call: &Call) -> Vec<f64> {
    reals_of(&call.slices[Q_EXT])
}

pub fn turned_q(call: &Call) -> Vec<f64> {
    negated(&own_q(call))
}

// the Rust's answer to Q turned, its own Q turned back; with no external bus no current is turned
pub fn turned_back(call: &Call, w: WardEquivalentResult) -> WardEquivalentResult {
    match call.count(EXTERNAL) {
        0 => w,
        _ => WardEquivalentResult {
            q_ward_injections: negated(&w.q_ward_injections),
            ..w
        },
    }
}

// original size, equivalent size, ratio
pub fn summary(w: &WardEquivalentResult) -> [u64; 3] {
    [
        w.n_buses_reduced as u64,
        w.n_buses_equivalent as u64,
        word(w.reduction_ratio),
    ]
}

// Buses dealt to the three lists, a few to none.
pub fn random(s: &mut Source, n: usize) -> Study {
    let numbers = buses::numbers(s, n);
    let mut lists = [Vec::new(), Vec::new(), Vec::new()];
    let spare = s.one_in(4);
    let none_external = s.one_in(10);
    for row in s.shuffled(n) {
        let list = s.below(if spare { 4 } else { 3 });
        if list < 3 && !(list == 1 && none_external) {
            lists[list].push(numbers[row]);
        }
    }
    let [internal, external, boundary] = lists;
    let e = external.len();
    let kind = kind(s);
    let base = if s.one_in(3) { real(s, kind) } else { 100.0 };
    let v = if s.one_in(3) {
        reals(s, kind, e)
    } else {
        reals(s, Kind::Unit, e).iter().map(|x| 1.0 + x / 8.0).collect()
    };
    Study {
        n,
        y: matrix(s, n),
        numbers,
        internal,
        external,
        boundary,
        base,
        p: reals(s, kind, e),
        q: reals(s, kind, e),
        v,
    }
}
