// The reducer's record: size at making and present size, 8 bytes each, LIMIT places of active rows, a byte each, and LIMIT
// places of numbers, 4 bytes each.
use super::LIMIT;
use crate::buses::{self, numbers, repeats};
use crate::call::Call;
use crate::expected::{faults, then_given};
use crate::finite::{cdiv, cmul, csub, sqmag, Stop, TINY};
use crate::matrices::matrix;
use crate::source::Source;
use crate::words::{
    buses_of, bytes_of, bytes_of_buses, bytes_of_reals, padded, reals_of, rows_of, wholes_of, words_of_rows, Rows,
};
use reference::reduction::{reach, KronReducer};
use reference::watched as copy;

// where the rows and the numbers stand, and the bytes in all
pub const ROWS_AT: usize = 16;
pub const NUMBERS_AT: usize = ROWS_AT + LIMIT;
pub const RECORD: usize = NUMBERS_AT + 4 * LIMIT;

pub struct Record {
    pub made: usize,
    pub n_buses: usize,
    // of rows, and of numbers
    pub places: Vec<usize>,
    pub named: Vec<u32>,
}

// the record of a making with these numbers, of which these rows are left; above the limit it is cut
pub fn bytes(numbers: &[u32], active: &[usize]) -> Vec<u8> {
    let sizes = [numbers.len() as u64, active.len() as u64];
    let mut rows: Vec<u8> = active.iter().map(|&row| row as u8).collect();
    rows.resize(LIMIT, 0);
    let mut places = numbers.to_vec();
    places.resize(LIMIT, 0);
    [bytes_of(&sizes), rows, bytes_of_buses(&places)].concat()
}

// slice i as a record, where it has a record's length
pub fn record(call: &Call, i: usize) -> Option<Record> {
    if !call.holds(i, RECORD as u128) {
        return None;
    }
    let rec = &call.slices[i];
    let sizes = wholes_of(&rec[..ROWS_AT]);
    Some(Record {
        made: sizes[0],
        n_buses: sizes[1],
        places: rec[ROWS_AT..NUMBERS_AT].iter().map(|&row| row as usize).collect(),
        named: buses_of(&rec[NUMBERS_AT..]),
    })
}

impl Record {
    pub fn sound(&self) -> bool {
        self.sound_rows() && self.sound_numbers()
    }

    // active rows rising, below the size at making, as many as the present size, and 0 behind them
    fn sound_rows(&self) -> bool {
        if self.n_buses > LIMIT {
            return false;
        }
        let (active, behind) = self.places.split_at(self.n_buses);
        active.windows(2).all(|w| w[0] < w[1])
            && active.iter().all(|&b| b < self.made)
            && behind.iter().all(|&b| b == 0)
    }

    // no number twice, and 0 behind them
    fn sound_numbers(&self) -> bool {
        let (own, behind) = self.named.split_at(self.made.min(LIMIT));
        !repeats(own) && behind.iter().all(|&number| number == 0)
    }

    pub fn active(&self) -> &[usize] {
        &self.places[..self.n_buses]
    }

    pub fn numbers(&self) -> &[u32] {
        &self.named[..self.made.min(LIMIT)]
    }

    // the row that the Rust is asked for: one that it never has for a number that no row has
    pub fn row(&self, bus: u32) -> usize {
        buses::row(self.numbers(), bus).unwrap_or(usize::MAX)
    }
}

// numbers of a matrix of so many buses
pub fn square(made: u128) -> u128 {
    2 * made * made
}

// 1, 2 and 9 of a call on a record at slice 0; of a record of another length nothing is read
pub fn refusals(call: &Call, long_list: bool, fits: impl Fn(u128) -> bool) -> Vec<(u32, bool)> {
    match record(call, 0) {
        None => vec![(1, long_list), (2, true)],
        Some(r) => vec![
            (1, long_list || r.made > LIMIT),
            (2, !fits(r.made as u128)),
            (9, !r.sound()),
        ],
    }
}

// the same, and 19 of the matrix at slice 1, of which only the present rows are given
pub fn refused(call: &Call, long_list: bool, fits: impl Fn(u128) -> bool) -> Vec<u32> {
    let refused = faults(&refusals(call, long_list, fits));
    match record(call, 0) {
        Some(r) if refused.is_empty() => {
            let present = reals_of(&call.slices[1]).into_iter().take(2 * r.n_buses * r.n_buses);
            then_given(refused, present)
        }
        _ => refused,
    }
}

// The record, and the Rust's reducer with its rows and the matrix of slice 1; none where it has no counterpart there.
pub fn reducer(call: &Call) -> Option<(Record, KronReducer)> {
    let record = record(call, 0).filter(Record::sound)?;
    let k = record.n_buses;
    let r = reach::reducer(record.active().to_vec(), rows_of(&call.slices[1], k, k));
    Some((record, r))
}

// the watched copy of a reducer
pub fn watched_copy(r: &KronReducer) -> copy::KronReducer {
    copy::reach::reducer(reach::active(r).to_vec(), copy::rows(&r.y_full))
}

// A model of a reducer: the rows that are left, and the present matrix.
pub struct Model {
    active: Vec<usize>,
    y: Rows,
}

impl Model {
    pub fn of(r: &KronReducer) -> Self {
        Model {
            active: reach::active(r).to_vec(),
            y: r.y_full.clone(),
        }
    }

    pub fn remove(&mut self, row: usize) -> Result<(), Stop> {
        let place = self.active.iter().position(|&active| active == row);
        let k = place.ok_or(Stop::Absent)?;
        let own = self.y[k][k];
        if sqmag(own)? < TINY {
            return Err(Stop::Small);
        }
        let kept: Vec<usize> = (0..self.y.len()).filter(|&i| i != k).collect();
        let y = &self.y;
        let entry = |i: usize, j: usize| csub(y[i][j], cdiv(cmul(y[i][k], y[k][j])?, own)?);
        let new_row = |&i: &usize| kept.iter().map(|&j| entry(i, j)).collect::<Result<_, _>>();
        let new: Rows = kept.iter().map(new_row).collect::<Result<_, _>>()?;
        self.y = new;
        self.active.remove(k);
        Ok(())
    }

    // of these rows, one after the other: how many are removed, and what stops the others
    pub fn remove_all(&mut self, rows: &[usize]) -> (usize, Result<(), Stop>) {
        for (done, &row) in rows.iter().enumerate() {
            if let Err(stop) = self.remove(row) {
                return (done, Err(stop));
            }
        }
        (rows.len(), Ok(()))
    }
}

// what record and matrix slice hold after removals
pub fn left(before: &Record, length: usize, r: &KronReducer) -> (Vec<u8>, Vec<u64>) {
    (
        bytes(before.numbers(), reach::active(r)),
        padded(words_of_rows(&r.y_full), length),
    )
}

// all of so many rows, or some
pub fn some(s: &mut Source, made: usize) -> Vec<usize> {
    let gone = if s.one_in(2) { 0 } else { s.below(made + 1) };
    let mut active: Vec<usize> = s.shuffled(made).into_iter().skip(gone).collect();
    active.sort();
    active
}

// A reducer some of whose buses may be gone, with anything behind the present rows of its matrix.
pub struct Drawn {
    pub rec: Vec<u8>,
    pub y: Vec<u8>,
    pub numbers: Vec<u32>,
    // the numbers of the buses that are left
    pub left: Vec<u32>,
}

pub fn random(s: &mut Source, made: usize) -> Drawn {
    let numbers = numbers(s, made);
    let active = some(s, made);
    let mut y = matrix(s, active.len());
    let behind = s.pick(&[0.0, 0.0, 0.5, f64::NAN, f64::INFINITY]);
    y.resize(2 * made * made, behind);
    Drawn {
        rec: bytes(&numbers, &active),
        y: bytes_of_reals(&y),
        left: active.iter().map(|&row| numbers[row]).collect(),
        numbers,
    }
}

impl Drawn {
    // mostly one of these buses, now and then a removed one, a row, or any number
    pub fn bus(&self, s: &mut Source, of: &[u32]) -> u32 {
        match s.below(12) {
            0 if s.one_in(2) && !self.numbers.is_empty() => s.pick(&self.numbers),
            0 => s.below(self.numbers.len() + 2) as u32,
            1 if s.one_in(8) => s.pick(&[u32::MAX, 0, LIMIT as u32, 1 << 31, 0x0100_0000]),
            _ if of.is_empty() => 0,
            _ => s.pick(of),
        }
    }
}
