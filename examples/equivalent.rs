//! Buses 101 and 205: bus 205 is taken out by a Kron reducer and by a Ward study, and each refuses a wrong call.
//!
//!     rustc --edition 2021 -L crates/entries/out examples/equivalent.rs

/// Safe calls over entries of include/jeturipe.h: every length is that of the slice or vector it goes with, no pointer
/// is null, and what an entry writes is borrowed by nobody else.
mod jeturipe {
    use std::fmt;

    /// An allowance of row reductions that is enough for any study.
    pub const UNLIMITED: usize = usize::MAX;

    const LIMIT: usize = 256;
    const RECORD: usize = 1296;
    type Record = [u8; RECORD];

    #[rustfmt::skip] // a pointer and its length share a line
    #[link(name = "entries", kind = "static")]
    extern "C" {
        fn jeturipe_kron_new(
            n: usize, y: *const f64, y_len: usize, numbers: *const u32, numbers_len: usize,
            rec: &mut Record, rec_len: usize,
        ) -> u32;
        fn jeturipe_eliminate_bus(rec: &mut Record, rec_len: usize, y: *mut f64, y_len: usize, bus: u32) -> u32;
        fn jeturipe_active_buses(
            rec: &Record, rec_len: usize, buses: *mut u32, buses_len: usize, count: &mut usize,
        ) -> u32;
        fn jeturipe_ward_compute(
            n: usize, y: *const f64, y_len: usize, numbers: *const u32, numbers_len: usize,
            internal: *const u32, internal_len: usize, external: *const u32, external_len: usize,
            boundary: *const u32, boundary_len: usize,
            base_mva: f64, p_ext: *const f64, p_ext_len: usize, q_ext: *const f64, q_ext_len: usize, allowance: usize,
            y_ward: *mut f64, y_ward_len: usize, p_ward: *mut f64, p_ward_len: usize,
            q_ward: *mut f64, q_ward_len: usize, work: *mut f64, work_len: usize,
            n_buses_reduced: &mut usize, n_buses_equivalent: &mut usize, reduction_ratio: &mut f64,
            rows_reduced: &mut usize,
        ) -> u32;
    }

    /// A call that was refused, by the header's number; it changed nothing.
    #[derive(Clone, Copy, PartialEq, Eq)]
    pub struct Refusal(pub u32);

    impl fmt::Display for Refusal {
        fn fmt(&self, f: &mut fmt::Formatter) -> fmt::Result {
            let meaning = match self.0 {
                1 => "more than 256 buses, branches or elements of a list",
                2 => "a slice is not of its exact length, or there is not a number for each row",
                3 => "lists that belong together differ in length",
                4 => "an REI equivalent of no bus",
                5 => "a system of size 0, or a right side of another length",
                6 => "a branch ends at a bus that is not there (here buses are rows, from 0)",
                7 => "a Ward list names a bus that is none of the study's numbers",
                8 => "two rows have one number, or a bus stands twice in the Ward lists",
                9 => "the record is none that a making or a removal leaves",
                11 => "the reducer has no such bus, or it was removed",
                12 => "the bus's own admittance is too small to divide by",
                13 => "a pivot is numerically nothing, below 1e-150 in size",
                18 => "the work takes more row reductions than are allowed",
                19 => "a number handed in is infinite or NaN",
                20 => "a number computed is infinite or NaN",
                _ => "not a refusal of this library",
            };
            write!(f, "refused with {}: {meaning}", self.0)
        }
    }

    /// So that main and unwrap tell the meaning too.
    impl fmt::Debug for Refusal {
        fn fmt(&self, f: &mut fmt::Formatter) -> fmt::Result {
            write!(f, "{self}")
        }
    }

    impl std::error::Error for Refusal {}

    fn carried_out(answer: u32) -> Result<(), Refusal> {
        match answer {
            0 => Ok(()),
            number => Err(Refusal(number)),
        }
    }

    pub struct Reducer {
        n: usize,
        rec: Record,
        y: Vec<f64>,
    }

    impl Reducer {
        /// Of the buses with these numbers, one a row of y: 2 n n numbers for n of them, per unit.
        pub fn new(numbers: &[u32], y: &[f64]) -> Result<Reducer, Refusal> {
            let (n, at, mut rec) = (numbers.len(), numbers.as_ptr(), [0; RECORD]);
            carried_out(unsafe { jeturipe_kron_new(n, y.as_ptr(), y.len(), at, n, &mut rec, RECORD) })?;
            Ok(Reducer { n, rec, y: y.to_vec() })
        }

        pub fn eliminate_bus(&mut self, bus: u32) -> Result<(), Refusal> {
            let y = &mut self.y;
            carried_out(unsafe { jeturipe_eliminate_bus(&mut self.rec, RECORD, y.as_mut_ptr(), y.len(), bus) })
        }

        /// The numbers of the m buses that are left, and their m rows of m entries, per unit.
        pub fn left(&self) -> Result<(Vec<u32>, &[f64]), Refusal> {
            let (mut buses, mut m) = (vec![0; self.n], 0);
            let at = buses.as_mut_ptr();
            carried_out(unsafe { jeturipe_active_buses(&self.rec, RECORD, at, buses.len(), &mut m) })?;
            buses.truncate(m);
            Ok((buses, &self.y[..2 * m * m]))
        }
    }

    /// numbers: those of the n buses, one a row of y (2 n n numbers, per unit); the lists hold such numbers.
    /// p_ext, q_ext: MW and MVAr fed in at the external buses. allowance: of row reductions.
    pub struct Study<'a> {
        pub numbers: &'a [u32],
        pub y: &'a [f64],
        pub internal: &'a [u32],
        pub external: &'a [u32],
        pub boundary: &'a [u32],
        pub base_mva: f64,
        pub p_ext: &'a [f64],
        pub q_ext: &'a [f64],
        pub allowance: usize,
    }

    /// y: per unit, rows and columns are the internal list, then the boundary list.
    /// p, q: MW and MVAr fed in at the boundary buses.
    #[derive(Debug, Default)]
    pub struct Equivalent {
        pub y: Vec<f64>,
        pub p: Vec<f64>,
        pub q: Vec<f64>,
        pub original: usize,
        pub size: usize,
        pub ratio: f64,
        pub rows_reduced: usize,
    }

    pub fn ward(s: &Study) -> Result<Equivalent, Refusal> {
        // A longer list is refused with 1, whatever the lengths.
        let [i, e, b] = [s.internal, s.external, s.boundary].map(|list| list.len().min(LIMIT));
        let r = i + b;
        let mut w = Equivalent::default();
        (w.y, w.p, w.q) = (vec![0.0; 2 * r * r], vec![0.0; b], vec![0.0; b]);
        let mut work = vec![0.0; 2 * e * (e + r + 1)];
        #[rustfmt::skip]
        let answer = unsafe {
            jeturipe_ward_compute(
                s.numbers.len(), s.y.as_ptr(), s.y.len(), s.numbers.as_ptr(), s.numbers.len(),
                s.internal.as_ptr(), s.internal.len(),
                s.external.as_ptr(), s.external.len(), s.boundary.as_ptr(), s.boundary.len(),
                s.base_mva, s.p_ext.as_ptr(), s.p_ext.len(), s.q_ext.as_ptr(), s.q_ext.len(), s.allowance,
                w.y.as_mut_ptr(), w.y.len(), w.p.as_mut_ptr(), w.p.len(),
                w.q.as_mut_ptr(), w.q.len(), work.as_mut_ptr(), work.len(),
                &mut w.original, &mut w.size, &mut w.ratio, &mut w.rows_reduced,
            )
        };
        carried_out(answer).map(|()| w)
    }
}

use jeturipe::{ward, Reducer, Refusal, Study, UNLIMITED};

/// Admittances in per unit, real then imaginary, row after row: 1, -1 / -1, 2.
const M: [f64; 8] = [1.0, 0.0, -1.0, 0.0, -1.0, 0.0, 2.0, 0.0];

/// The rows' buses, by the numbers on the drawing.
const NUMBERS: [u32; 2] = [101, 205];

fn remove_bus_205() -> Result<(), Refusal> {
    let mut reducer = Reducer::new(&NUMBERS, &M)?;
    println!("Bus 205 is removed:");
    reducer.eliminate_bus(205)?;
    let (buses, y) = reducer.left()?;
    for (row, bus) in buses.iter().enumerate() {
        let own = 2 * (row * buses.len() + row);
        let (re, im) = (y[own], y[own + 1]);
        println!("  bus {bus} is left, its admittance is {re} + j{im} per unit");
    }
    println!("Bus 205 is removed again:");
    println!("  {}", reducer.eliminate_bus(205).expect_err("bus 205 is gone"));
    Ok(())
}

fn main() -> Result<(), Refusal> {
    remove_bus_205()?;
    let study = Study {
        numbers: &NUMBERS,
        y: &M,
        internal: &[],
        external: &[205],
        boundary: &[101],
        base_mva: 100.0,
        p_ext: &[50.0], // MW
        q_ext: &[0.0],  // MVAr
        allowance: UNLIMITED,
    };
    println!("Ward study, boundary bus 101, external bus 205 with 50 MW and 0 MVAr, base 100 MVA:");
    let w = ward(&study)?;
    println!("  admittance of bus 101: {} + j{} per unit", w.y[0], w.y[1]);
    println!("  fed in at bus 101: {} MW and {} MVAr", w.p[0], w.q[0]);
    let (ratio, rows) = (w.ratio, w.rows_reduced);
    println!(
        "  {} buses become {}, reduction ratio {ratio}, rows reduced: {rows}",
        w.original, w.size
    );
    println!("The same study, its buses counted from 1, boundary bus 1, external bus 2:");
    let from_one = Study {
        external: &[2],
        boundary: &[1],
        ..study
    };
    println!("  {}", ward(&from_one).expect_err("there is no bus 2"));
    Ok(())
}
