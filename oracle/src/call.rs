// One call of an entry: the numbers and the slices that it is handed, in the order of include/jeturipe.h.
pub use crate::header::Function;

#[derive(Clone, Debug)]
pub struct Call {
    pub function: Function,
    pub wholes: Vec<u64>,
    pub reals: Vec<f64>,
    // in bytes, 8 a number and 4 a bus number; a single answer is a slice of one
    pub slices: Vec<Vec<u8>>,
}

impl Call {
    // elements in slice i
    pub fn count(&self, i: usize) -> usize {
        self.slices[i].len() / self.function.slices()[i].of.width()
    }

    // slice i holds exactly so many elements
    pub fn holds(&self, i: usize, count: u128) -> bool {
        self.count(i) as u128 == count
    }

    pub fn size(&self) -> usize {
        self.wholes[0] as usize
    }

    // of a call that takes an allowance of row reductions, behind its size
    pub fn allowance(&self) -> u64 {
        self.wholes[1]
    }

    pub fn allowing(mut self, allowance: u64) -> Self {
        self.wholes[1] = allowance;
        self
    }

    // its last slice, by which it tells how many rows it reduced
    pub fn rows_reduced(&self) -> usize {
        self.slices.len() - 1
    }
}

// what an output or work slice of so many bytes holds before the call: bytes that no call would write
pub fn dirty_bytes(length: usize) -> Vec<u8> {
    (0..length).map(|i| 0xa5 ^ (i % 251) as u8).collect()
}

// the same of so many numbers
pub fn dirty(count: usize) -> Vec<u8> {
    dirty_bytes(8 * count)
}

// A call as a line for a report.
pub fn shown(call: &Call) -> String {
    let mut line = format!("{:?} numbers {:?} {:?}", call.function, call.wholes, call.reals);
    for (i, slice) in call.slices.iter().enumerate() {
        line += &format!("\n    slice {i}, {} bytes:", slice.len());
        for part in slice.chunks(8).take(24) {
            let digits: String = part.iter().rev().map(|b| format!("{b:02x}")).collect();
            line += &format!(" {digits}");
        }
    }
    line
}
