// The port's side of a comparison: what carries out a call, and the bytes that it is lent.
use crate::header::Function;

// A slice as an entry takes it: where it stands, and how many elements it has.
#[derive(Clone, Copy)]
pub struct Part {
    pub at: *mut u8,
    pub count: usize,
}

// Calls the entry with these whole numbers, real numbers and slices, and gives the number that it answered.
pub type Port = fn(Function, &[u64], &[f64], &[Part]) -> u32;

// Bytes within a buffer with others around them, at any alignment.
pub struct Lent {
    buffer: Vec<u8>,
    start: usize,
    length: usize,
}

const EDGE: usize = 16;
const FILL: u8 = 0x5c;

impl Lent {
    pub fn of(bytes: &[u8], shift: usize) -> Self {
        let start = EDGE + shift;
        let mut buffer = vec![FILL; start + bytes.len() + EDGE];
        buffer[start..start + bytes.len()].copy_from_slice(bytes);
        Lent {
            buffer,
            start,
            length: bytes.len(),
        }
    }

    pub fn bytes(&self) -> &[u8] {
        &self.buffer[self.start..self.start + self.length]
    }

    // every byte becomes another, so that what is written after is seen
    pub fn flip(&mut self) {
        let end = self.start + self.length;
        self.buffer[self.start..end].iter_mut().for_each(|b| *b = !*b);
    }

    pub fn part(&mut self) -> Part {
        Part {
            at: self.buffer[self.start..].as_mut_ptr(),
            count: self.length,
        }
    }

    // nothing outside the slice was written
    pub fn edges_held(&self) -> bool {
        let end = self.start + self.length;
        self.buffer[..self.start]
            .iter()
            .chain(&self.buffer[end..])
            .all(|&b| b == FILL)
    }
}
