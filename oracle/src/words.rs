// Numbers as 8 little-endian bytes, bus numbers as 4, and flat slices as rows of complex numbers.
use crate::header::Of;

pub type Pair = (f64, f64);
pub type Rows = Vec<Vec<Pair>>;

// the one pattern that the port writes for a NaN
pub const NAN: u64 = 0x7ff8_0000_0000_0000;

pub fn word(x: f64) -> u64 {
    if x.is_nan() {
        NAN
    } else {
        x.to_bits()
    }
}

pub fn nan(word: u64) -> bool {
    f64::from_bits(word).is_nan()
}

// words as the port's bytes have them: of numbers, every NaN in that pattern
pub fn plain(of: Of, words: &[u64]) -> Vec<u64> {
    match of {
        Of::Numbers => words.iter().map(|&w| if nan(w) { NAN } else { w }).collect(),
        _ => words.to_vec(),
    }
}

pub fn bytes_of(words: &[u64]) -> Vec<u8> {
    words.iter().flat_map(|w| w.to_le_bytes()).collect()
}

// the whole words at the front; bytes behind them are left out
pub fn words_of(bytes: &[u8]) -> Vec<u64> {
    bytes
        .chunks_exact(8)
        .map(|c| u64::from_le_bytes(c.try_into().unwrap()))
        .collect()
}

pub fn bytes_of_buses(buses: &[u32]) -> Vec<u8> {
    buses.iter().flat_map(|b| b.to_le_bytes()).collect()
}

pub fn buses_of(bytes: &[u8]) -> Vec<u32> {
    bytes
        .chunks_exact(4)
        .map(|c| u32::from_le_bytes(c.try_into().unwrap()))
        .collect()
}

// the elements of a slice, a bus number as a word too
pub fn elements_of(of: Of, bytes: &[u8]) -> Vec<u64> {
    match of {
        Of::BusNumbers => buses_of(bytes).into_iter().map(u64::from).collect(),
        _ => words_of(bytes),
    }
}

pub fn bytes_of_elements(of: Of, elements: &[u64]) -> Vec<u8> {
    match of {
        Of::BusNumbers => elements.iter().flat_map(|&e| (e as u32).to_le_bytes()).collect(),
        _ => bytes_of(elements),
    }
}

pub fn bytes_of_reals(xs: &[f64]) -> Vec<u8> {
    xs.iter().flat_map(|x| x.to_bits().to_le_bytes()).collect()
}

pub fn reals_of(bytes: &[u8]) -> Vec<f64> {
    words_of(bytes).into_iter().map(f64::from_bits).collect()
}

pub fn wholes_of(bytes: &[u8]) -> Vec<usize> {
    words_of(bytes).into_iter().map(|w| w as usize).collect()
}

pub fn pairs_of(bytes: &[u8]) -> Vec<Pair> {
    reals_of(bytes).chunks_exact(2).map(|c| (c[0], c[1])).collect()
}

// at most `count` rows of `width`; the last ones are short or missing where the numbers run out
pub fn rows_of(bytes: &[u8], count: usize, width: usize) -> Rows {
    if width == 0 {
        return vec![Vec::new(); count];
    }
    pairs_of(bytes)
        .chunks(width)
        .take(count)
        .map(|row| row.to_vec())
        .collect()
}

pub fn real_rows_of(bytes: &[u8], count: usize, width: usize) -> Vec<Vec<f64>> {
    if width == 0 {
        return vec![Vec::new(); count];
    }
    reals_of(bytes)
        .chunks(width)
        .take(count)
        .map(|row| row.to_vec())
        .collect()
}

pub fn words_of_reals(xs: &[f64]) -> Vec<u64> {
    xs.iter().map(|&x| word(x)).collect()
}

pub fn words_of_pairs(xs: &[Pair]) -> Vec<u64> {
    xs.iter().flat_map(|x| [word(x.0), word(x.1)]).collect()
}

pub fn words_of_rows(rows: &[Vec<Pair>]) -> Vec<u64> {
    rows.iter().flat_map(|row| words_of_pairs(row)).collect()
}

pub fn words_of_wholes(xs: &[usize]) -> Vec<u64> {
    xs.iter().map(|&x| x as u64).collect()
}

// with zeros behind, up to `length` words
pub fn padded(mut words: Vec<u64>, length: usize) -> Vec<u64> {
    words.resize(length, 0);
    words
}
