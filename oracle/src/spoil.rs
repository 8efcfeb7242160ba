// Calls made wrong: lengths, sizes, lists, records and numbers that are refused.
use crate::call::{Call, Function};
use crate::functions::reducer::{NUMBERS_AT, RECORD, ROWS_AT};
use crate::functions::LIMIT;
use crate::header::Of;
use crate::source::Source;

pub fn spoil(s: &mut Source, call: &mut Call) {
    let ways = 1 + s.below(5) / 4;
    for _ in 0..ways {
        match s.below(5) {
            0 => stretch(s, call),
            1 => resize(s, call),
            2 => unmatch(s, call),
            3 => overflow(s, call),
            _ => unlist(s, call),
        }
    }
}

// one of the lists that must match another or the size, by whole elements
pub fn unmatch(s: &mut Source, call: &mut Call) {
    use Function::*;
    let lists: &[usize] = match call.function {
        SolveLinear | KronNew => &[1],
        WardCompute => &[1, 5, 6],
        WardComputeExtended => &[1, 5, 6, 7],
        ReiCompute => &[3, 4],
        BuildBBus => &[1, 2],
        LodfMatrix => &[2],
        _ => return stretch(s, call),
    };
    let i = s.pick(lists);
    let count = call.count(i);
    let new = match s.below(2) {
        0 => count + 1,
        _ => count.saturating_sub(1 + s.below(2)),
    };
    set_count(call, i, new);
}

fn set_count(call: &mut Call, i: usize, count: usize) {
    let width = call.function.slices()[i].of.width();
    call.slices[i].resize(width * count, 0);
}

// a slice longer or shorter: bytes by any number of them, others by whole elements; single answers have no length
fn stretch(s: &mut Source, call: &mut Call) {
    let slices = call.function.slices();
    let open: Vec<usize> = (0..slices.len()).filter(|&i| !slices[i].single).collect();
    if open.is_empty() {
        return;
    }
    let i = s.pick(&open);
    let length = call.slices[i].len();
    let new = if slices[i].of == Of::Bytes {
        let any = s.below(RECORD + 200);
        let [fours, eights] = [4, 8].map(|width| width * elements(s, length / width));
        s.pick(&[length + 1, length.saturating_sub(1), any, fours, eights])
    } else {
        elements(s, call.count(i))
    };
    set_count(call, i, new);
}

fn elements(s: &mut Source, count: usize) -> usize {
    match s.below(8) {
        0 => 0,
        1 => 2 * count,
        2 => LIMIT + s.below(3),
        3 => count + 2,
        4 => count.saturating_sub(2),
        5 => count / 2,
        6 => count.saturating_sub(1),
        _ => count + 1,
    }
}

// a given number that is not finite, mostly at the front of its slice
fn overflow(s: &mut Source, call: &mut Call) {
    let x = s.pick(&[f64::INFINITY, f64::NEG_INFINITY, f64::NAN]);
    let slices = call.function.slices();
    // a removal writes the matrix that it is given
    let removes = matches!(call.function, Function::EliminateBus | Function::EliminateBuses);
    let given = |i: &usize| slices[*i].of == Of::Numbers && (removes || !slices[*i].written) && call.count(*i) > 0;
    let open: Vec<usize> = (0..slices.len()).filter(given).collect();
    if !call.reals.is_empty() && (open.is_empty() || s.one_in(6)) {
        let at = s.below(call.reals.len());
        call.reals[at] = x;
    } else if !open.is_empty() {
        let i = s.pick(&open);
        let front = if s.one_in(2) { 8 } else { usize::MAX };
        let at = 8 * s.below(call.count(i).min(front));
        call.slices[i][at..at + 8].copy_from_slice(&x.to_bits().to_le_bytes());
    }
}

// another size or bus number
fn resize(s: &mut Source, call: &mut Call) {
    if call.wholes.is_empty() {
        return stretch(s, call);
    }
    let n = call.wholes[0];
    let new = match s.below(8) {
        0 => 0,
        1 => n.wrapping_sub(1),
        2 => LIMIT as u64,
        3 => LIMIT as u64 + 1,
        4 => s.pick(&[1 << 31, 1 << 32, 1 << 33, 1 << 63, u64::MAX, 3 << 62, 100, 4096]),
        _ => n + 1,
    };
    let by_number = matches!(call.function, Function::EliminateBus | Function::TheveninImpedance);
    call.wholes[0] = if by_number { new as u32 as u64 } else { new };
}

// lists and records that the call reads; a record that it reads is its first slice
fn lists(function: Function) -> Vec<usize> {
    let slices = function.slices();
    let read = |i: &usize| match slices[*i].of {
        Of::Words | Of::BusNumbers => !slices[*i].written,
        Of::Bytes => *i == 0,
        Of::Numbers => false,
    };
    (0..slices.len()).filter(read).collect()
}

// a number in a list or record that should not stand there
fn unlist(s: &mut Source, call: &mut Call) {
    let lists = lists(call.function);
    if lists.is_empty() {
        return stretch(s, call);
    }
    let i = s.pick(&lists);
    let of = call.function.slices()[i].of;
    let whole = call.slices[i].len();
    // of a record the numbers, the rows or the sizes, mostly at their front
    let (start, end, width) = match of {
        Of::Bytes if whole == RECORD && s.one_in(2) => (NUMBERS_AT, RECORD, 4),
        Of::Bytes if whole == RECORD && s.one_in(2) => (ROWS_AT, NUMBERS_AT, 1),
        Of::Bytes if whole == RECORD => (0, ROWS_AT, 8),
        Of::Bytes => (0, whole, 8),
        _ => (0, whole, of.width()),
    };
    let count = (end - start) / width;
    if count == 0 {
        return stretch(s, call);
    }
    let front = if whole == RECORD && !s.one_in(4) {
        count.min(6)
    } else {
        count
    };
    let [at, other] = [(); 2].map(|_| start + width * s.below(front));
    let new = another(s, call, i, at, other, width);
    call.slices[i][at..at + width].copy_from_slice(&new.to_le_bytes()[..width]);
}

fn another(s: &mut Source, call: &Call, i: usize, at: usize, other: usize, width: usize) -> u64 {
    let element = |at: usize| {
        let mut word = [0; 8];
        word[..width].copy_from_slice(&call.slices[i][at..at + width]);
        u64::from_le_bytes(word)
    };
    let limit = LIMIT as u64;
    match s.below(6) {
        0 => element(other),
        1 => element(at).wrapping_add(1),
        2 => element(at).wrapping_sub(1),
        3 => s.pick(&[limit, limit + 1, limit + 2, 1 << 32, u64::MAX, 1 << 61]),
        4 => 0,
        _ => call.wholes.first().copied().unwrap_or(1),
    }
}
