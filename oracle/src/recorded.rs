// A call and its answer as bytes, for a program that replays them with no Rust at hand. README.md has the format.
use crate::call::{dirty_bytes, Call};
use crate::differences::{Difference, Told};
use crate::expected::Expected;
use crate::words::{bytes_of, word};

// what an output holds before the call
const FILL: u8 = 0xa5;

// a slice whole: its length, 0, its bytes
fn whole(bytes: &[u8]) -> Vec<u8> {
    [bytes_of(&[bytes.len() as u64, 0]), bytes.to_vec()].concat()
}

// a slice of one byte alone: its length, and that byte and 1
fn repeated(bytes: &[u8]) -> Option<Vec<u8>> {
    let byte = bytes.first().filter(|&b| bytes.iter().all(|c| c == b))?;
    Some(bytes_of(&[bytes.len() as u64, *byte as u64 + 1]))
}

// a run of zeros that is shorter is not worth its count
const RUN: usize = 16;

// a slice in parts: its length, 257, and by turns how many bytes come, those bytes, and how many zeros
fn in_parts(bytes: &[u8]) -> Vec<u8> {
    let mut parts = bytes_of(&[bytes.len() as u64, 257]);
    let zeros_at = |at: usize| bytes[at..].iter().take_while(|&&b| b == 0).count();
    let mut at = 0;
    while at < bytes.len() {
        let zeros = (at..bytes.len()).find(|&i| zeros_at(i) >= RUN).unwrap_or(bytes.len());
        let count = if zeros < bytes.len() { zeros_at(zeros) } else { 0 };
        parts.extend(bytes_of(&[(zeros - at) as u64]));
        parts.extend(&bytes[at..zeros]);
        parts.extend(bytes_of(&[count as u64]));
        at = zeros + count;
    }
    parts
}

// the shortest of the three
fn short(bytes: &[u8]) -> Vec<u8> {
    let [whole, parts] = [whole(bytes), in_parts(bytes)];
    repeated(bytes).unwrap_or(if parts.len() < whole.len() { parts } else { whole })
}

// the same call, with outputs filled by one byte
pub fn filled(mut call: Call) -> Call {
    for slice in &mut call.slices {
        if *slice == dirty_bytes(slice.len()) {
            slice.fill(FILL);
        }
    }
    call
}

// the Rust or the model of elimination gives the answer, or a given number is refused
fn recordable(e: &Expected) -> bool {
    let answered = matches!(e.told, Told::ByReference | Told::Differs(Difference::Refusal(19), _));
    answered && !e.noted.contains(&Difference::ReiSum)
}

// The bytes of a case, where it is recorded.
pub fn case(call: &Call, e: &Expected) -> Option<Vec<u8>> {
    if !recordable(e) {
        return None;
    }
    let mut head = vec![call.function as u64 + 1, e.number as u64];
    head.extend((0..2).map(|i| call.wholes.get(i).copied().unwrap_or(0)));
    head.extend((0..4).map(|i| call.reals.get(i).map_or(0, |&x| word(x))));
    let slices = call.function.slices();
    let (written, read): (Vec<usize>, Vec<usize>) = (0..slices.len()).partition(|&i| slices[i].written);
    let lent = written.iter().flat_map(|&i| short(&call.slices[i]));
    let given = read.iter().flat_map(|&i| short(&call.slices[i]));
    let left = written
        .iter()
        .flat_map(|&i| short(&e.after[i].bytes(slices[i].of, &call.slices[i])));
    let body: Vec<u8> = bytes_of(&head)
        .into_iter()
        .chain(lent)
        .chain(given)
        .chain(left)
        .collect();
    Some([bytes_of(&[body.len() as u64]), body].concat())
}
