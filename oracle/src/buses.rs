// Bus numbers: those drawn for a call, and the rows that they name.
use crate::source::Source;

// distinct: the rows, the rows from one, the rows shuffled, or any numbers, among them the least and the largest
pub fn numbers(s: &mut Source, n: usize) -> Vec<u32> {
    match s.below(4) {
        0 => rows(n),
        1 => (1..=n as u32).collect(),
        2 => s.shuffled(n).into_iter().map(|row| row as u32).collect(),
        _ => any(s, n),
    }
}

pub fn rows(n: usize) -> Vec<u32> {
    (0..n as u32).collect()
}

pub fn any(s: &mut Source, n: usize) -> Vec<u32> {
    let mut from = vec![0, u32::MAX];
    while from.len() < n {
        let number = s.bits() as u32;
        if !from.contains(&number) {
            from.push(number);
        }
    }
    let order = s.shuffled(from.len());
    order.into_iter().map(|i| from[i]).take(n).collect()
}

pub fn row(numbers: &[u32], bus: u32) -> Option<usize> {
    numbers.iter().position(|&number| number == bus)
}

pub fn repeats(list: &[u32]) -> bool {
    let mut sorted = list.to_vec();
    sorted.sort();
    sorted.windows(2).any(|w| w[0] == w[1])
}
