// Square complex matrices as flat numbers, real then imaginary, of the kinds that elimination treats differently.
use crate::numbers::{kind, real, reals, two_to, Kind};
use crate::source::Source;

pub fn matrix(s: &mut Source, n: usize) -> Vec<f64> {
    let kind = kind(s);
    match s.below(8) {
        0 => grid(s, n),
        1 => tied(s, n),
        2 => sparse(s, n, kind),
        3 => singular(s, n, kind),
        4 => spotted(s, n),
        5 => left_over(s, n),
        _ => reals(s, kind, 2 * n * n),
    }
}

// the bus matrix of a random grid: branches and shunts
pub fn grid(s: &mut Source, n: usize) -> Vec<f64> {
    let mut y = vec![0.0; 2 * n * n];
    for i in 0..n {
        y[2 * (i * n + i)] += s.unit();
        for _ in 0..2 {
            let j = s.below(n);
            if i != j {
                let (g, b) = (1.0 + s.unit(), -8.0 * (1.0 + s.unit()));
                for (at, sign) in [(i * n + i, 1.0), (j * n + j, 1.0), (i * n + j, -1.0), (j * n + i, -1.0)] {
                    y[2 * at] += sign * g;
                    y[2 * at + 1] += sign * b;
                }
            }
        }
    }
    y
}

// entries of equal magnitude, so that pivots tie
fn tied(s: &mut Source, n: usize) -> Vec<f64> {
    const FACES: [(f64, f64); 9] = [
        (1.0, 0.0),
        (-1.0, 0.0),
        (0.0, 1.0),
        (0.0, -1.0),
        (3.0, 4.0),
        (-4.0, 3.0),
        (5.0, 0.0),
        (0.0, -5.0),
        (0.0, 0.0),
    ];
    (0..n * n)
        .map(|_| s.pick(&FACES))
        .flat_map(|(re, im)| [re, im])
        .collect()
}

fn sparse(s: &mut Source, n: usize, kind: Kind) -> Vec<f64> {
    let mut y = reals(s, kind, 2 * n * n);
    for (at, x) in y.iter_mut().enumerate() {
        let on_diagonal = n > 0 && (at / 2) / n == (at / 2) % n;
        if !on_diagonal && !s.one_in(3) {
            *x = if s.one_in(4) { -0.0 } else { 0.0 };
        }
    }
    y
}

// one row zero, or equal to another
fn singular(s: &mut Source, n: usize, kind: Kind) -> Vec<f64> {
    let mut y = reals(s, kind, 2 * n * n);
    if n > 0 {
        let (i, j) = (s.below(n), s.below(n));
        for c in 0..2 * n {
            y[2 * i * n + c] = if i == j { 0.0 } else { y[2 * j * n + c] };
        }
    }
    y
}

// a grid with a few numbers of another kind in it
fn spotted(s: &mut Source, n: usize) -> Vec<f64> {
    let mut y = grid(s, n);
    for _ in 0..1 + s.below(3) {
        if n > 0 {
            let at = s.below(2 * n * n);
            let kind = kind(s);
            y[at] = real(s, kind);
        }
    }
    y
}

// Two buses whose elimination may meet a number that is not finite in the first one's column alone: a times its rounded inverse is not 1,
// so that the second row keeps a rest there, which its small pivot scales up, and a large entry once more. The others stand alone.
fn left_over(s: &mut Source, n: usize) -> Vec<f64> {
    let mut y = vec![0.0; 2 * n * n];
    for i in 0..n {
        y[2 * (i * n + i)] = 1.0 + s.below(3) as f64;
    }
    if n > 1 {
        let second = 1 + s.below(n - 1);
        let first = s.below(second);
        let a = s.pick(&[49.0, 98.0, 103.0, 107.0]);
        let large = two_to(580 + s.below(40) as i64);
        let small = two_to(-498 + s.below(3) as i64);
        for (i, j, re, im) in [
            (first, first, a, 0.0),
            (first, second, large, 0.0),
            (second, first, 1.0, 0.0),
            (second, second, large * (1.0 / a), small),
        ] {
            y[2 * (i * n + j)] = re;
            y[2 * (i * n + j) + 1] = im;
        }
    }
    y
}

// mostly a few buses, now and then up to 64
pub fn size(s: &mut Source) -> usize {
    match s.below(100) {
        0 => s.below(65),
        1..=5 => 7 + s.below(10),
        6..=9 => 0,
        _ => 1 + s.below(6),
    }
}
