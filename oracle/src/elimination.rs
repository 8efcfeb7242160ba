// A model of Gauss-Jordan that chooses pivots by document 02's rule or by the Rust's, and counts its row reductions.
use crate::finite::{cdiv, cmul, csub, sqmag, Stop, TINY};
use crate::words::{Pair, Rows};

#[derive(Clone, Copy)]
pub enum Rule {
    // 02 P5: the held row gives way only to a strictly larger weight
    First,
    // the Rust: it stays only where its own weight is strictly larger
    Last,
}

// Whether the two rules may choose different rows, by the first search in which they may.
#[derive(Clone, Copy, PartialEq)]
pub enum Choice {
    // no search meets its largest weight twice
    Clear,
    Open,
    // equal weights, all too small for a pivot: either rule ends there
    Small,
}

fn choice(weights: &[f64]) -> Choice {
    let most = weights.iter().copied().fold(0.0, f64::max);
    match weights.iter().filter(|&&w| w == most).count() {
        1 => Choice::Clear,
        _ if most < TINY => Choice::Small,
        _ => Choice::Open,
    }
}

fn pivot(weights: &[f64], rule: Rule) -> usize {
    (1..weights.len()).fold(0, |held, next| {
        let gives_way = match rule {
            Rule::First => weights[held] < weights[next],
            Rule::Last => !(weights[next] < weights[held]),
        };
        if gives_way {
            next
        } else {
            held
        }
    })
}

// Solves systems one after the other, with one allowance of row reductions over all of them.
pub struct Solver {
    rule: Rule,
    allowance: u64,
    // whether rows are scaled and reduced in all columns, or only from their pivot's on
    whole: bool,
    // row reductions begun
    pub reduced: u64,
    pub choice: Choice,
}

impl Solver {
    pub fn new(rule: Rule, allowance: u64) -> Self {
        Solver {
            rule,
            allowance,
            whole: true,
            reduced: 0,
            choice: Choice::Clear,
        }
    }

    // The same from each pivot's column on, which no call does.
    pub fn from_pivots(self) -> Self {
        Solver { whole: false, ..self }
    }

    // The solutions for these right sides.
    pub fn solutions(&mut self, system: &[Vec<Pair>], sides: &[Vec<Pair>]) -> Result<Rows, Stop> {
        let n = system.len();
        let mut rows: Rows = system
            .iter()
            .zip(sides)
            .map(|(a, b)| [&a[..], &b[..]].concat())
            .collect();
        for c in 0..n {
            let weights: Vec<f64> = rows[c..].iter().map(|row| sqmag(row[c])).collect::<Result<_, _>>()?;
            if self.choice == Choice::Clear {
                self.choice = choice(&weights);
            }
            let held = pivot(&weights, self.rule);
            if weights[held] < TINY {
                return Err(Stop::Small);
            }
            rows.swap(c, c + held);
            self.clear(&mut rows, c)?;
        }
        Ok(rows.into_iter().map(|row| row[n..].to_vec()).collect())
    }

    // The solution for one right side.
    pub fn solution(&mut self, system: &[Vec<Pair>], side: &[Pair]) -> Result<Vec<Pair>, Stop> {
        let sides: Rows = side.iter().map(|&b| vec![b]).collect();
        let solutions = self.solutions(system, &sides)?;
        Ok(solutions.iter().map(|row| row[0]).collect())
    }

    // row c is scaled by its pivot's inverse, and every other row that is not skipped is reduced
    fn clear(&mut self, rows: &mut Rows, c: usize) -> Result<(), Stop> {
        let inverse = cdiv((1.0, 0.0), rows[c][c])?;
        let first = if self.whole { 0 } else { c };
        for x in &mut rows[c][first..] {
            *x = cmul(*x, inverse)?;
        }
        let pivot_row = rows[c].clone();
        for (i, row) in rows.iter_mut().enumerate() {
            let factor = row[c];
            if i == c || (factor.0.abs() < TINY && factor.1.abs() < TINY) {
                continue;
            }
            if self.reduced == self.allowance {
                return Err(Stop::Beyond);
            }
            self.reduced += 1;
            for (x, &p) in row.iter_mut().zip(&pivot_row).skip(first) {
                *x = csub(*x, cmul(factor, p)?)?;
            }
        }
        Ok(())
    }
}

pub fn identity(n: usize) -> Rows {
    (0..n)
        .map(|i| (0..n).map(|j| (if i == j { 1.0 } else { 0.0 }, 0.0)).collect())
        .collect()
}
