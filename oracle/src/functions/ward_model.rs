// Both Ward studies by the model of elimination, none where no bus is external: one solve after the other, with the column of each
// retained bus, then the products, the currents, their solve and the injections; the extended study's corrections come last.
use super::ward::{self, BOUNDARY, EXTERNAL, INTERNAL, P_EXT, Q_EXT, Y};
use super::ward_compute_extended::V_EXT;
use crate::allowances::NONE;
use crate::call::{Call, Function};
use crate::elimination::{Rule, Solver};
use crate::finite::{cadd, cmul, csub, magnitude, met, Stop};
use crate::words::{reals_of, rows_of, Pair, Rows};
use reference::reduction::{ExtendedWardEquivalentResult, WardEquivalentResult};

struct Model {
    y: Rows,
    // rows
    retained: Vec<usize>,
    external: Vec<usize>,
    boundary: Vec<usize>,
    base: f64,
    // P and Q at each external bus
    powers: Vec<Pair>,
}

impl Model {
    fn of(call: &Call) -> Option<Self> {
        let n = call.size();
        let [internal, external, boundary] = [INTERNAL, EXTERNAL, BOUNDARY].map(|i| ward::rows(call, i));
        let (p, q) = (reals_of(&call.slices[P_EXT]), reals_of(&call.slices[Q_EXT]));
        (!external.is_empty()).then(|| Model {
            y: rows_of(&call.slices[Y], n, n),
            retained: [internal, boundary.clone()].concat(),
            external,
            boundary,
            base: call.reals[0],
            powers: p.into_iter().zip(q).collect(),
        })
    }

    // the external buses' entries in a column, and in all of their own
    fn column(&self, j: usize) -> Vec<Pair> {
        self.external.iter().map(|&i| self.y[i][j]).collect()
    }

    fn system(&self) -> Rows {
        let row = |&i: &usize| self.external.iter().map(|&j| self.y[i][j]).collect();
        self.external.iter().map(row).collect()
    }

    // the sum of a row's entries at the external buses, each times its x
    fn product(&self, row: usize, x: &[Pair]) -> Result<Pair, Stop> {
        let mut terms = self.external.iter().zip(x);
        terms.try_fold((0.0, 0.0), |sum, (&k, &x)| cadd(sum, cmul(self.y[row][k], x)?))
    }

    fn entry(&self, row: usize, column: usize, x: &[Pair]) -> Result<Pair, Stop> {
        csub(self.y[row][column], self.product(row, x)?)
    }

    fn current(&self, (p, q): Pair) -> Result<Pair, Stop> {
        Ok((met(p / self.base)?, met(-q / self.base)?))
    }

    fn study(&self, solver: &mut Solver) -> Result<WardEquivalentResult, Stop> {
        let system = self.system();
        let mut x = Rows::new();
        for &j in &self.retained {
            x.push(solver.solution(&system, &self.column(j))?);
        }
        let mut y_ward = Rows::new();
        for &i in &self.retained {
            let entries = self.retained.iter().zip(&x).map(|(&j, x)| self.entry(i, j, x));
            y_ward.push(entries.collect::<Result<_, _>>()?);
        }
        let currents: Vec<Pair> = self.powers.iter().map(|&s| self.current(s)).collect::<Result<_, _>>()?;
        let x = solver.solution(&system, &currents)?;
        let sums: Vec<Pair> = self
            .boundary
            .iter()
            .map(|&i| self.product(i, &x))
            .collect::<Result<_, _>>()?;
        let (n, r) = (self.y.len(), self.retained.len());
        Ok(WardEquivalentResult {
            y_ward,
            p_ward_injections: sums.iter().map(|s| met(-s.0 * self.base)).collect::<Result<_, _>>()?,
            q_ward_injections: sums.iter().map(|s| met(s.1 * self.base)).collect::<Result<_, _>>()?,
            n_buses_reduced: n,
            n_buses_equivalent: r,
            reduction_ratio: met(1.0 - met(r as f64 / n as f64)?)?,
        })
    }

    // voltage correction and Q compensation of a boundary bus
    fn correction(&self, row: usize, v: &[f64]) -> Result<(f64, f64), Stop> {
        let (mut weights, mut voltage, mut q) = (0.0, 0.0, 0.0);
        for (&k, &v) in self.external.iter().zip(v) {
            let weight = magnitude(self.y[row][k])?;
            let deviation = met(v - 1.0)?;
            voltage = met(voltage + met(weight * deviation)?)?;
            q = met(q + met(met(-self.y[row][k].1 * deviation)? * self.base)?)?;
            weights = met(weights + weight)?;
        }
        let mean = if weights > 1e-12 { met(voltage / weights)? } else { 0.0 };
        Ok((mean, q))
    }
}

pub fn study(call: &Call) -> Option<impl Fn(&mut Solver) -> Result<WardEquivalentResult, Stop>> {
    let model = Model::of(call)?;
    Some(move |solver: &mut Solver| model.study(solver))
}

pub fn extended(call: &Call, v: &[f64]) -> Option<impl Fn(&mut Solver) -> Result<ExtendedWardEquivalentResult, Stop>> {
    let (model, v) = (Model::of(call)?, v.to_vec());
    Some(move |solver: &mut Solver| {
        let ward_result = model.study(solver)?;
        let corrections = model.boundary.iter().map(|&row| model.correction(row, &v));
        let (voltage_correction, q_compensation_mvar) = corrections.collect::<Result<_, _>>()?;
        Ok(ExtendedWardEquivalentResult {
            ward_result,
            voltage_correction,
            q_compensation_mvar,
        })
    })
}

// the row reductions until the work of a sound call ends, and the most
pub fn reductions(call: &Call) -> (u64, u64) {
    let e = call.count(EXTERNAL);
    let solves = (call.count(INTERNAL) + call.count(BOUNDARY) + 1) as u64;
    let mut solver = Solver::new(Rule::First, NONE);
    if call.function == Function::WardCompute {
        let _ = study(call).map(|model| model(&mut solver));
    } else {
        let v = reals_of(&call.slices[V_EXT]);
        let _ = extended(call, &v).map(|model| model(&mut solver));
    }
    (solver.reduced, solves * (e * e - e) as u64)
}
