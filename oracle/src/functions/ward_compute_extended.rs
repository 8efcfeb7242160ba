// ward_compute_extended(n, y, numbers, internal, external, boundary, base_mva, p_ext, q_ext, v_ext, allowance,
//     y_ward, p_ward, q_ward, voltage_correction, q_compensation, work,
//     n_buses_reduced, n_buses_equivalent, reduction_ratio, rows_reduced)
use super::ward::{self, Places, Study};
use super::{ward_model, LIMIT};
use crate::allowances::NONE;
use crate::ask::{ask, watched, Asked};
use crate::call::{dirty, Call, Function};
use crate::eliminated;
use crate::expected::{faults, numbers_in, then_given, Expected};
use crate::source::Source;
use crate::words::{bytes_of_reals, reals_of, words_of_reals, words_of_rows};
use reference::reduction::ExtendedWardEquivalentResult;
use reference::watched as copy;

pub const V_EXT: usize = 7;
const CORRECTION: usize = 11;
const COMPENSATION: usize = 12;
pub const AT: Places = Places {
    y_ward: 8,
    p_ward: 9,
    q_ward: 10,
    work: 13,
    summary: 14,
};

pub fn of(s: &Study) -> Call {
    let (r, b) = (s.retained(), s.boundary.len());
    let mut slices = s.given();
    slices.push(bytes_of_reals(&s.v));
    slices.extend([2 * r * r, b, b, b, b, s.work(), 1, 1, 1, 1].map(dirty));
    Call {
        function: Function::WardComputeExtended,
        wholes: vec![s.n as u64, NONE],
        reals: vec![s.base],
        slices,
    }
}

pub fn expected(call: &Call) -> Expected {
    let b = call.count(ward::BOUNDARY) as u128;
    let mut all = ward::refusals(call, &AT);
    all.push((1, call.count(V_EXT) > LIMIT));
    all.push((2, !call.holds(CORRECTION, b) || !call.holds(COMPENSATION, b)));
    all.push((3, call.count(V_EXT) != call.count(ward::EXTERNAL)));
    let list = |i: usize| reals_of(&call.slices[i]);
    let asked = match ward::study(call, true) {
        None => Asked::NotAsked,
        Some(w) => ask(|| w.compute_extended(&list(ward::P_EXT), &ward::turned_q(call), &list(V_EXT))),
    };
    // the extended form's own Q is as in the Rust
    let asked = asked.map(|x| ExtendedWardEquivalentResult {
        ward_result: ward::turned_back(call, x.ward_result),
        ..x
    });
    let given = numbers_in(call, &[ward::Y, ward::P_EXT, ward::Q_EXT, V_EXT]);
    let refusals = then_given(faults(&all), given.into_iter().chain(call.reals.clone()));
    let both = watched(&refusals, asked, || {
        let (study, [p, q]) = ward::watched_copy(call);
        study.compute_extended(&p, &q, &copy::numbers(&list(V_EXT)))
    });
    let model = || ward_model::extended(call, &list(V_EXT));
    eliminated::by_rows(call, &refusals, both, model, AT.work, |e, x| {
        e.words(AT.y_ward, words_of_rows(&x.ward_result.y_ward))
            .words(AT.p_ward, words_of_reals(&x.ward_result.p_ward_injections))
            .words(AT.q_ward, words_of_reals(&x.ward_result.q_ward_injections))
            .singles(AT.summary, &ward::summary(&x.ward_result))
            .words(CORRECTION, words_of_reals(&x.voltage_correction))
            .words(COMPENSATION, words_of_reals(&x.q_compensation_mvar))
    })
}

pub fn random(s: &mut Source, n: usize) -> Call {
    of(&ward::random(s, n))
}
