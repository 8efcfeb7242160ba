// ward_compute(n, y, numbers, internal, external, boundary, base_mva, p_ext, q_ext, allowance,
//     y_ward, p_ward, q_ward, work, n_buses_reduced, n_buses_equivalent, reduction_ratio, rows_reduced)
use super::ward::{self, Places, Study};
use super::ward_model;
use crate::allowances::NONE;
use crate::ask::{ask, watched, Asked};
use crate::call::{dirty, Call, Function};
use crate::differences::Difference;
use crate::eliminated;
use crate::expected::{self, faults, numbers_in, then_given, Expected};
use crate::pivots::Judge;
use crate::source::Source;
use crate::words::{reals_of, words_of_reals, words_of_rows};
use reference::reduction::WardEquivalentResult;

pub const AT: Places = Places {
    y_ward: 7,
    p_ward: 8,
    q_ward: 9,
    work: 10,
    summary: 11,
};

pub fn of(s: &Study) -> Call {
    let (r, b) = (s.retained(), s.boundary.len());
    let mut slices = s.given();
    slices.extend([2 * r * r, b, b, s.work(), 1, 1, 1, 1].map(dirty));
    Call {
        function: Function::WardCompute,
        wholes: vec![s.n as u64, NONE],
        reals: vec![s.base],
        slices,
    }
}

fn asked(call: &Call, include_load_transfer: bool, q: &[f64]) -> Asked<WardEquivalentResult> {
    match ward::study(call, include_load_transfer) {
        None => Asked::NotAsked,
        Some(w) => ask(|| w.compute(&reals_of(&call.slices[ward::P_EXT]), q)),
    }
}

fn written(e: Expected, w: &WardEquivalentResult) -> Expected {
    e.words(AT.y_ward, words_of_rows(&w.y_ward))
        .words(AT.p_ward, words_of_reals(&w.p_ward_injections))
        .words(AT.q_ward, words_of_reals(&w.q_ward_injections))
        .singles(AT.summary, &ward::summary(w))
}

pub fn expected(call: &Call) -> Expected {
    let given = numbers_in(call, &[ward::Y, ward::P_EXT, ward::Q_EXT]);
    let refusals = then_given(
        faults(&ward::refusals(call, &AT)),
        given.into_iter().chain(call.reals.clone()),
    );
    let turned = ward::turned_q(call);
    let with = |include_load_transfer| asked(call, include_load_transfer, &turned).map(|w| ward::turned_back(call, w));
    let both = watched(&refusals, with(true), || {
        let (study, [p, q]) = ward::watched_copy(call);
        study.compute(&p, &q)
    });
    let e = eliminated::by_rows(
        call,
        &refusals,
        both,
        || ward_model::study(call),
        AT.work,
        |e, w| written(e, &w),
    );
    if e.number != 0 || call.size() > 8 {
        return e;
    }
    // the Rust's unread field, the other way, and Q as given
    let of_rust = |asked| expected::expected(call, &refusals, asked, Some(AT.work), |e, w| written(e, &w));
    let [rust, again] = [true, false].map(|include_load_transfer| of_rust(with(include_load_transfer)));
    let own = of_rust(asked(call, true, &ward::own_q(call)));
    if !again.same(&rust) {
        return e.failing("include_load_transfer changes the Rust's answer");
    }
    match e.judge {
        Some(Judge::Model { .. }) => e,
        _ if own.is_wrong() => own,
        _ if own.same(&rust) => e.noting(Difference::LoadTransfer),
        _ => e.noting(Difference::LoadTransfer).noting(Difference::Currents),
    }
}

pub fn random(s: &mut Source, n: usize) -> Call {
    of(&ward::random(s, n))
}
