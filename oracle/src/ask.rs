// What the Rust reference does when asked: it accepts, errs with a kind, or panics.
use reference::error::OxiGridError;
use reference::watched::{watching, NotFinite};
use std::cell::Cell;
use std::panic::{catch_unwind, set_hook, take_hook, AssertUnwindSafe};

thread_local! {
    static ASKING: Cell<bool> = const { Cell::new(false) };
}

#[derive(Clone, Copy, Debug, PartialEq, Eq, PartialOrd, Ord)]
pub enum Kind {
    InvalidParameter,
    LinearAlgebra,
    Other,
}

#[derive(Clone, Copy, Debug, PartialEq, Eq, PartialOrd, Ord)]
pub enum Manner {
    Accepts,
    Errs(Kind),
    Panics,
    NotFinite,
    Unlike,
    NotAsked,
}

pub enum Asked<T> {
    Accepts(T),
    Errs(Kind),
    Panics,
    // the watched copy ends at a number that is not finite
    NotFinite,
    // the watched copy does otherwise, and meets finite numbers alone
    Unlike,
    NotAsked,
}

impl<T> Asked<T> {
    pub fn manner(&self) -> Manner {
        match self {
            Asked::Accepts(_) => Manner::Accepts,
            Asked::Errs(kind) => Manner::Errs(*kind),
            Asked::Panics => Manner::Panics,
            Asked::NotFinite => Manner::NotFinite,
            Asked::Unlike => Manner::Unlike,
            Asked::NotAsked => Manner::NotAsked,
        }
    }

    pub fn map<U>(self, f: impl FnOnce(T) -> U) -> Asked<U> {
        match self {
            Asked::Accepts(x) => Asked::Accepts(f(x)),
            Asked::Errs(kind) => Asked::Errs(kind),
            Asked::Panics => Asked::Panics,
            Asked::NotFinite => Asked::NotFinite,
            Asked::Unlike => Asked::Unlike,
            Asked::NotAsked => Asked::NotAsked,
        }
    }
}

pub fn ask<T>(f: impl FnOnce() -> Result<T, OxiGridError>) -> Asked<T> {
    ASKING.set(true);
    let done = catch_unwind(AssertUnwindSafe(f));
    ASKING.set(false);
    match done {
        Ok(Ok(x)) => Asked::Accepts(x),
        Ok(Err(OxiGridError::InvalidParameter(_))) => Asked::Errs(Kind::InvalidParameter),
        Ok(Err(OxiGridError::LinearAlgebra(_))) => Asked::Errs(Kind::LinearAlgebra),
        Ok(Err(_)) => Asked::Errs(Kind::Other),
        Err(panic) if panic.is::<NotFinite>() => Asked::NotFinite,
        Err(_) => Asked::Panics,
    }
}

// What the Rust does, by itself and, where the input has no fault, by its watched copy; and the rows that the copy's solves begin
// to reduce.
pub fn watched<T, U>(
    faults: &[u32],
    asked: Asked<T>,
    copy: impl FnOnce() -> Result<U, OxiGridError>,
) -> (Asked<T>, u64) {
    if !faults.is_empty() {
        return (asked, 0);
    }
    let (manner, rows) = watching(|| ask(copy).manner());
    let both = match (manner, asked.manner()) {
        // where the Rust itself goes on
        (Manner::NotFinite, Manner::Accepts | Manner::Errs(Kind::LinearAlgebra)) => Asked::NotFinite,
        (watched, own) if watched == own => asked,
        _ => Asked::Unlike,
    };
    (both, rows)
}

// panics of the reference are counted, not printed
pub fn quietly() {
    let before = take_hook();
    set_hook(Box::new(move |panic| {
        if !ASKING.get() {
            before(panic);
        }
    }));
}
