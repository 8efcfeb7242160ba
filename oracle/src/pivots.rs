// Who gives the expected answer of a call that searches pivots: the Rust where its rule must choose as document 02's does,
// the model elsewhere.
use crate::elimination::Choice;
use crate::expected::Expected;

#[derive(Clone, Copy, Debug, PartialEq, Eq, PartialOrd, Ord)]
pub enum Judge {
    Rust,
    // and whether the Rust answers alike all the same
    Model { alike: bool },
}

// What is expected, out of what the Rust's answer and the model's two would have one expect.
pub fn judged(choice: Choice, rust: Expected, first: Expected, last: Expected) -> Expected {
    if !rust.same(&last) {
        return rust.failing("the model under the Rust's rule answers otherwise than the Rust");
    }
    let alike = rust.same(&first);
    match choice {
        Choice::Clear if !alike => rust.failing("no column ties, and the model's answer is not the Rust's"),
        Choice::Clear => rust.by(Judge::Rust),
        Choice::Small if !alike => rust.failing("equal pivots are too small, and the Rust does not end there"),
        Choice::Small | Choice::Open => first.by(Judge::Model { alike }),
    }
}
