// Compares the port with the Rust: compare [SEED [CASES [ROOTS]]], CASES random calls of each entry.
use oracle::allowances;
use oracle::call::Call;
use oracle::differences::Difference;
use oracle::functions::{scalars, sound, LIMIT};
use oracle::header::Function;
use oracle::port::Port;
use oracle::source::Source;
use oracle::spoil::spoil;
use oracle::tally::Tally;
use oracle::{ask, matrices, roots, scaled, small, small_allowances, small_finite};

#[cfg(port_linked)]
mod linked;

#[cfg(port_linked)]
const PORT: Option<Port> = Some(linked::call);
#[cfg(not(port_linked))]
const PORT: Option<Port> = None;

fn number(at: usize, default: usize) -> usize {
    std::env::args()
        .nth(at)
        .map_or(default, |word| word.parse().expect("a number"))
}

// the sizes around a power of two and the limit
const LARGE: [usize; 7] = [127, 128, 129, 255, 256, 257, 258];

fn drawn(function: Function, s: &mut Source, n: usize) -> Call {
    let call = sound(function, s, n);
    allowances::drawn(s, call)
}

// random calls of every entry, a quarter of them made wrong; of each large size the first that is carried out, where one may be
fn draw(s: &mut Source, cases: usize, visit: &mut dyn FnMut(Call) -> u32) {
    for &function in Function::ALL {
        for n in 0..=66 {
            visit(drawn(function, s, n));
        }
        for n in LARGE {
            while visit(drawn(function, s, n)) != 0 && n <= LIMIT {}
        }
        for _ in 0..cases {
            let n = matrices::size(s);
            let mut call = drawn(function, s, n);
            if s.one_in(4) {
                spoil(s, &mut call);
            }
            visit(call);
        }
    }
}

// prints the counts; false where the run fails
fn told(tally: &Tally, seed: usize) -> bool {
    tally.print();
    let (total, failed) = (tally.total(), tally.failures());
    let by_model = tally.by_model();
    let by = format!("{by_model} of them by the model of elimination");
    match PORT {
        Some(_) => println!("oracle: seed {seed}, {total} calls compared with the Rust, {by}, {failed} differ"),
        None => {
            println!("oracle: seed {seed}, {total} answers of the Rust, {by}, {failed} not as listed, no port linked")
        }
    }
    let unjudged = tally.unjudged();
    if let Some(function) = unjudged {
        println!("oracle: {function:?} needs an answer by the Rust and one by the model that is unlike the Rust's");
    }
    let unallowed = tally.unallowed();
    if let Some(function) = unallowed {
        println!("oracle: {function:?} needs allowances met in every way, a count by the Rust, and one by the model that is unlike");
    }
    let unseen = tally.unseen();
    if let Some((function, number)) = unseen {
        println!("oracle: no call of {function:?} is to be answered with {number}");
    }
    let alike = tally.lacks(Difference::Currents);
    if alike {
        println!("oracle: no study shows that the Rust's currents are (P + jQ)/base");
    }
    let whole = tally.left_alone == 0;
    if whole {
        println!("oracle: no solve is refused with 20 left of a pivot alone");
    }
    failed == 0 && unjudged.is_none() && unallowed.is_none() && unseen.is_none() && !alike && !whole
}

fn main() {
    ask::quietly();
    let (seed, cases, tested_roots) = (number(1, 1), number(2, 20_000), number(3, 1_000_000));
    let mut s = Source::new(seed as u64);
    let mut tally = Tally::default();
    small_allowances::stated(&mut |call, stated| tally.stated(&call, stated, PORT));
    small_finite::stated(&mut |call, number| tally.stated_number(&call, number, PORT));
    scaled::each(&mut s, &mut |scaled| tally.scaled(&scaled, PORT));
    let mut run = |call: Call| tally.run(&call, PORT);
    small::every(&mut |call| {
        run(call);
    });
    roots::each(&mut s, tested_roots, &mut |x| {
        run(scalars::of(Function::Sqrt, vec![x]));
    });
    draw(&mut s, cases, &mut run);
    std::process::exit(if told(&tally, seed) { 0 } else { 1 });
}
