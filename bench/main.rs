// Times the port against the Rust, on the same inputs in one run: the ratio is the median of the rounds' ratios.
mod inputs;
mod port_side;
mod rust_side;
mod timing;

#[cfg(port_linked)]
#[path = "../oracle/linked.rs"]
mod linked;

use oracle::port::Port;

#[derive(Clone, Copy, Debug)]
pub enum Task {
    Removal,
    Removals,
    Solve,
    Inverse,
    Thevenin,
    Ward,
    ExtendedWard,
    Rei,
    Retained,
    BBus,
    Lodf,
    NumbersOfBytes,
    BytesOfNumbers,
}

const TASKS: [Task; 13] = [
    Task::Removal,
    Task::Removals,
    Task::Solve,
    Task::Inverse,
    Task::Thevenin,
    Task::Ward,
    Task::ExtendedWard,
    Task::Rei,
    Task::Retained,
    Task::BBus,
    Task::Lodf,
    Task::NumbersOfBytes,
    Task::BytesOfNumbers,
];

// on numbers too large for the port's fast path: there it looks through the whole work first
const CAREFUL: [Task; 5] = [
    Task::Removal,
    Task::Removals,
    Task::Ward,
    Task::ExtendedWard,
    Task::Lodf,
];

const SIZES: [usize; 3] = [8, 64, 256];

#[cfg(port_linked)]
const PORT: Option<Port> = Some(linked::call);
#[cfg(not(port_linked))]
const PORT: Option<Port> = None;

fn shown(seconds: f64) -> String {
    format!("{:.2} µs", seconds * 1e6)
}

fn show(task: Task, how: &str, given: &inputs::Inputs) {
    let port = PORT.map(|port| port_side::side(task, given, port));
    let (of_rust, of_port) = timing::timed(rust_side::side(task, given), port);
    let of_port = of_port.map_or("- | -".to_string(), |(time, ratio)| {
        format!("{} | {ratio:.2}", shown(time))
    });
    println!("| {task:?}{how} | {} | {} | {of_port} |", given.n, shown(of_rust));
}

fn main() {
    println!("| task | buses | Rust | port | ratio |\n|---|---|---|---|---|");
    for task in TASKS {
        for n in SIZES {
            show(task, "", &inputs::inputs(n));
        }
    }
    for task in CAREFUL {
        for n in SIZES {
            show(task, ", huge numbers", &inputs::huge(n));
        }
    }
    if PORT.is_none() {
        println!("bench: no port linked; these are the Rust's times alone");
    }
}
