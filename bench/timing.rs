// Rounds of calls on fresh copies; sides take turns, and the ratio of each round counts.
// Time is the processor time of the thread, so that other programs on the machine count less.

#[repr(C)]
struct Timespec {
    seconds: i64,
    nanoseconds: i64,
}

const THREAD_TIME: i32 = 3;

extern "C" {
    fn clock_gettime(clock: i32, time: *mut Timespec) -> i32;
}

fn now() -> f64 {
    let mut time = Timespec {
        seconds: 0,
        nanoseconds: 0,
    };
    assert_eq!(unsafe { clock_gettime(THREAD_TIME, &mut time) }, 0);
    time.seconds as f64 + 1e-9 * time.nanoseconds as f64
}

pub trait Work {
    fn reset(&mut self, copies: usize);
    fn run(&mut self, copy: usize);
}

struct Fresh<S, F> {
    start: S,
    copies: Vec<S>,
    run: F,
}

impl<S: Clone, F: FnMut(&mut S)> Work for Fresh<S, F> {
    fn reset(&mut self, copies: usize) {
        self.copies = vec![self.start.clone(); copies];
    }
    fn run(&mut self, copy: usize) {
        (self.run)(&mut self.copies[copy]);
    }
}

// a call that may change what it is given: every call of a round has a copy of its own
pub fn work<S: Clone + 'static>(start: S, run: impl FnMut(&mut S) + 'static) -> Box<dyn Work> {
    Box::new(Fresh {
        start,
        copies: Vec::new(),
        run,
    })
}

// of about 2 ms; of a longer call, fewer rounds of one call each
const ROUNDS: usize = 41;
const FEWEST: usize = 5;
const ROUND_SECONDS: f64 = 0.002;
const SECONDS: f64 = 2.0;
const MOST: usize = 2000;

// seconds of one call, over a round of so many
fn round(side: &mut dyn Work, calls: usize) -> f64 {
    side.reset(calls);
    let start = now();
    for i in 0..calls {
        side.run(i);
    }
    (now() - start) / calls as f64
}

fn median(mut xs: Vec<f64>) -> f64 {
    xs.sort_by(f64::total_cmp);
    xs[xs.len() / 2]
}

// The Rust's median time, and the port's with the median of the rounds' ratios.
pub fn timed(mut rust: Box<dyn Work>, mut port: Option<Box<dyn Work>>) -> (f64, Option<(f64, f64)>) {
    let mut one = round(rust.as_mut(), 1);
    if one < ROUND_SECONDS {
        one = round(rust.as_mut(), 8);
    }
    let calls = ((ROUND_SECONDS / one) as usize).clamp(1, MOST);
    let rounds = ((SECONDS / (one * calls as f64)) as usize).clamp(FEWEST, ROUNDS);
    let (mut of_rust, mut of_port, mut ratios) = (Vec::new(), Vec::new(), Vec::new());
    for _ in 0..rounds {
        let time = round(rust.as_mut(), calls);
        of_rust.push(time);
        if let Some(port) = &mut port {
            of_port.push(round(port.as_mut(), calls));
            ratios.push(of_port[of_port.len() - 1] / time);
        }
    }
    (median(of_rust), port.map(|_| (median(of_port), median(ratios))))
}
