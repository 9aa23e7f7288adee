//! The bench: the export against the bare call of the Rust, on the same inputs, in
//! one thread.

use std::hint::black_box;
use std::time::{Duration, Instant};

use crate::compare::both;
use crate::function::{Function, Input, Outputs};
use crate::random::Random;
use crate::refusals::ACCEPTED;

/// Repetitions, of which the best counts, and what each takes at least: short, so that
/// some are not disturbed.
const REPETITIONS: usize = 25;
const REPETITION: Duration = Duration::from_millis(3);

/// Nanoseconds per call.
pub struct Times {
    pub port: f64,
    pub rust: f64,
}

/// A call whose ins are ready, which may be lent outputs.
pub type Call<'a> = Box<dyn Fn(&mut Outputs) + 'a>;

/// A call on ins in the forms that it takes. What it returns is dropped in it: a
/// caller of the Rust pays for the allocation and for the freeing.
pub fn call<'a, I: 'a, R>(ins: I, side: impl Fn(&I, &mut Outputs) -> R + 'a) -> Call<'a> {
    Box::new(move |outputs| {
        black_box(side(black_box(&ins), outputs));
    })
}

/// A function whose two sides are timed.
pub trait Timed: Function {
    /// Inputs: few enough for those of a small function to stay in the cache.
    const INPUTS: usize = 64;

    /// The bare call of the Rust. Its ins are made here, before the clock starts.
    fn bare(input: &Self::Input) -> Call<'_>;

    fn export(input: &Self::Input) -> Call<'_> {
        call(input, |input, outputs| Self::port(input, outputs))
    }
}

/// The times on typical inputs.
pub fn run<F: Timed>() -> Times {
    run_on::<F>(F::Input::typical)
}

pub fn run_on<F: Timed>(input: fn(&mut Random) -> F::Input) -> Times {
    beside::<F>(input, F::bare)
}

/// The times beside another call than the bare one. The sides take turns, so that a
/// disturbance meets both.
pub fn beside<F: Timed>(
    input: fn(&mut Random) -> F::Input,
    other: fn(&F::Input) -> Call<'_>,
) -> Times {
    let mut random = Random::new(1);
    let inputs: Vec<F::Input> = (0..F::INPUTS).map(|_| input(&mut random)).collect();
    let mut lent = Vec::new();
    let (mut port, mut rust) = (Vec::new(), Vec::new());
    for input in &inputs {
        let place = place(&mut lent, accepted::<F>(input));
        port.push((F::export(input), place));
        rust.push((other(input), place));
    }
    let [port, rust] = best([&port, &rust], &mut lent);
    Times { port, rust }
}

/// Nanoseconds per call of the port by itself.
pub fn alone<F: Timed>(inputs: &[F::Input]) -> f64 {
    let mut lent = Vec::new();
    let place = |input| place(&mut lent, accepted::<F>(input));
    let places: Vec<usize> = inputs.iter().map(place).collect();
    let port = inputs.iter().map(F::export).zip(places).collect();
    let [port] = best([&port], &mut lent);
    port
}

/// Nanoseconds per call of each side.
fn best<const SIDES: usize>(
    sides: [&Vec<(Call, usize)>; SIDES],
    lent: &mut [Outputs],
) -> [f64; SIDES] {
    let mut rounds = 1;
    while time(sides[0], lent, rounds) < REPETITION {
        rounds *= 2;
    }
    let calls = (rounds * sides[0].len()) as f64;
    let mut best = [f64::INFINITY; SIDES];
    for _ in 0..REPETITIONS {
        for (best, side) in best.iter_mut().zip(sides) {
            *best = best.min(time(side, lent, rounds).as_nanos() as f64 / calls);
        }
    }
    best
}

/// The outputs of an input that both sides accept with the same answer.
fn accepted<F: Function>(input: &F::Input) -> Outputs {
    let outputs = F::outputs(input);
    let [port, rust] = both::<F>(input, outputs.clone());
    assert!(port == rust && rust.0 == ACCEPTED, "{input:?}");
    outputs
}

/// The place of these outputs, which are not written yet, among those that are lent.
/// Inputs whose outputs have the same lengths are lent the same: the memory that the
/// Rust allocates is the same again too.
fn place(lent: &mut Vec<Outputs>, outputs: Outputs) -> usize {
    let found = lent.iter().position(|other| *other == outputs);
    found.unwrap_or_else(|| {
        lent.push(outputs);
        lent.len() - 1
    })
}

/// What calling one side on every input takes, so many rounds long. All sides are
/// called by pointer from one loop: two loops would be placed differently, which may
/// cost more than the shortest functions do.
#[inline(never)]
fn time(calls: &Vec<(Call, usize)>, lent: &mut [Outputs], rounds: usize) -> Duration {
    let start = Instant::now();
    for _ in 0..rounds {
        for (call, place) in calls {
            call(&mut lent[*place]);
        }
    }
    start.elapsed()
}
