//! Rounds, interleaved, and their medians.

use crate::clock::Clock;

/// One round's work: what brings a contestant to the state that is wanted, and what is timed.
pub struct Work<T> {
    pub fill: Vec<T>,
    pub trace: Vec<T>,
}

/// One of the two that are timed on the same work.
pub trait Contestant<T> {
    /// Clears it and fills it. Not timed.
    fn ready(&mut self, fill: &[T]);
    /// The work. What it answered is folded into one number, which both must agree on.
    fn run(&mut self, trace: &[T]) -> u64;
}

/// Nanoseconds for one operation, each the median of its rounds, and the median of the rounds' ratios.
#[derive(Clone, Copy)]
pub struct Pair {
    pub card: f64,
    pub other: f64,
    pub ratio: f64,
}

pub fn timed<T>(clock: Clock, contestant: &mut dyn Contestant<T>, work: &Work<T>) -> (f64, u64) {
    contestant.ready(&work.fill);
    let start = clock.now();
    let answers = contestant.run(&work.trace);
    ((clock.now() - start) / work.trace.len() as f64, answers)
}

pub fn median(mut times: Vec<f64>) -> f64 {
    times.sort_by(|a, b| a.total_cmp(b));
    times[times.len() / 2]
}

/// Times both in turn, so that whatever disturbs the machine disturbs both; every second round the other goes first. Each round has
/// work of its own: a trace that comes again is one that a processor's branch predictor learns by heart.
pub fn race<T>(
    rounds: usize,
    clock: Clock,
    card: &mut dyn Contestant<T>,
    other: &mut dyn Contestant<T>,
    mut work: impl FnMut() -> Work<T>,
) -> Pair {
    let (mut cards, mut others, mut ratios) = (Vec::new(), Vec::new(), Vec::new());
    // the first round warms the caches and is not counted
    for round in 0..=rounds {
        let work = work();
        let (a, b) = if round % 2 == 0 {
            let a = timed(clock, card, &work);
            (a, timed(clock, other, &work))
        } else {
            let b = timed(clock, other, &work);
            (timed(clock, card, &work), b)
        };
        assert_eq!(a.1, b.1, "the two answered differently");
        if round > 0 {
            cards.push(a.0);
            others.push(b.0);
            ratios.push(a.0 / b.0);
        }
    }
    Pair { card: median(cards), other: median(others), ratio: median(ratios) }
}

/// A small generator: the same numbers each time.
pub struct Rng(u64);

impl Rng {
    pub fn new(seed: u64) -> Rng {
        Rng(seed.wrapping_mul(0x9e37_79b9_7f4a_7c15) | 1)
    }
    pub fn below(&mut self, bound: u32) -> u32 {
        self.0 ^= self.0 << 13;
        self.0 ^= self.0 >> 7;
        self.0 ^= self.0 << 17;
        (((self.0 >> 32) * bound as u64) >> 32) as u32
    }
}
