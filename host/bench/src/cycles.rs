//! The clocked tree, its records lent as structs of the host's memory, beside plain C: what the page does not have.

use crate::clock::Clock;
use crate::measure::{race, Contestant, Rng, Work};
use crate::plain_c;
use crate::queues::{bare, wrapped, Strip};
use crate::table::{Plan, Row};
use crate::traces::strip;
use card_host::{ClockedHeap, ClockedLinesQueue, ClockedTree, Element, Refusal, Request};

/// What a cycle is asked for.
#[derive(Clone, Copy)]
pub enum Ask {
    Idle,
    Push(Strip),
    Pop,
    Replace(Strip),
}

/// A machine that runs cycles: its number, and what it gives.
pub trait Machine {
    fn clear(&mut self);
    fn cycle(&mut self, ask: Ask) -> (u32, Strip);
}

/// A request as the card's wrapper has it.
#[inline]
pub fn asked(ask: Ask) -> Request {
    match ask {
        Ask::Idle => Request::Idle,
        Ask::Push(x) => Request::Push(wrapped(x)),
        Ask::Pop => Request::Pop,
        Ask::Replace(x) => Request::Replace(wrapped(x)),
    }
}

/// An answer as a machine of the bench gives it.
#[inline]
fn answered(answer: Result<Element, Refusal>) -> (u32, Strip) {
    match answer {
        Ok(x) => (0, bare(x)),
        Err(refusal) => (refusal.number(), Strip::default()),
    }
}

impl Machine for ClockedTree {
    fn clear(&mut self) {
        ClockedTree::clear(self).expect("clear");
    }
    #[inline]
    fn cycle(&mut self, ask: Ask) -> (u32, Strip) {
        answered(ClockedTree::cycle(self, asked(ask)))
    }
}

impl Machine for ClockedHeap {
    fn clear(&mut self) {
        ClockedHeap::clear(self).expect("clear");
    }
    #[inline]
    fn cycle(&mut self, ask: Ask) -> (u32, Strip) {
        answered(ClockedHeap::cycle(self, asked(ask)))
    }
}

impl Machine for ClockedLinesQueue {
    fn clear(&mut self) {
        ClockedLinesQueue::clear(self).expect("clear");
    }
    #[inline]
    fn cycle(&mut self, ask: Ask) -> (u32, Strip) {
        answered(ClockedLinesQueue::cycle(self, asked(ask)))
    }
}

/// A machine that takes part.
pub struct Runner<M>(pub M);

#[inline]
fn run<M: Machine>(machine: &mut M, trace: &[Ask]) -> u64 {
    let mut answers = 0u64;
    for ask in trace {
        let (number, (rank, tag, length)) = machine.cycle(*ask);
        answers =
            answers.rotate_left(7) ^ ((rank as u64) << 32 | tag as u64) ^ (length as u64) << 16 ^ (number as u64) << 20;
    }
    answers
}

impl<M: Machine> Contestant<Ask> for Runner<M> {
    fn ready(&mut self, fill: &[Ask]) {
        self.0.clear();
        run(&mut self.0, fill);
    }
    fn run(&mut self, trace: &[Ask]) -> u64 {
        run(&mut self.0, trace)
    }
}

/// Pushes with one idle cycle after each, and enough of them to end all work.
pub fn fill(rng: &mut Rng, held: usize) -> Vec<Ask> {
    let mut all = Vec::new();
    for n in 0..held {
        all.extend([Ask::Push(strip(rng.below(1 << 20), n)), Ask::Idle]);
    }
    all.extend([Ask::Idle; 16]);
    all
}

/// Any of the four requests; pops and replaces that come too soon are refused, as they are on a card.
pub fn any(rng: &mut Rng, n: usize) -> Ask {
    let x = strip(rng.below(1 << 21), n);
    match rng.below(10) {
        0 | 1 => Ask::Idle,
        2..=4 => Ask::Push(x),
        5..=7 => Ask::Pop,
        _ => Ask::Replace(x),
    }
}

/// A row: `ask` chooses the request of each timed cycle.
fn row(plan: &Plan, all: &mut Vec<Row>, kind: &str, shape: (u32, u32), ask: impl Fn(&mut Rng, usize) -> Ask) {
    let (order, levels) = shape;
    let name = format!("cycle, order {order} x {levels}, {kind}");
    if !plan.wants(&name) {
        return;
    }
    let capacity: usize = (1..=levels).map(|k| (order as usize).pow(k)).sum();
    let held = (capacity * 3 / 4).min(4000);
    let mut rng = Rng::new(3);
    let mut card = Runner(ClockedTree::new(order, levels).expect("a good shape"));
    let mut other = Runner(plain_c::ClockedTree::new(order, levels));
    let pair = race(plan.rounds, Clock::Own, &mut card, &mut other, || Work {
        fill: fill(&mut rng, held),
        trace: (0..plan.operations).map(|n| ask(&mut rng, n)).collect(),
    });
    // both on the same words and records
    let bytes = 4 * (card.0.words().len() + 5 * card.0.records().len() + 1);
    all.push(Row { name, pair, card_bytes: bytes, other_bytes: bytes });
}

/// Cycles of which each second is idle, other orders, and growth by levels.
pub fn rows(plan: &Plan) -> Vec<Row> {
    let mut all = Vec::new();
    row(plan, &mut all, "each second idle", (4, 6), |rng, n| if n % 2 == 0 { any(rng, n) } else { Ask::Idle });
    for shape in [(8, 4), (2, 11), (4, 2), (4, 3), (4, 4), (4, 5), (4, 8)] {
        row(plan, &mut all, "random", shape, any);
    }
    all
}
