//! Fair ranks beside the bare tree, which is handed the ranks that they come to.

use crate::clock::Clock;
use crate::measure::{race, Contestant, Rng, Work};
use crate::plain_c::Fair;
use crate::queues::wrapped;
use crate::table::{Plan, Row};
use crate::traces::strip;
use card_host::{fair_words, Element, FairQueue, Flow, Length, Rank, Tag, TreeQueue, Weight};
use std::cmp::Reverse;
use std::collections::BinaryHeap;

/// A push of a flow, with the rank that it comes to, or a pop.
#[derive(Clone, Copy)]
pub enum Ask {
    Push { flow: Flow, weight: Weight, x: Element },
    Pop,
}

/// Flows, each with a weight of its own, and what the state comes to.
struct Flows {
    weights: Vec<u32>,
    clock: u32,
    last: Vec<u32>,
    ranks: BinaryHeap<Reverse<u32>>,
}

impl Flows {
    fn new(rng: &mut Rng) -> Flows {
        let weights: Vec<u32> = (0..64).map(|_| 1 + rng.below(1024)).collect();
        Flows { last: vec![0; weights.len()], weights, clock: 0, ranks: BinaryHeap::new() }
    }
    fn push(&mut self, rng: &mut Rng, n: usize) -> Ask {
        let flow = rng.below(64);
        let (_, tag, length) = strip(0, n);
        let weight = self.weights[flow as usize];
        let last = &mut self.last[flow as usize];
        *last = self.clock.max(*last) + (length + 63) / 64 * (65_536 / weight);
        self.ranks.push(Reverse(*last));
        Ask::Push { flow: Flow(flow), weight: Weight(weight), x: Element::new(Rank(*last), Tag(tag), Length(length)) }
    }
    fn pop(&mut self) -> Ask {
        self.clock = self.ranks.pop().expect("pop").0;
        Ask::Pop
    }
}

fn fold(answers: u64, x: Element) -> u64 {
    answers.rotate_left(5) ^ ((x.rank.0 as u64) << 32 | x.tag.0 as u64) ^ (x.length.0 as u64) << 16
}

impl Contestant<Ask> for FairQueue {
    fn ready(&mut self, fill: &[Ask]) {
        self.clear().expect("clear");
        self.run(fill);
    }
    fn run(&mut self, trace: &[Ask]) -> u64 {
        let mut answers = 0;
        for ask in trace {
            match *ask {
                Ask::Push { flow, weight, x } => self.push(flow, weight, x.tag, x.length).expect("push"),
                Ask::Pop => answers = fold(answers, self.pop().expect("pop")),
            }
        }
        answers
    }
}

impl Contestant<Ask> for TreeQueue {
    fn ready(&mut self, fill: &[Ask]) {
        self.clear().expect("clear");
        self.run(fill);
    }
    fn run(&mut self, trace: &[Ask]) -> u64 {
        let mut answers = 0;
        for ask in trace {
            match *ask {
                Ask::Push { x, .. } => self.push(x).expect("push"),
                Ask::Pop => answers = fold(answers, self.pop().expect("pop")),
            }
        }
        answers
    }
}

impl Contestant<Ask> for Fair {
    fn ready(&mut self, fill: &[Ask]) {
        self.clear();
        self.run(fill);
    }
    fn run(&mut self, trace: &[Ask]) -> u64 {
        let mut answers = 0;
        for ask in trace {
            match *ask {
                Ask::Push { flow, weight, x } => self.push(flow.0, weight.0, x.tag.0, x.length.0),
                Ask::Pop => answers = fold(answers, wrapped(self.pop())),
            }
        }
        answers
    }
}

/// Pops, each with a push after it, at so many held.
pub fn work(rng: &mut Rng, held: usize, operations: usize) -> Work<Ask> {
    let mut flows = Flows::new(rng);
    let fill = (0..held).map(|n| flows.push(rng, n)).collect();
    let mut trace = Vec::new();
    for n in 0..operations / 2 {
        trace.push(flows.pop());
        trace.push(flows.push(rng, held + n));
    }
    Work { fill, trace }
}

/// Push and pop of 64 flows: a large tree and a small one.
pub fn rows(plan: &Plan) -> Vec<Row> {
    let mut all = Vec::new();
    for (order, levels, held) in [(4, 6, 4000), (8, 4, 4000), (4, 3, 40)] {
        let name = format!("fair, order {order} x {levels}, push and pop, {held} held");
        if !plan.wants(&name) {
            continue;
        }
        let mut rng = Rng::new(5);
        let mut card = FairQueue::new(order, levels).expect("a good shape");
        let mut other = TreeQueue::new(order, levels).expect("a good shape");
        let pair = race(plan.rounds, Clock::Own, &mut card, &mut other, || work(&mut rng, held, plan.operations));
        let bytes = 4 * other.words().len();
        all.push(Row { name, pair, card_bytes: bytes + 4 * fair_words(), other_bytes: bytes });
    }
    all
}
