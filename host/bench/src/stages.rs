//! The clocked cluster heap beside the clocked tree: the same operations, each in as many cycles as its machine needs.

use crate::clock::Clock;
use crate::cycles::{asked, Ask};
use crate::measure::{race, Contestant, Rng, Work};
use crate::table::{Plan, Row};
use crate::traces::strip;
use card_host::{ClockedHeap, ClockedTree, Refusal};

/// A machine that answers every operation, and the cycles that it needed.
struct Counted<M> {
    machine: M,
    cycles: u64,
    operations: u64,
}

impl<M> Counted<M> {
    fn new(machine: M) -> Counted<M> {
        Counted { machine, cycles: 0, operations: 0 }
    }
    /// Operations answered a cycle, in the timed runs.
    fn answered(&self) -> f64 {
        self.operations as f64 / self.cycles as f64
    }
}

fn fold(answers: u64, rank: u32) -> u64 {
    answers.rotate_left(5) ^ rank as u64
}

impl Contestant<Ask> for Counted<ClockedHeap> {
    fn ready(&mut self, fill: &[Ask]) {
        self.machine.clear().expect("clear");
        for ask in fill {
            self.machine.cycle(asked(*ask)).expect("a cycle");
        }
    }
    fn run(&mut self, trace: &[Ask]) -> u64 {
        let mut answers = 0;
        for ask in trace {
            answers = fold(answers, self.machine.cycle(asked(*ask)).expect("a cycle").rank.0);
        }
        self.cycles += trace.len() as u64;
        self.operations += trace.len() as u64;
        answers
    }
}

impl Contestant<Ask> for Counted<ClockedTree> {
    fn ready(&mut self, fill: &[Ask]) {
        self.machine.clear().expect("clear");
        for ask in fill {
            self.machine.cycle(asked(*ask)).expect("a cycle");
        }
        self.machine.idle().expect("a cycle");
    }
    /// What is too soon has run as an idle cycle, and is asked for again.
    fn run(&mut self, trace: &[Ask]) -> u64 {
        let mut answers = 0;
        for ask in trace {
            self.cycles += 1;
            let answer = match self.machine.cycle(asked(*ask)) {
                Err(Refusal::TooSoon) => {
                    self.cycles += 1;
                    self.machine.cycle(asked(*ask))
                }
                answer => answer,
            };
            answers = fold(answers, answer.expect("a cycle").rank.0);
        }
        self.operations += trace.len() as u64;
        answers
    }
}

/// A row's numbers by the cycle: operations answered in one, and nanoseconds of one, of the heap and of the tree.
pub struct Cycles {
    pub name: String,
    pub answered: (f64, f64),
    pub time: (f64, f64),
}

/// A row: `ask` chooses each operation.
fn row(plan: &Plan, all: &mut Vec<(Row, Cycles)>, name: &str, ask: impl Fn(&mut Rng, usize) -> Ask) {
    let name = format!("cluster clock, {name}");
    if !plan.wants(&name) {
        return;
    }
    let mut rng = Rng::new(7);
    let mut card = Counted::new(ClockedHeap::new(4, 10).expect("a good shape"));
    let mut other = Counted::new(ClockedTree::new(2, 11).expect("a good shape"));
    // as many pushes more as pops, or the other way round, stay within what is held and what there is room for
    let (held, operations) = (2000, plan.operations.min(1900));
    let pair = race(plan.rounds, Clock::Own, &mut card, &mut other, || Work {
        fill: (0..held).map(|n| Ask::Push(strip(rng.below(1 << 20), n))).collect(),
        trace: (0..operations).map(|n| ask(&mut rng, n)).collect(),
    });
    let answered = (card.answered(), other.answered());
    let cycles = Cycles { name: name.clone(), answered, time: (pair.card * answered.0, pair.other * answered.1) };
    let (heap, tree) = (&card.machine, &other.machine);
    let row = Row {
        name,
        pair,
        card_bytes: 4 * (heap.words().len() + 6 * heap.records().len()),
        other_bytes: 4 * (tree.words().len() + 5 * tree.records().len() + 1),
    };
    all.push((row, cycles));
}

/// Pushes alone, pops alone, replaces, and pushes and pops in turn, with an operation asked for in every cycle; 2,000 held at first.
pub fn rows(plan: &Plan) -> (Vec<Row>, Vec<Cycles>) {
    let mut all = Vec::new();
    let push = |rng: &mut Rng, n| Ask::Push(strip(rng.below(1 << 20), n));
    row(plan, &mut all, "push every cycle", push);
    row(plan, &mut all, "pop every cycle", |_, _| Ask::Pop);
    row(plan, &mut all, "replace every cycle", |rng, n| Ask::Replace(strip(rng.below(1 << 21), n)));
    row(plan, &mut all, "push and pop in turn", |rng, n| if n % 2 == 0 { push(rng, n) } else { Ask::Pop });
    all.into_iter().unzip()
}

/// The same by the cycle.
pub fn print(all: &[Cycles]) {
    if all.is_empty() {
        return;
    }
    let (heap, tree) = ("heap", "tree");
    println!("\n{:<40} {:>9} {:>9}   {:>9} {:>9}", "operations a cycle; nanoseconds a cycle", heap, tree, heap, tree);
    for Cycles { name, answered, time } in all {
        println!("{name:<40} {:>9.2} {:>9.2}   {:>9.1} {:>9.1}", answered.0, answered.1, time.0, time.1);
    }
}
