//! Work on whole stores: the check of a full one and its mending, for one slot, and clears, for one of them.

use crate::clock::Clock;
use crate::contest::{contest, Line, Named, BINARY_HEAP, MEMSET, PLAIN_C};
use crate::halls::{self, Halls};
use crate::measure::{Contestant, Rng, Work};
use crate::page::{about, line};
use crate::plain_c as c;
use crate::queues::Queue;
use crate::table::Plan;
use card_host::{tree_slots, tree_words, BucketQueue, Element, Length, PortsQueue, Rank, Tag, TreeQueue};
use std::cmp::Reverse;
use std::collections::BinaryHeap;

/// What is done with a full store.
enum Task {
    Check,
    PlainCheck,
    Mend(Vec<u32>),
    PlainMend,
    /// The elements of the store collected into a heap of the standard library.
    Heap(BinaryHeap<Reverse<(u32, u32)>>),
}

/// A full store, and one of plain C beside it.
struct Full {
    tree: TreeQueue,
    plain: c::Tree,
    task: Task,
}

impl Full {
    fn new((order, levels): (u32, u32), task: Task) -> Full {
        let tree = TreeQueue::new(order, levels).expect("a good shape");
        Full { tree, plain: c::Tree::new(order, levels), task }
    }
}

impl Contestant<u32> for Full {
    fn ready(&mut self, fill: &[u32]) {
        self.tree.clear().expect("clear");
        for (n, rank) in fill.iter().enumerate() {
            self.tree.push(Element::new(Rank(*rank), Tag(n as u32 + 1), Length(64))).expect("push");
        }
        if let Task::Heap(heap) = &mut self.task {
            heap.clear();
        }
    }
    /// How many slots are broken or skipped, up to one.
    fn run(&mut self, _: &[u32]) -> u64 {
        let words = self.tree.words();
        match &mut self.task {
            Task::Check => self.tree.check().is_err() as u64,
            Task::PlainCheck => self.plain.check(words).is_some() as u64,
            Task::Mend(second) => self.tree.mend(&mut second[..]).expect("mend").skipped as u64,
            Task::PlainMend => self.plain.mend(words) as u64,
            Task::Heap(heap) => {
                heap.extend(words.chunks_exact(4).filter(|s| s[3] != 0 && s[1] != 0).map(|s| Reverse((s[0], s[1]))));
                (words.len() / 4 - heap.len()) as u64
            }
        }
    }
}

/// Full stores of the shape, each with ranks of its own.
fn stores(slots: usize) -> impl FnMut() -> Work<u32> {
    let mut rng = Rng::new(5);
    move || {
        let ranks: Vec<u32> = (0..slots).map(|_| rng.below(1 << 20)).collect();
        Work { fill: ranks.clone(), trace: ranks }
    }
}

/// Small stores and the largest, which takes long to fill: its rounds, what a row is called, and its slots.
fn shapes(plan: &Plan) -> impl Iterator<Item = ((u32, u32), Plan, String, usize)> + '_ {
    [(2, 11), (4, 6), (8, 4), (4, 8)].into_iter().map(move |(order, levels)| {
        let slots = tree_slots(order, levels);
        let rounds = (plan.rounds * 20_000 / slots.max(20_000)).max(3);
        let name = format!("a slot, order {order} x {levels}, full");
        ((order, levels), Plan { rounds, ..plan.clone() }, name, slots)
    })
}

fn checks(plan: &Plan, all: &mut Vec<Line>) {
    for (shape, plan, name, slots) in shapes(plan) {
        let peers: &mut [Named<u32>] = &mut [(PLAIN_C, &mut Full::new(shape, Task::PlainCheck))];
        line(&plan, all, about("check", &name, None), &mut Full::new(shape, Task::Check), peers, stores(slots));
    }
}

fn mends(plan: &Plan, all: &mut Vec<Line>) {
    for (shape, plan, name, slots) in shapes(plan) {
        let mut card = Full::new(shape, Task::Mend(vec![0; tree_words(shape.0, shape.1)]));
        let peers: &mut [Named<u32>] = &mut [
            (PLAIN_C, &mut Full::new(shape, Task::PlainMend)),
            (BINARY_HEAP, &mut Full::new(shape, Task::Heap(BinaryHeap::new()))),
        ];
        // asked for of the largest store: 20 ns where plain C takes 52
        let asked = (shape.1 == 8).then_some((0.38, PLAIN_C));
        line(&plan, all, about("mend", &name, asked), &mut card, peers, stores(slots));
    }
}

/// Something that is cleared.
struct Clears<F>(F);

impl<F: FnMut()> Contestant<()> for Clears<F> {
    fn ready(&mut self, _: &[()]) {}
    fn run(&mut self, trace: &[()]) -> u64 {
        trace.iter().for_each(|()| (self.0)());
        0
    }
}

fn cleared(plan: &Plan, all: &mut Vec<Line>, name: &str, card: impl FnMut(), plain: impl FnMut(), zeros: impl FnMut()) {
    let about = about("clear", name, Some((2.0, MEMSET)));
    if !plan.wants(&about.name) {
        return;
    }
    let work = || Work { fill: Vec::new(), trace: vec![(); 8] };
    let peers: &mut [Named<()>] = &mut [(PLAIN_C, &mut Clears(plain)), (MEMSET, &mut Clears(zeros))];
    let (card, mut peers) = contest(plan.rounds, Clock::Own, &mut Clears(card), peers, work);
    peers.iter_mut().for_each(|p| p.time /= 1000.0);
    all.push(Line {
        group: about.group, name: about.name, unit: "µs", card: card / 1000.0, peers, asked: about.asked
    });
}

fn clears(plan: &Plan, all: &mut Vec<Line>) {
    for (storeys, nodes) in [(2, 4096), (2, 65_536), (3, 4096), (3, 65_536)] {
        let mut card = BucketQueue::new(storeys, nodes).expect("a good shape");
        let (mut plain, mut zeros) = (c::Bucket::new(storeys, nodes), c::Bucket::new(storeys, nodes));
        let name = format!("bucket queue, {storeys} storeys, {nodes} nodes");
        cleared(plan, all, &name, || card.clear().expect("clear"), || plain.clear(), || zeros.zeros());
    }
    let (nodes, limits) = (halls::NODES, &halls::LIMITS);
    let mut card = PortsQueue::new(2, nodes, limits).expect("a good shape");
    let (mut plain, mut zeros) = (c::Ports::new(2, nodes, limits), c::Ports::new(2, nodes, limits));
    let name = format!("five ports, 2 storeys, {nodes} nodes");
    cleared(plan, all, &name, || card.clear(limits).expect("clear"), || plain.clear(), || zeros.zeros());
}

/// Checks, mends and clears.
pub fn lines(plan: &Plan) -> Vec<Line> {
    let mut all = Vec::new();
    checks(plan, &mut all);
    mends(plan, &mut all);
    clears(plan, &mut all);
    all
}
