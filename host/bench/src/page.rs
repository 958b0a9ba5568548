//! What the page has: every queue of the library beside plain C of the same rules, and beside what a user could take instead.

use crate::clock::Clock;
use crate::contest::{contest, Asked, Line, Named, BINARY_HEAP, FOUR_ARY, MAP, PLAIN_C, TREE};
use crate::cycles::{self, Ask, Runner};
use crate::fairs;
use crate::four::FourHeap;
use crate::halls;
use crate::measure::{Contestant, Rng, Work};
use crate::plain_c as c;
use crate::queues::{HeapQueue, MapQueue, Op, Player, Queue};
use crate::table::Plan;
use crate::traces::{pushes, refilled, replaced, strip, RANKS};
use card_host::{
    BucketQueue, ClockedHeap, ClockedLinesQueue, ClockedTree, ClusterQueue, FairQueue, LinesQueue, PackedQueue,
    PortsQueue, TreeQueue,
};

/// What a line is about, and what is asked of it.
pub struct About {
    pub group: &'static str,
    pub name: String,
    pub asked: Option<Asked>,
}

pub fn about(group: &'static str, name: &str, asked: Option<(f64, &'static str)>) -> About {
    let asked = asked.map(|(times, peer)| Asked { times, peer });
    About { group, name: format!("{group}, {name}"), asked }
}

/// Measures a line, if it is wanted.
pub fn line<T>(
    plan: &Plan,
    all: &mut Vec<Line>,
    about: About,
    card: &mut dyn Contestant<T>,
    peers: &mut [Named<T>],
    work: impl FnMut() -> Work<T>,
) {
    if plan.wants(&about.name) {
        let (card, peers) = contest(plan.rounds, Clock::Own, card, peers, work);
        all.push(Line { group: about.group, name: about.name, unit: "ns", card, peers, asked: about.asked });
    }
}

/// A queue that takes part; `whole` where tag and length belong to the answer.
fn player<Q: Queue>(queue: Q, whole: bool) -> Player<Q> {
    Player { queue, whole }
}

/// Pops and pushes in turn, or replaces, at 4,000 held.
fn any(rng: &mut Rng, operations: usize) -> Work<Op> {
    let fill = pushes(4000, || rng.below(RANKS));
    refilled(fill, operations, |_| rng.below(RANKS))
}

fn rising(rng: &mut Rng, operations: usize) -> Work<Op> {
    let fill = pushes(4000, || rng.below(RANKS));
    replaced(fill, operations / 2, |given| given + rng.below(RANKS))
}

/// A heap beside plain C of its own, and the heaps and the map that all are held to.
fn heap<Q: Queue, C: Queue>(
    plan: &Plan,
    all: &mut Vec<Line>,
    about: About,
    (card, plain): (Q, C),
    tree: Option<TreeQueue>,
    work: impl Fn(&mut Rng) -> Work<Op>,
) {
    let mut rng = Rng::new(2);
    let (mut plain, mut binary) = (player(plain, false), player(HeapQueue::default(), false));
    let (mut four, mut map) = (player(FourHeap::default(), false), player(MapQueue::default(), false));
    let mut tree = tree.map(|tree| player(tree, false));
    let mut peers: Vec<Named<Op>> =
        vec![(PLAIN_C, &mut plain), (BINARY_HEAP, &mut binary), (FOUR_ARY, &mut four), (MAP, &mut map)];
    if let Some(tree) = &mut tree {
        peers.push((TREE, tree));
    }
    line(plan, all, about, &mut player(card, false), &mut peers, || work(&mut rng));
}

fn trees(plan: &Plan, all: &mut Vec<Line>) {
    type Row = (&'static str, [f64; 3], fn(&mut Rng, usize) -> Work<Op>);
    let rows: [Row; 2] = [("push and pop", [2.2, 1.75, 1.95], any), ("replace", [1.5, 1.1, 1.2], rising)];
    for (kind, asked, work) in rows {
        for ((order, levels), times) in [(2, 11), (4, 6), (8, 4)].into_iter().zip(asked) {
            let about = about("tree", &format!("order {order} x {levels}, {kind}"), Some((times, BINARY_HEAP)));
            let both = (TreeQueue::new(order, levels).expect("a good shape"), c::Tree::new(order, levels));
            heap(plan, all, about, both, None, |rng| work(rng, plan.operations));
        }
    }
}

fn clusters(plan: &Plan, all: &mut Vec<Line>) {
    type Row = (&'static str, fn(&mut Rng, usize) -> Work<Op>);
    let rows: [Row; 2] = [("push and pop", any), ("replace", rising)];
    for (kind, work) in rows {
        let about = about("cluster heap", &format!("4 x 10, {kind}"), Some((1.0, TREE)));
        let both = (ClusterQueue::new(4, 10).expect("a good shape"), c::Cluster::new(4, 10));
        let tree = TreeQueue::new(2, 11).expect("a good shape");
        heap(plan, all, about, both, Some(tree), |rng| work(rng, plan.operations));
    }
}

fn packed(plan: &Plan, all: &mut Vec<Line>) {
    type Row = (&'static str, f64, fn(&mut Rng, usize) -> Work<Op>);
    let rows: [Row; 2] = [("push and pop", 1.6, any), ("replace", 1.3, rising)];
    for (kind, times, work) in rows {
        let about = about("packed heap", &format!("12 levels, {kind}"), Some((times, BINARY_HEAP)));
        let both = (PackedQueue::new(1, 12).expect("a good shape"), c::Packed::new(12));
        heap(plan, all, about, both, None, |rng| work(rng, plan.operations));
    }
}

/// Lines of either kind; first in, first out within a line, so that in more than one of kind 2 ranks alone are the map's.
fn sorted(plan: &Plan, all: &mut Vec<Line>) {
    for (kind, lines, places, held, ranks) in
        [(1, 1, 64, 60, 4096), (1, 64, 64, 1200, 65_536), (2, 64, 64, 4000, 65_536)]
    {
        let mut rng = Rng::new(3);
        let whole = kind == 1;
        let mut card = player(LinesQueue::new(kind, lines, places).expect("a good shape"), whole);
        let peers: &mut [Named<Op>] = &mut [
            (PLAIN_C, &mut player(c::Lines::new(kind, lines, places), whole)),
            (MAP, &mut player(MapQueue::default(), whole)),
        ];
        // few enough that the lines of the highest ranks do not run over
        let operations = plan.operations.min(4 * held).min(1600);
        let about = about("lines", &format!("kind {kind}, {lines} of {places}, {held} held, push and pop"), None);
        line(plan, all, about, &mut card, peers, || {
            let fill = pushes(held, || rng.below(ranks));
            refilled(fill, operations, |_| rng.below(ranks))
        });
    }
}

fn clocked_lines(plan: &Plan, all: &mut Vec<Line>) {
    type Row = (&'static str, fn(&mut Rng, usize) -> Ask);
    let rows: [Row; 2] = [("random", |rng, n| cycles::any(rng, n)), ("idle", |_, _| Ask::Idle)];
    for (name, ask) in rows {
        let mut rng = Rng::new(3);
        let mut card = Runner(ClockedLinesQueue::new(2, 64, 64).expect("a good shape"));
        let peers: &mut [Named<Ask>] = &mut [(PLAIN_C, &mut Runner(c::Lines::new(2, 64, 64)))];
        let about = about("clocked lines", &format!("kind 2, 64 of 64, {name}"), None);
        line(plan, all, about, &mut card, peers, || Work {
            fill: cycles::fill(&mut rng, 4000),
            trace: (0..plan.operations).map(|n| ask(&mut rng, n)).collect(),
        });
    }
}

/// The bucket queue beside what it is asked to beat, which gives equal ranks in the same order.
fn bucket(
    plan: &Plan,
    all: &mut Vec<Line>,
    name: &str,
    shape: (u32, u32),
    asked: Option<f64>,
    work: impl Fn(&mut Rng) -> Work<Op>,
) {
    let mut rng = Rng::new(1);
    let mut card = player(BucketQueue::new(shape.0, shape.1).expect("a good shape"), true);
    let peers: &mut [Named<Op>] = &mut [
        (PLAIN_C, &mut player(c::Bucket::new(shape.0, shape.1), true)),
        (MAP, &mut player(MapQueue::default(), true)),
    ];
    let about = about("bucket queue", name, asked.map(|times| (times, MAP)));
    line(plan, all, about, &mut card, peers, || work(&mut rng));
}

fn buckets(plan: &Plan, all: &mut Vec<Line>) {
    let (operations, shape, half) = (plan.operations, (2, 4096), Some(0.5));
    bucket(plan, all, "spread ranks", shape, half, |rng| {
        let fill = pushes(4000, || rng.below(4096));
        refilled(fill, operations, |_| rng.below(4096))
    });
    bucket(plan, all, "64 ranks", shape, half, |rng| {
        let fill = pushes(4000, || 65 * rng.below(64));
        refilled(fill, operations, |_| 65 * rng.below(64))
    });
    bucket(plan, all, "a moving window of 512 ranks", shape, half, |rng| {
        let fill = pushes(4000, || rng.below(512));
        refilled(fill, operations, |given| (given + rng.below(512)).min(4095))
    });
    bucket(plan, all, "one rank", shape, None, |_| refilled(pushes(4000, || 7), operations, |_| 7));
    bucket(plan, all, "replace at spread ranks", shape, half, |rng| {
        let fill = pushes(4000, || rng.below(4096));
        replaced(fill, operations / 2, |given| given + rng.below(4096 - given))
    });
    bucket(plan, all, "three storeys, spread ranks", (3, 65_536), None, |rng| {
        let fill = pushes(4000, || rng.below(262_144));
        refilled(fill, operations, |_| rng.below(262_144))
    });
}

fn ports(plan: &Plan, all: &mut Vec<Line>) {
    type Row = (&'static str, fn(&mut Rng, usize) -> Work<halls::Ask>);
    let rows: [Row; 2] = [("spread ranks", halls::spread), ("replace at spread ranks", halls::replace)];
    for (kind, work) in rows {
        let mut rng = Rng::new(6);
        let (nodes, limits) = (halls::NODES, &halls::LIMITS);
        let mut card = halls::Player(PortsQueue::new(2, nodes, limits).expect("a good shape"));
        let maps: [MapQueue; halls::PORTS] = Default::default();
        let peers: &mut [Named<halls::Ask>] =
            &mut [(PLAIN_C, &mut halls::Player(c::Ports::new(2, nodes, limits))), (MAP, &mut halls::Player(maps))];
        let about = about("five ports", kind, None);
        line(plan, all, about, &mut card, peers, || work(&mut rng, plan.operations));
    }
}

fn fair(plan: &Plan, all: &mut Vec<Line>) {
    let mut rng = Rng::new(5);
    let mut card = FairQueue::new(4, 6).expect("a good shape");
    let peers: &mut [Named<fairs::Ask>] = &mut [(PLAIN_C, &mut c::Fair::new(4, 6))];
    let about = about("fair ranks", "order 4 x 6, push and pop", None);
    line(plan, all, about, &mut card, peers, || fairs::work(&mut rng, 4000, plan.operations));
}

fn clocked_trees(plan: &Plan, all: &mut Vec<Line>) {
    type Row = (&'static str, f64, fn(&mut Rng, usize) -> Ask);
    let rows: [Row; 2] = [("random", 2.3, cycles::any), ("idle", 2.5, |_, _| Ask::Idle)];
    for (kind, times, ask) in rows {
        let mut rng = Rng::new(3);
        let mut card = Runner(ClockedTree::new(4, 6).expect("a good shape"));
        let peers: &mut [Named<Ask>] = &mut [(PLAIN_C, &mut Runner(c::ClockedTree::new(4, 6)))];
        let about = about("clocked tree", &format!("order 4 x 6, {kind}"), Some((times, PLAIN_C)));
        line(plan, all, about, &mut card, peers, || Work {
            fill: cycles::fill(&mut rng, 4000),
            trace: (0..plan.operations).map(|n| ask(&mut rng, n)).collect(),
        });
    }
}

/// As many pushes more as pops, or the other way round, stay within what is held and what there is room for.
fn clocked_clusters(plan: &Plan, all: &mut Vec<Line>) {
    type Row = (&'static str, Option<f64>, fn(&mut Rng, usize) -> Ask);
    let rows: [Row; 5] = [
        ("push", Some(2.7), |rng, n| Ask::Push(strip(rng.below(RANKS), n))),
        ("pop", Some(3.0), |_, _| Ask::Pop),
        ("replace", Some(2.3), |rng, n| Ask::Replace(strip(rng.below(2 * RANKS), n))),
        ("push and pop in turn", None, |rng, n| match n % 2 {
            0 => Ask::Push(strip(rng.below(RANKS), n)),
            _ => Ask::Pop,
        }),
        ("idle", Some(3.0), |_, _| Ask::Idle),
    ];
    for (kind, times, ask) in rows {
        let mut rng = Rng::new(7);
        let mut card = Runner(ClockedHeap::new(4, 10).expect("a good shape"));
        let peers: &mut [Named<Ask>] = &mut [(PLAIN_C, &mut Runner(c::ClockedCluster::new(4, 10)))];
        let about = about("clocked cluster heap", &format!("4 x 10, {kind}"), times.map(|t| (t, PLAIN_C)));
        line(plan, all, about, &mut card, peers, || Work {
            fill: cycles::fill(&mut rng, 2000),
            trace: (0..plan.operations.min(1900)).map(|n| ask(&mut rng, n)).collect(),
        });
    }
}

/// The queues and the clocks; stores and the trace program have files of their own.
pub fn lines(plan: &Plan) -> Vec<Line> {
    let mut all = Vec::new();
    trees(plan, &mut all);
    clusters(plan, &mut all);
    packed(plan, &mut all);
    sorted(plan, &mut all);
    buckets(plan, &mut all);
    ports(plan, &mut all);
    fair(plan, &mut all);
    clocked_trees(plan, &mut all);
    clocked_clusters(plan, &mut all);
    clocked_lines(plan, &mut all);
    all
}
