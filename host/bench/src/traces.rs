//! What the one-at-a-time queues are timed on.

use crate::clock::Clock;
use crate::count::bytes_of;
use crate::measure::{race, Rng, Work};
use crate::queues::{filled, HeapQueue, MapQueue, Op, Player, Queue, RankHeap, Strip};
use crate::table::{Plan, Row};
use card_host::{cluster_words, packed_words, tree_words, BucketQueue, ClusterQueue, PackedQueue, TreeQueue};

/// The bucket queue's pool at two storeys, and at three.
const NODES: u32 = 4096;
const NODES_DEEP: u32 = 65536;

/// The ranks of three storeys.
const RANKS_DEEP: u32 = 262_144;

/// Ranks of the trees' rows lie below this, or so far behind what came out before where they rise.
pub const RANKS: u32 = 1 << 20;

/// The n-th strip of a trace, at this rank: a tag of its own, and a length between those of the shortest and the longest.
pub fn strip(rank: u32, n: usize) -> Strip {
    (rank, n as u32 + 1, 64 + (n as u32 * 997) % 9153)
}

/// Pushes at ranks that `rank` chooses.
pub fn pushes(held: usize, mut rank: impl FnMut() -> u32) -> Vec<Op> {
    (0..held).map(|n| Op::Push(strip(rank(), n))).collect()
}

/// Pops, each with a push after it whose rank `rank` chooses from what came out.
pub fn refilled(fill: Vec<Op>, operations: usize, mut rank: impl FnMut(u32) -> u32) -> Work<Op> {
    let mut queue = filled(MapQueue::default(), &fill);
    let mut trace = Vec::new();
    for n in 0..operations / 2 {
        let given = queue.pop().0;
        let x = strip(rank(given), n);
        queue.push(x);
        trace.extend([Op::Pop, Op::Push(x)]);
    }
    Work { fill, trace }
}

/// Replaces whose rank `rank` chooses from what came out before.
pub fn replaced(fill: Vec<Op>, operations: usize, mut rank: impl FnMut(u32) -> u32) -> Work<Op> {
    let mut queue = filled(MapQueue::default(), &fill);
    let mut given = 0;
    let mut trace = Vec::new();
    for n in 0..operations {
        let x = strip(rank(given), n);
        given = queue.replace(x).0;
        trace.push(Op::Replace(x));
    }
    Work { fill, trace }
}

fn bucket(plan: &Plan, all: &mut Vec<Row>, name: &str, work: impl FnMut(&mut Rng) -> Work<Op>) {
    shaped(plan, all, name, (2, NODES), work)
}

fn shaped(plan: &Plan, all: &mut Vec<Row>, name: &str, shape: (u32, u32), mut work: impl FnMut(&mut Rng) -> Work<Op>) {
    if !plan.wants(name) {
        return;
    }
    let mut rng = Rng::new(1);
    let mut card = Player { queue: BucketQueue::new(shape.0, shape.1).expect("a good shape"), whole: true };
    let mut other = Player { queue: MapQueue::default(), whole: true };
    let pair = race(plan.rounds, Clock::Own, &mut card, &mut other, || work(&mut rng));
    let Work { fill, trace } = work(&mut rng);
    // where nothing is filled before, the trace fills: its first half is what is held at most
    let most = if fill.is_empty() { &trace[..trace.len() / 2] } else { &fill };
    all.push(Row {
        name: name.to_string(),
        pair,
        card_bytes: 8 * card.queue.bits().len() + 4 * card.queue.words().len(),
        other_bytes: bytes_of(|| filled(MapQueue::default(), most)),
    });
}

/// A queue of any ranks beside another that answers the same ones; how many words the card's has.
fn beside<C: Queue, Q: Queue>(
    plan: &Plan,
    all: &mut Vec<Row>,
    name: &str,
    (card, words): (C, usize),
    other: impl Fn() -> Q,
    mut work: impl FnMut(&mut Rng) -> Work<Op>,
) {
    if !plan.wants(name) {
        return;
    }
    let mut rng = Rng::new(2);
    let (mut card, mut with) = (Player { queue: card, whole: false }, Player { queue: other(), whole: false });
    let pair = race(plan.rounds, Clock::Own, &mut card, &mut with, || work(&mut rng));
    let Work { fill, trace } = work(&mut rng);
    let most = if fill.is_empty() { &trace[..trace.len() / 2] } else { &fill };
    let other_bytes = bytes_of(|| filled(other(), most));
    all.push(Row { name: name.to_string(), pair, card_bytes: 4 * words, other_bytes });
}

fn tree<Q: Queue + Default>(
    plan: &Plan,
    all: &mut Vec<Row>,
    name: &str,
    (order, levels): (u32, u32),
    work: impl FnMut(&mut Rng) -> Work<Op>,
) {
    let card = (TreeQueue::new(order, levels).expect("a good shape"), tree_words(order, levels));
    beside(plan, all, name, card, Q::default, work);
}

/// The bucket queue beside the map: each input at 4,000 held, then growth.
pub fn buckets(plan: &Plan) -> Vec<Row> {
    let mut all = Vec::new();
    let operations = plan.operations;
    bucket(plan, &mut all, "bucket, spread ranks refilled", |rng| {
        let fill = pushes(4000, || rng.below(4096));
        refilled(fill, operations, |_| rng.below(4096))
    });
    // one rank of each group
    bucket(plan, &mut all, "bucket, 64 ranks", |rng| {
        let fill = pushes(4000, || 65 * rng.below(64));
        refilled(fill, operations, |_| 65 * rng.below(64))
    });
    bucket(plan, &mut all, "bucket, a moving window of 512 ranks", |rng| {
        let fill = pushes(4000, || rng.below(512));
        refilled(fill, operations, |given| (given + rng.below(512)).min(4095))
    });
    bucket(plan, &mut all, "bucket, replace at spread ranks", |rng| {
        let fill = pushes(4000, || rng.below(4096));
        replaced(fill, operations / 2, |given| given + rng.below(4096 - given))
    });
    bucket(plan, &mut all, "bucket, fill and drain", |rng| {
        let mut trace = pushes(4000, || rng.below(4096));
        trace.extend([Op::Pop; 4000]);
        Work { fill: Vec::new(), trace }
    });
    bucket(plan, &mut all, "bucket, one rank only", |_| refilled(pushes(4000, || 7), operations, |_| 7));
    bucket(plan, &mut all, "bucket, replace at ranks below all others", |rng| {
        let fill = pushes(4000, || 100 + rng.below(3996));
        replaced(fill, operations / 2, |_| rng.below(100))
    });
    for held in [64, 256, 1024] {
        bucket(plan, &mut all, &format!("bucket, spread ranks refilled, {held} held"), |rng| {
            let fill = pushes(held, || rng.below(4096));
            refilled(fill, operations.min(4 * held), |_| rng.below(4096))
        });
    }
    all
}

/// Three storeys, the largest pool: growth, with ranks spread wide and in a window.
pub fn deep_buckets(plan: &Plan) -> Vec<Row> {
    let mut all = Vec::new();
    let shape = (3, NODES_DEEP);
    for held in [64, 1024, 4096, 16384, 65536] {
        let operations = plan.operations.min(4 * held);
        // a pop comes first, so that a full queue has room for each push
        shaped(plan, &mut all, &format!("bucket, three storeys, spread ranks refilled, {held} held"), shape, |rng| {
            let fill = pushes(held, || rng.below(RANKS_DEEP));
            refilled(fill, operations, |_| rng.below(RANKS_DEEP))
        });
        shaped(plan, &mut all, &format!("bucket, three storeys, a window of 512 ranks, {held} held"), shape, |rng| {
            let fill = pushes(held, || rng.below(512));
            refilled(fill, operations, |given| (given + rng.below(512)).min(RANKS_DEEP - 1))
        });
    }
    all
}

/// The tree beside the heap, beyond what the page has: other ranks, another heap, and growth by what is held and by levels.
pub fn trees(plan: &Plan) -> Vec<Row> {
    let mut all = Vec::new();
    let operations = plan.operations;
    let any = |rng: &mut Rng, held| {
        let fill = pushes(held, || rng.below(RANKS));
        refilled(fill, operations, |_| rng.below(RANKS))
    };
    let rising = |rng: &mut Rng| {
        let fill = pushes(4000, || rng.below(RANKS));
        refilled(fill, operations, |given| given + rng.below(RANKS))
    };
    tree::<HeapQueue>(plan, &mut all, "tree, order 4 x 6, rising ranks", (4, 6), rising);
    tree::<RankHeap>(plan, &mut all, "tree, order 4 x 6, a heap by rank alone", (4, 6), |rng| any(rng, 4000));
    for held in [64, 256, 1024] {
        let name = format!("tree, order 4 x 6, push and pop, {held} held");
        tree::<HeapQueue>(plan, &mut all, &name, (4, 6), |rng| any(rng, held));
    }
    for (levels, held) in [(2, 15), (3, 63), (4, 255), (5, 1023), (8, 65535)] {
        let name = format!("tree, order 4 x {levels}, push and pop, {held} held");
        tree::<HeapQueue>(plan, &mut all, &name, (4, levels), |rng| any(rng, held));
    }
    all
}

/// The cluster heap beside the heap, at other numbers of places than the page has.
pub fn clusters(plan: &Plan) -> Vec<Row> {
    let mut all = Vec::new();
    let operations = plan.operations;
    for (places, levels) in [(8, 9), (2, 11)] {
        let name = format!("cluster heap, {places} x {levels}, push and pop");
        let card = (ClusterQueue::new(places, levels).expect("a good shape"), cluster_words(places, levels));
        beside(plan, &mut all, &name, card, HeapQueue::default, |rng| {
            let fill = pushes(4000, || rng.below(RANKS));
            refilled(fill, operations, |_| rng.below(RANKS))
        });
    }
    all
}

/// One packed heap beside the heap, beside that by rank alone, and beside the tree of order 4, each with as many levels as it needs.
pub fn packed(plan: &Plan) -> Vec<Row> {
    type Input = (&'static str, fn(&mut Rng, usize, usize) -> Work<Op>);
    let inputs: [Input; 3] = [
        ("push and pop", |rng, held, operations| {
            let fill = pushes(held, || rng.below(RANKS));
            refilled(fill, operations, |_| rng.below(RANKS))
        }),
        ("replace", |rng, held, operations| {
            let fill = pushes(held, || rng.below(RANKS));
            replaced(fill, operations / 2, |given| given + rng.below(RANKS))
        }),
        ("fill and drain", |rng, held, _| {
            let mut trace = pushes(held, || rng.below(RANKS));
            trace.extend(vec![Op::Pop; held]);
            Work { fill: Vec::new(), trace }
        }),
    ];
    let mut all = Vec::new();
    for (held, levels, tree_levels) in [(64, 7, 3), (4000, 12, 6), (65_000, 16, 8)] {
        let card = || (PackedQueue::new(1, levels).expect("a good shape"), packed_words(1, levels));
        let tree = || TreeQueue::new(4, tree_levels).expect("a good shape");
        let operations = plan.operations;
        for (input, work) in inputs {
            let name = |other: &str| format!("packed heap, {input}, {held} held{other}");
            let work = |rng: &mut Rng| work(rng, held, operations);
            beside(plan, &mut all, &name(""), card(), HeapQueue::default, work);
            beside(plan, &mut all, &name(", by rank"), card(), RankHeap::default, work);
            beside(plan, &mut all, &name(", tree"), card(), tree, work);
        }
    }
    all
}
