//! The safe Rust wrapper, used as its users do: beside the plain list, over lent words and over its own, handed out and back.

use card_host::{
    bucket_bits, bucket_ranks, bucket_words, calls, fair_words, record_count, tree_slots, tree_words, Bucket,
    BucketQueue, Clear, Clocked, ClockedCluster, ClockedHeap, ClockedLines, ClockedLinesQueue, ClockedTree, Cluster,
    ClusterQueue, ClusterRecord, Drained, Element, Fair, FairQueue, Flow, Length, Limits, Lines, LinesQueue, Machine,
    Mended, Ports, PortsQueue, Queue, Rank, Record, Refusal, Replace, Request, Stopped, Strip, Tag, Tree, TreeQueue,
    Weight,
};
use models::list::SortedList;
use models::rng::{seed, Rng};

fn of(x: models::Element) -> Element {
    Element::new(Rank(x.rank), Tag(x.tag), Length(x.length))
}

fn element(rank: u32, tag: u32, length: u32) -> Element {
    Element::new(Rank(rank), Tag(tag), Length(length))
}

/// What a call on a queue of this room is to answer, by the plain list.
fn push(list: &mut SortedList, x: models::Element, room: usize) -> Result<(), Refusal> {
    if x.tag == 0 {
        return Err(Refusal::NoTag);
    }
    if list.held() == room {
        return Err(Refusal::Full);
    }
    list.push(x);
    Ok(())
}

fn pop(list: &mut SortedList) -> Result<Element, Refusal> {
    list.pop().map(of).ok_or(Refusal::Empty)
}

/// A pop and then a push.
fn replace(list: &mut SortedList, x: models::Element) -> Result<Element, Refusal> {
    if x.tag == 0 {
        return Err(Refusal::NoTag);
    }
    let first = pop(list)?;
    list.push(x);
    Ok(first)
}

#[test]
fn bucket_queues_beside_the_list() {
    let mut rng = Rng::new(seed(), 500);
    for (storeys, nodes) in [(2, 1), (2, 3), (2, 50), (2, 4096), (3, 1), (3, 50)] {
        let ranks = bucket_ranks(storeys) as u32;
        let mut queue = BucketQueue::new(storeys, nodes).unwrap();
        let (mut bits, mut words) = (vec![9; bucket_bits(storeys)], vec![9; bucket_words(storeys, nodes)]);
        let mut lent = Bucket::cleared(storeys, nodes, &mut bits[..], &mut words[..]).unwrap();
        let mut list = SortedList::new();
        for n in 0..3000 {
            let tag = if rng.once_in(20) { 0 } else { n + 1 };
            let x = models::element(rng.below(ranks as u64 + ranks as u64 / 64) as u32, tag, rng.word());
            let bad = x.rank >= ranks;
            match rng.below(4) {
                0 | 1 => {
                    let expected = if bad { Err(Refusal::BadRank) } else { push(&mut list, x, nodes as usize) };
                    assert_eq!((queue.push(of(x)), lent.push(of(x))), (expected, expected));
                }
                2 => {
                    let expected = pop(&mut list);
                    assert_eq!((queue.pop(), lent.pop()), (expected, expected));
                }
                _ => {
                    let expected = if bad { Err(Refusal::BadRank) } else { replace(&mut list, x) };
                    assert_eq!((queue.replace(of(x)), lent.replace(of(x))), (expected, expected));
                }
            }
            assert_eq!((queue.held(), lent.held()), (Ok(list.held() as u32), Ok(list.held() as u32)));
            if n % 500 == 0 {
                // handed out and back
                let (bits, words) = queue.into_words();
                queue = BucketQueue::from_words(storeys, nodes, bits, words);
            }
        }
        assert_eq!((queue.bits(), queue.words()), (lent.bits(), lent.words()));
    }
    for (storeys, nodes) in
        [(2, 0), (2, 65537), (3, 0), (3, 65537), (0, 3), (1, 3), (4, 3), (1 << 31, 3), (u32::MAX, 3)]
    {
        assert_eq!(BucketQueue::new(storeys, nodes), Err(Refusal::BadShape), "{storeys} storeys, {nodes} nodes");
    }
    let damaged = BucketQueue::from_words(2, 1, vec![0; 65], vec![0; bucket_words(2, 1)]);
    assert_eq!(damaged.held(), Err(Refusal::Damaged), "free link 0 and nothing held");
}

#[test]
fn the_largest_bucket_queues_to_the_brim() {
    for storeys in [2, 3] {
        let mut rng = Rng::new(seed(), 510 + storeys as u64);
        let mut queue = BucketQueue::new(storeys, 65536).unwrap();
        let mut all: Vec<_> =
            (1..=65536).map(|tag| element(rng.below(bucket_ranks(storeys) as u64) as u32, tag, 3 * tag)).collect();
        for &x in &all {
            assert_eq!(queue.push(x), Ok(()));
        }
        assert_eq!((queue.push(element(0, 1, 64)), queue.held()), (Err(Refusal::Full), Ok(65536)));
        // first in, first out within a rank: a stable sort
        all.sort_by_key(|x| x.rank);
        for &x in &all {
            assert_eq!(queue.pop(), Ok(x));
        }
        assert_eq!((queue.pop(), queue.held()), (Err(Refusal::Empty), Ok(0)));
        assert!(queue.bits().iter().all(|&word| word == 0), "an empty queue has no bit set");
    }
}

#[test]
fn trees_beside_the_list() {
    let mut rng = Rng::new(seed(), 501);
    for (order, levels) in [(2, 1), (2, 4), (4, 3), (8, 3), (4, 8)] {
        let mut queue = TreeQueue::new(order, levels).unwrap();
        let mut words = vec![9; tree_words(order, levels)];
        let mut lent = Tree::cleared(order, levels, &mut words[..]).unwrap();
        let mut list = SortedList::new();
        for n in 0..3000 {
            // tags and lengths that follow from the rank: then elements of one rank are all alike
            let rank = rng.below(60) as u32;
            let x = models::element(rank, if rng.once_in(20) { 0 } else { 1000 - rank }, 64 * rank);
            match rng.below(4) {
                0 | 1 => {
                    let expected = push(&mut list, x, tree_slots(order, levels));
                    assert_eq!((queue.push(of(x)), lent.push(of(x))), (expected, expected));
                }
                2 => {
                    let expected = pop(&mut list);
                    assert_eq!((queue.pop(), lent.pop()), (expected, expected));
                }
                _ => {
                    let expected = replace(&mut list, x);
                    assert_eq!((queue.replace(of(x)), lent.replace(of(x))), (expected, expected));
                }
            }
            assert_eq!((queue.held(), lent.held()), (Ok(list.held() as u32), Ok(list.held() as u32)));
            if n % 500 == 0 {
                queue = TreeQueue::from_words(order, levels, queue.into_words());
            }
        }
        assert_eq!(queue.words(), lent.words());
    }
    for (order, levels) in [(3, 2), (2, 0), (4, 9), (2, 16), (8, 6), (u32::MAX, u32::MAX)] {
        assert_eq!(TreeQueue::new(order, levels), Err(Refusal::BadShape));
    }
    let damaged = Tree::from_words(2, 1, [9, 0, 0, 0, 0, 0, 0, 0]);
    assert_eq!(damaged.held(), Err(Refusal::Damaged), "an empty slot with a rank");
    let damaged = Tree::from_words(2, 1, [0, 0, 9, 0, 0, 0, 0, 0]);
    assert_eq!(damaged.held(), Err(Refusal::Damaged), "an empty slot with a length");
}

#[test]
fn clocked_trees_beside_the_list() {
    let mut rng = Rng::new(seed(), 502);
    for (order, levels) in [(2, 1), (2, 5), (4, 3), (8, 3), (2, 15)] {
        let mut tree = ClockedTree::new(order, levels).unwrap();
        let (mut words, mut records) =
            (vec![9; tree_words(order, levels)], vec![Record::from([9; 5]); record_count(levels)]);
        let mut lent = Clocked::cleared(order, levels, &mut words[..], &mut records[..]).unwrap();
        let mut list = SortedList::new();
        for n in 0..3000 {
            let rank = rng.below(60) as u32;
            let x = models::element(rank, if rng.once_in(20) { 0 } else { 1000 - rank }, 64 * rank);
            let soon = tree.mark();
            match rng.below(6) {
                0 | 1 => {
                    let expected = push(&mut list, x, tree_slots(order, levels));
                    assert_eq!((tree.push(of(x)), lent.push(of(x))), (expected, expected));
                }
                2 => {
                    let expected = if soon { Err(Refusal::TooSoon) } else { pop(&mut list) };
                    assert_eq!((tree.pop(), lent.pop()), (expected, expected));
                }
                3 => {
                    let expected = if soon { Err(Refusal::TooSoon) } else { replace(&mut list, x) };
                    assert_eq!((tree.replace(of(x)), lent.replace(of(x))), (expected, expected));
                }
                4 => assert_eq!((tree.idle(), lent.idle()), (Ok(()), Ok(()))),
                _ => {
                    let report = tree.drain(levels).unwrap();
                    assert_eq!((report.work_left, lent.drain(levels)), (false, Ok(report)));
                    assert_eq!(tree.drain(9), Ok(Drained { cycles: 0, work_left: false }));
                }
            }
            assert_eq!((tree.held(), lent.held()), (Ok(list.held() as u32), Ok(list.held() as u32)));
            if n % 500 == 0 {
                // work and mark are handed out and back too
                let (words, records, mark) = tree.into_words();
                tree = ClockedTree::from_words(order, levels, words, records, mark);
            }
        }
        assert_eq!((tree.words(), tree.records(), tree.mark()), (lent.words(), lent.records(), lent.mark()));
        assert_eq!(tree.clear(), Ok(()));
        assert!(tree.words().iter().all(|w| *w == 0) && tree.records().iter().all(|r| *r == Record::default()));
        assert_eq!(tree.cycle(Request::Idle), Ok(Element::default()));
    }
    assert_eq!(ClockedTree::new(2, u32::MAX), Err(Refusal::BadShape));
}

#[test]
fn a_drain_that_is_refused_says_how_far_it_came() {
    // a take at a node of level 2 that is empty: the first cycle is refused
    let mut tree = Clocked::from_words(2, 2, [0; tree_words(2, 2)], [Record::from([2, 0, 0, 0, 0])], true);
    assert_eq!(tree.drain(9), Err(Stopped { refusal: Refusal::Damaged, cycles: 0 }));
    assert_eq!(tree.into_words(), ([0; tree_words(2, 2)], [Record::from([2, 0, 0, 0, 0])], true));
    // a put that goes on below, into a node that lacks nothing but is damaged: one cycle runs
    let mut words = [0; tree_words(2, 3)];
    words[8..16].copy_from_slice(&[1; 8]);
    words[24] = 7;
    let mut tree = Clocked::from_words(2, 3, words, [[1, 0, 5, 5, 5], [0; 5]].map(Record::from), false);
    assert_eq!(tree.drain(9), Err(Stopped { refusal: Refusal::Damaged, cycles: 1 }));
    let stopped = Stopped { refusal: Refusal::Damaged, cycles: 1 };
    assert_eq!((Refusal::from(stopped), stopped.to_string()), (Refusal::Damaged, "damaged after 1 cycles".into()));
    let mut short = Clocked::from_words(2, 3, [0; 3], [Record::default(); record_count(3)], false);
    assert_eq!(short.drain(9), Err(Stopped { refusal: Refusal::BadShape, cycles: 0 }));
}

#[test]
fn sizes_are_the_models_and_the_shapes_that_are_taken() {
    let mut levels: Vec<u32> = (0..40).collect();
    levels.extend([63, 64, 65, 1 << 16, 1 << 30, 1 << 31, u32::MAX - 1, u32::MAX]);
    let mut orders: Vec<u32> = (0..20).collect();
    orders.extend([32, 64, 1 << 16, 1 << 31, (1 << 31) + 2, u32::MAX]);
    let mut store = vec![0; 4 * 349_524];
    for &order in &orders {
        for &l in &levels {
            let model = models::tree::Shape::new(order, l).map_or(0, |shape| shape.capacity() as usize);
            assert_eq!((tree_slots(order, l), tree_words(order, l)), (model, 4 * model), "order {order}, levels {l}");
            assert_eq!(calls::tree_words(order, l) as usize, 4 * model, "order {order}, levels {l}");
            // the size is taken, one word less is not
            assert_eq!(calls::tree_clear(&mut store, order, l) == 0, model != 0);
            if model != 0 {
                assert_eq!(calls::tree_clear(&mut store[..4 * model], order, l), 0);
                assert_eq!(calls::tree_clear(&mut store[..4 * model - 1], order, l), 1);
                assert_eq!(record_count(l), l as usize - 1);
            }
        }
    }
    for storeys in [0, 1, 2, 3, 4, 5, 64, 1 << 31, u32::MAX] {
        let deep = (2..=3).contains(&storeys);
        let model = if deep { models::bucket::bits(storeys) } else { 0 };
        assert_eq!((bucket_bits(storeys), calls::bucket_bits(storeys) as usize), (model, model), "{storeys} storeys");
        for nodes in (0..=4100).chain([8192, 65535, 65536, 65537, 1 << 31, u32::MAX]) {
            let good = deep && (1..=65536).contains(&nodes);
            let model = if good { models::bucket::words(storeys, nodes as u64) as usize } else { 0 };
            let (constant, asked) = (bucket_words(storeys, nodes), calls::bucket_words(storeys, nodes) as usize);
            assert_eq!((constant, asked), (model, model), "{storeys} storeys, {nodes} nodes");
        }
    }
}

#[test]
fn every_refusal_has_its_number_and_name() {
    let names = ["bad shape", "damaged", "too soon", "bad rank", "full", "empty", "no tag"];
    for (i, name) in names.iter().enumerate() {
        let refusal = Refusal::of(i as u32 + 1).unwrap();
        assert_eq!((refusal.number(), refusal.name(), refusal.to_string()), (i as u32 + 1, *name, name.to_string()));
    }
    assert_eq!(Refusal::of(12).map(|no_heap| (no_heap.number(), no_heap.name())), Some((12, "no such heap")));
    assert_eq!((Refusal::of(0), Refusal::of(13), Refusal::of(u32::MAX)), (None, None, None));
    let error: Box<dyn std::error::Error> = Box::new(Refusal::Full);
    assert_eq!(
        (error.to_string(), (element(1, 2, 3).tag, element(1, 2, 3).length)),
        ("full".into(), (Tag(2), Length(3)))
    );
}

#[test]
fn the_library_is_the_one_that_the_wrapper_was_written_for() {
    assert_eq!(calls::version(), card_host::VERSION);
}

/// Fills a queue to the brim, replaces there, and empties it by rising ranks. `rest` stands between two calls.
fn to_the_brim<Q: Replace>(queue: &mut Q, rest: impl Fn(&mut Q)) {
    let room = queue.capacity() as u32;
    assert_eq!((queue.held(), queue.pop().is_err()), (Ok(0), true));
    let mut ranks: Vec<u32> = (0..room).map(|n| 7 * n % 31).collect();
    for &rank in &ranks {
        rest(queue);
        assert_eq!(queue.push(element(rank, rank + 1, 64)), Ok(()));
    }
    rest(queue);
    assert_eq!((queue.push(element(0, 1, 64)), queue.held()), (Err(Refusal::Full), Ok(room)));
    rest(queue);
    ranks.sort_unstable();
    assert_eq!(queue.replace(element(40, 9, 9)).map(|x| x.rank), Ok(Rank(ranks.remove(0))));
    ranks.push(40);
    for rank in ranks {
        rest(queue);
        assert_eq!(queue.pop().map(|x| x.rank), Ok(Rank(rank)));
    }
    rest(queue);
    assert_eq!((queue.pop(), queue.held()), (Err(Refusal::Empty), Ok(0)));
}

/// .. and clears it while something is held.
fn to_the_brim_and_cleared<Q: Replace + Clear>(mut queue: Q, rest: impl Fn(&mut Q)) {
    to_the_brim(&mut queue, &rest);
    assert_eq!(queue.push(element(5, 50, 500)), Ok(()));
    assert_eq!((queue.held(), queue.clear(), queue.held()), (Ok(1), Ok(()), Ok(0)));
    to_the_brim(&mut queue, &rest);
}

fn by_cycles(queue: impl Machine) {
    to_the_brim_and_cleared(queue, |queue| {
        assert_eq!(queue.cycle(Request::Idle), Ok(Element::default()));
        assert_eq!(queue.drain(99).map(|drained| drained.work_left), Ok(false));
    });
}

/// Every queue is worked by the same text, through the traits.
#[test]
fn every_queue_by_the_traits() {
    for (order, levels) in [(2, 1), (2, 5), (4, 3), (8, 2)] {
        to_the_brim_and_cleared(TreeQueue::new(order, levels).unwrap(), |_| ());
        by_cycles(ClockedTree::new(order, levels).unwrap());
    }
    for (places, levels) in [(2, 1), (3, 3), (5, 2), (16, 2)] {
        to_the_brim_and_cleared(ClusterQueue::new(places, levels).unwrap(), |_| ());
        to_the_brim_and_cleared(ClockedHeap::new(places, levels).unwrap(), |_| ());
        by_cycles(ClockedHeap::new(places, levels).unwrap());
    }
    for (storeys, nodes) in [(2, 1), (2, 40), (3, 5)] {
        to_the_brim_and_cleared(BucketQueue::new(storeys, nodes).unwrap(), |_| ());
    }
    // of kind 1 all these ranks are of one line
    for (kind, lines, places) in [(1, 1, 1), (1, 1, 40), (2, 1, 6), (2, 4, 9)] {
        to_the_brim_and_cleared(LinesQueue::new(kind, lines, places).unwrap(), |_| ());
        to_the_brim_and_cleared(ClockedLinesQueue::new(kind, lines, places).unwrap(), |_| ());
        by_cycles(ClockedLinesQueue::new(kind, lines, places).unwrap());
    }
    let mut ports =
        PortsQueue::new(2, 30, &[(1, 30), (9, 10), (0, 99)].map(|(floor, ceiling)| Limits { floor, ceiling })).unwrap();
    assert_eq!([0, 1, 2, 3].map(|port| ports.port(port).capacity()), [30, 10, 30, 0]);
    // the others' floors are kept from it
    to_the_brim(&mut ports.port(1), |_| ());
    assert_eq!(ports.limits(1), Some(Limits { floor: 9, ceiling: 10 }));
    assert_eq!((ports.limits(3), PortsQueue::from_words(2, 30, 3, vec![], vec![0; 9]).limits(1)), (None, None));

    // fair ranks take strips in
    let mut fair = FairQueue::new(2, 2).unwrap();
    let strip = |tag| Strip { flow: Flow(tag), weight: Weight(tag), tag: Tag(tag), length: Length(64) };
    for tag in 1..=6 {
        assert_eq!(Queue::push(&mut fair, strip(tag)), Ok(()));
    }
    assert_eq!(
        (Queue::push(&mut fair, strip(7)), Queue::held(&fair), Queue::capacity(&fair)),
        (Err(Refusal::Full), Ok(6), 6)
    );
    assert_eq!(Queue::pop(&mut fair).map(|x| x.tag), Ok(Tag(6)));
    assert_eq!((Clear::clear(&mut fair), fair.held(), fair.clock()), (Ok(()), Ok(0), Rank(0)));
}

/// The numbers of a shape, each by its name, and the room that they give; none for a bad shape.
#[test]
fn shapes_and_rooms() {
    let tree = Tree::from_words(4, 3, [0; 0]);
    assert_eq!((tree.order(), tree.levels(), tree.capacity()), (4, 3, 84));
    let clocked = Clocked::from_words(8, 2, [0; 0], [Record::default(); 1], false);
    assert_eq!((clocked.order(), clocked.levels(), clocked.capacity()), (8, 2, 72));
    let fair = Fair::from_words(2, 5, [0; 0], [0; 0]);
    assert_eq!((fair.order(), fair.levels(), fair.capacity()), (2, 5, 62));
    let cluster = Cluster::from_words(5, 4, [0; 0]);
    assert_eq!((cluster.places(), cluster.levels(), cluster.capacity()), (5, 4, 75));
    let heap = ClockedCluster::from_words(3, 2, [0; 0], [ClusterRecord::default(); 1]);
    assert_eq!((heap.places(), heap.levels(), heap.capacity()), (3, 2, 9));
    let bucket = Bucket::from_words(3, 70, [0; 0], [0; 0]);
    assert_eq!((bucket.storeys(), bucket.nodes(), bucket.capacity()), (3, 70, 70));
    let ports = Ports::from_words(2, 50, 7, [0; 0], [0; 0]);
    assert_eq!((ports.storeys(), ports.nodes(), ports.ports(), ports.capacity()), (2, 50, 7, 50));
    let lines = Lines::from_words(2, 8, 5, [0; 0]);
    assert_eq!((lines.kind(), lines.lines(), lines.places(), lines.capacity()), (2, 8, 5, 40));
    let rows = ClockedLines::from_words(1, 4, 7, [0; 0], [Record::default(); 1]);
    assert_eq!((rows.kind(), rows.lines(), rows.places(), rows.capacity()), (1, 4, 7, 28));
    assert_eq!((Lines::from_words(3, 8, 5, [0; 0]).capacity(), Lines::from_words(1, 6, 5, [0; 0]).capacity()), (0, 0));
    assert_eq!((Tree::from_words(3, 2, [0; 0]).capacity(), Cluster::from_words(1, 2, [0; 0]).capacity()), (0, 0));
    assert_eq!(Bucket::from_words(2, 65_537, [0; 0], [0; 0]).capacity(), 0);
    assert_eq!(Ports::from_words(2, 50, 17, [0; 0], [0; 0]).capacity(), 0);
}

/// Does not compile where the type is `Clone`, and so neither where it is `Copy`.
macro_rules! never_copied {
    ($($queue:ty),*) => {
        $({
            trait Told<A> {
                fn told() {}
            }
            struct Twice;
            impl<T> Told<()> for T {}
            impl<T: Clone> Told<Twice> for T {}
            <$queue as Told<_>>::told();
        })*
    };
}

/// A queue over arrays is not copied by a word like `=`: what is one queue stays one.
#[test]
fn no_queue_is_copied() {
    never_copied!(Tree<[u32; 24]>, Cluster<[u32; 30]>, Bucket<[u64; 65], [u32; 8203]>, Ports<[u64; 65], [u32; 8205]>);
    never_copied!(Fair<[u32; 65], [u32; 24]>, Clocked<[u32; 24], [Record; 1]>, ClockedCluster<[u32; 30], [ClusterRecord; 1]>);
    never_copied!(Lines<[u32; 20]>, ClockedLines<[u32; 20], [Record; 1]>, LinesQueue, ClockedLinesQueue);
    never_copied!(
        Mended<[u32; 24]>,
        TreeQueue,
        FairQueue,
        ClusterQueue,
        BucketQueue,
        PortsQueue,
        ClockedTree,
        ClockedHeap
    );
    assert_eq!(Fair::cleared(2, 2, [9; fair_words()], [9; tree_words(2, 2)]).map(|queue| queue.capacity()), Ok(6));
}
