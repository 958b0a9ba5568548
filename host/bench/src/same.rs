//! Plain C is the library's peer only where it does the same: every answer, and every word that it leaves.

use crate::cycles::{Ask, Machine};
use crate::halls::{self, Halls, LIMITS, NODES};
use crate::measure::Rng;
use crate::plain_c::{self, Bucket, Clockwork, Cluster, Fair, Packed, Ports, Tree};
use crate::queues::{bare, wrapped, Op, Queue};
use crate::traces::{pushes, refilled, replaced, strip};
use card_host::{
    Broken, BucketQueue, ClockedHeap, ClockedLinesQueue, ClockedTree, ClusterQueue, FairQueue, Flow, Length,
    LinesQueue, PackedQueue, PortsQueue, Tag, TreeQueue, Weight,
};
use std::io::Write;
use std::process::{Command, Stdio};

/// Pops and pushes, then replaces, with ties among the ranks.
fn trace(held: usize, ranks: u32) -> Vec<Op> {
    let mut rng = Rng::new(9);
    let fill = pushes(held, || rng.below(ranks));
    let turns = refilled(fill.clone(), 3000, |_| rng.below(ranks));
    let swaps = replaced(fill.clone(), 1500, |_| rng.below(ranks));
    [fill, turns.trace, swaps.trace].concat()
}

fn same<A: Queue, B: Queue>(card: &mut A, plain: &mut B, trace: &[Op]) {
    for op in trace {
        match *op {
            Op::Push(x) => {
                card.push(x);
                plain.push(x);
            }
            Op::Pop => assert_eq!(card.pop(), plain.pop()),
            Op::Replace(x) => assert_eq!(card.replace(x), plain.replace(x)),
        }
    }
}

#[test]
fn trees() {
    for (order, levels, held) in [(2, 11, 4000), (4, 6, 4000), (8, 4, 4000), (2, 1, 2), (4, 3, 60), (8, 2, 72)] {
        for ranks in [7, 1 << 20] {
            let mut card = TreeQueue::new(order, levels).expect("a good shape");
            let mut plain = Tree::new(order, levels);
            same(&mut card, &mut plain, &trace(held, ranks));
            assert_eq!(card.words(), &plain.words[..], "order {order} x {levels}");
        }
    }
}

#[test]
fn check_and_mend() {
    for (order, levels, held) in [(2, 11, 4000), (4, 6, 5460), (8, 4, 4680), (4, 3, 60)] {
        let mut rng = Rng::new(9);
        let mut card = TreeQueue::new(order, levels).expect("a good shape");
        for op in trace(held, 1000) {
            if let Op::Push(x) = op {
                let _ = card.push(wrapped(x));
            }
        }
        let mut plain = Tree::new(order, levels);
        let mut words = card.words().to_vec();
        assert_eq!(plain.check(&words), None);
        for _ in 0..100 {
            // a count too low leaves no more elements than slots
            let at = rng.below(words.len() as u32) as usize;
            words[at] = rng.below(words[at].max(1));
            let spoilt = TreeQueue::from_words(order, levels, words.clone());
            assert_eq!(spoilt.check(), plain.check(&words).map_or(Ok(()), |slot| Err(Broken::Slot(slot))));
            let mut second = vec![0; words.len()];
            let mended = spoilt.mend(&mut second[..]).expect("mend").skipped;
            assert_eq!(plain.mend(&words), mended);
            assert_eq!(plain.words, second, "order {order} x {levels}");
        }
    }
}

#[test]
fn clusters() {
    for (places, levels, held) in [(4, 10, 4000), (2, 11, 4000), (8, 9, 4000), (5, 3, 30), (3, 1, 3)] {
        for ranks in [7, 1 << 20] {
            let mut card = ClusterQueue::new(places, levels).expect("a good shape");
            let mut plain = Cluster::new(places, levels);
            same(&mut card, &mut plain, &trace(held, ranks));
            assert_eq!(card.words(), &plain.words[..], "{places} x {levels}");
        }
    }
}

#[test]
fn packed_heaps() {
    for (levels, held) in [(12, 4000), (1, 1), (3, 7), (6, 40)] {
        for ranks in [7, 1 << 20] {
            let mut card = PackedQueue::new(1, levels).expect("a good shape");
            let mut plain = Packed::new(levels);
            same(&mut card, &mut plain, &trace(held, ranks));
            assert_eq!(card.words(), &plain.words[..], "{levels} levels");
        }
    }
}

#[test]
fn lines() {
    for (kind, lines, places, held) in
        [(1, 1, 64, 60), (2, 1, 64, 60), (2, 64, 64, 4000), (2, 8, 1, 7), (1, 4, 1024, 1000)]
    {
        for ranks in [7, 65_536] {
            let mut card = LinesQueue::new(kind, lines, places).expect("a good shape");
            let mut plain = plain_c::Lines::new(kind, lines, places);
            same(&mut card, &mut plain, &trace(held, ranks));
            assert_eq!(card.words(), &plain.words[..], "kind {kind}, {lines} of {places}");
        }
    }
}

#[test]
fn clocked_lines() {
    for (kind, lines, places) in [(1, 1, 4), (1, 8, 3), (2, 8, 3), (2, 64, 64), (1, 64, 64), (2, 2, 1)] {
        let mut card = ClockedLinesQueue::new(kind, lines, places).expect("a good shape");
        let mut plain = plain_c::Lines::new(kind, lines, places);
        let mut rng = Rng::new(9);
        for n in 0..20_000 {
            let ask = any_request(&mut rng, n, 70_000);
            assert_eq!(Machine::cycle(&mut card, ask), Machine::cycle(&mut plain, ask), "cycle {n}");
            let r = card.record()[0];
            assert_eq!([r.kind, r.node, r.rank, r.tag, r.length], plain.record, "cycle {n}");
            if n % 61 == 0 || lines * places < 100 {
                assert_eq!(card.words(), &plain.words[..], "cycle {n}");
            }
        }
    }
}

#[test]
fn buckets() {
    for (storeys, nodes, ranks) in [(2, 4096, 4096), (2, 4096, 3), (3, 4096, 262_144), (3, 4096, 5000), (2, 4000, 64)] {
        let mut card = BucketQueue::new(storeys, nodes).expect("a good shape");
        let mut plain = Bucket::new(storeys, nodes);
        for _ in 0..2 {
            assert_eq!((card.bits(), card.words()), (&plain.bits[..], &plain.words[..]));
            same(&mut card, &mut plain, &trace(4000, ranks));
            assert_eq!((card.bits(), card.words()), (&plain.bits[..], &plain.words[..]));
            Queue::clear(&mut card);
            plain.clear();
        }
    }
}

#[test]
fn ports() {
    let mut rng = Rng::new(9);
    let mut card = PortsQueue::new(2, NODES, &LIMITS).expect("a good shape");
    let mut plain = Ports::new(2, NODES, &LIMITS);
    for work in [halls::spread(&mut rng, 4000), halls::replace(&mut rng, 4000)] {
        Halls::clear(&mut card);
        Halls::clear(&mut plain);
        for (port, op) in work.fill.into_iter().chain(work.trace) {
            match op {
                Op::Push(x) => {
                    Halls::push(&mut card, port, x);
                    plain.push(port, x);
                }
                Op::Pop => assert_eq!(Halls::pop(&mut card, port), plain.pop(port)),
                Op::Replace(x) => assert_eq!(Halls::replace(&mut card, port, x), plain.replace(port, x)),
            }
        }
        assert_eq!((card.bits(), card.words()), (&plain.bits[..], &plain.words[..]));
    }
}

#[test]
fn fair_ranks() {
    let mut rng = Rng::new(9);
    let mut card = FairQueue::new(4, 6).expect("a good shape");
    let mut plain = Fair::new(4, 6);
    for n in 0..6000 {
        if n > 3000 && n % 2 == 0 {
            let given = card.pop().expect("pop");
            assert_eq!(bare(given), plain.pop());
        } else {
            let (flow, weight, (_, tag, length)) = (rng.below(64), 1 + rng.below(1024), strip(0, n));
            card.push(Flow(flow), Weight(weight), Tag(tag), Length(length)).expect("push");
            plain.push(flow, weight, tag, length);
        }
    }
    assert_eq!((card.state(), card.words()), (&plain.state[..], &plain.tree.words[..]));
}

/// What a machine has: words, records as words, and the mark of a tree.
trait Looked: Machine {
    fn looked(&self) -> (Vec<u32>, Vec<u32>, u32);
}

impl Looked for ClockedTree {
    fn looked(&self) -> (Vec<u32>, Vec<u32>, u32) {
        let records = self.records().iter().flat_map(|r| [r.kind, r.node, r.rank, r.tag, r.length]).collect();
        (self.words().to_vec(), records, self.mark() as u32)
    }
}

impl Looked for ClockedHeap {
    fn looked(&self) -> (Vec<u32>, Vec<u32>, u32) {
        let records = self.records().iter().flat_map(|r| [r.kind, r.node, r.place, r.rank, r.tag, r.length]).collect();
        (self.words().to_vec(), records, 0)
    }
}

/// More pushes than pops for a while, and then more pops; tag 0 now and then.
fn any_request(rng: &mut Rng, n: usize, ranks: u32) -> Ask {
    match (rng.below(if n % 8000 < 4000 { 3 } else { 7 }), rng.below(ranks)) {
        (0 | 1, rank) => Ask::Push(if rank % 1000 == 7 { (7, 0, 7) } else { strip(rank, n) }),
        (2, _) => Ask::Idle,
        (3, rank) => Ask::Replace(strip(rank, n)),
        _ => Ask::Pop,
    }
}

/// Cycles of every kind, refusals among them; words and records after each, of large machines after some.
fn cycled<A: Looked, B: Machine>(mut card: A, mut plain: B, look: impl Fn(&B) -> &Clockwork) {
    let mut rng = Rng::new(9);
    for n in 0..20_000 {
        let ask = any_request(&mut rng, n, 1000);
        assert_eq!(card.cycle(ask), plain.cycle(ask), "cycle {n}");
        let (words, records, mark) = look(&plain).looked();
        if words.len() < 1000 || n % 61 == 0 {
            assert_eq!(card.looked(), (words.to_vec(), records.to_vec(), mark), "cycle {n}");
        }
    }
}

#[test]
fn clocked_trees() {
    for (order, levels) in [(4, 6), (2, 11), (8, 4), (2, 1), (4, 2), (8, 2), (2, 4)] {
        let card = ClockedTree::new(order, levels).expect("a good shape");
        cycled(card, plain_c::ClockedTree::new(order, levels), |plain| &plain.0);
    }
}

#[test]
fn clocked_clusters() {
    for (places, levels) in [(4, 10), (2, 11), (3, 1), (4, 2), (5, 3), (2, 5)] {
        let card = ClockedHeap::new(places, levels).expect("a good shape");
        cycled(card, plain_c::ClockedCluster::new(places, levels), |plain| &plain.0);
    }
}

/// The trace program in C, in version 2 with a length, and at a record that is none.
#[test]
fn the_trace_program() {
    let mut trace = b"PFT\x02\0\x02\x02".to_vec();
    let records =
        [[1, 5, 50, 64], [1, 3, 30, 72], [0, 0, 0, 0], [2, 0, 0, 0], [2, 0, 0, 0], [1, 7, 0, 1], [9, 0, 0, 0]];
    for [code, rank, tag, length] in records {
        trace.push(code as u8);
        trace.extend([rank, tag, length].iter().flat_map(|n: &u32| n.to_le_bytes()));
    }
    let lines = "1 pushed\n2 pushed\n3 idle\n4 out 3 30 72\n5 too soon\n6 no tag\n";
    for (bytes, last) in [(trace.len(), "bad record 7\n"), (trace.len() - 13, "held 1 drained 0\n"), (6, "bad trace\n")]
    {
        let mut program = Command::new(env!("BENCH_PLAIN_PLAY"));
        let mut play = program.stdin(Stdio::piped()).stdout(Stdio::piped()).spawn().expect("the program runs");
        play.stdin.take().expect("its input").write_all(&trace[..bytes]).expect("its input");
        let output = play.wait_with_output().expect("the program ends");
        let expected = if bytes < 7 { last.to_string() } else { format!("{lines}{last}") };
        assert_eq!(String::from_utf8_lossy(&output.stdout), expected);
    }
}
