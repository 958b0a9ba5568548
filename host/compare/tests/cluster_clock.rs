//! What is the clocked cluster heap's own, beside what `queues` has of every machine: its words are the plain heap's once drained, which
//! clauses are met, small machines, the worked cases; and the wrapper as its users use it.

use card_host::{
    cluster_words, record_count, ClockedCluster, ClockedHeap, ClusterRecord, Drained, Element, Length, Rank, Refusal,
    Request, Stopped, Tag,
};
use compare::desk::{Desk, Store, Tally};
use compare::drive::{hostile_cycles, Driven};
use compare::queues::{self, Ask, Cluster};
use models::cluster_clock::cause;
use models::rng::{seed, Rng};
use models::{element, Causes};

type Machine = Desk<queues::ClockedCluster>;

/// A machine of this shape that is cleared.
fn fresh(tally: &mut Tally, shape: (u32, u32)) -> Machine {
    let mut machine = Machine::new(queues::ClockedCluster::blank(shape, 2));
    assert_eq!(machine.both(tally, Ask::Clear).0, 0);
    machine
}

/// Where each operation is drained before the next, the words are those of the heap worked one operation at a time.
#[test]
fn drained_each_time_it_is_the_plain_heap() {
    let mut rng = Rng::new(seed(), 551);
    let (mut tally, mut plain_tally) = (Tally::of::<queues::ClockedCluster>(), Tally::of::<Cluster>());
    for &shape in queues::ClockedCluster::SHAPES {
        let (mut machine, mut plain) = (fresh(&mut tally, shape), Desk::<Cluster>::new(Cluster::blank(shape, 0)));
        plain.both(&mut plain_tally, Ask::Clear);
        for n in 0..600u32 {
            let x = element(rng.below(20) as u32, n + 1, n);
            let request = 1 + rng.pick(&[n / 60 % 2, 0, 1, 2]);
            let got = machine.both(&mut tally, Ask::Cycle(request, x, 3));
            assert_eq!(machine.both(&mut tally, Ask::Drain(99, 2)).1[1], 0);
            let (number, mut out) = plain.both(&mut plain_tally, Ask::request(request, x));
            out.resize(3, 0);
            assert_eq!(got, (number, out));
            assert_eq!(machine.library.words[..plain.library.words.len()], plain.library.words[..]);
        }
    }
}

/// To the brim and to the ground with an operation in every cycle.
#[test]
fn an_operation_every_cycle() {
    let mut rng = Rng::new(seed(), 552);
    for (places, levels) in [(2, 6), (4, 5), (16, 4), (2, 11)] {
        let mut heap = ClockedHeap::new(places, levels).unwrap();
        let room = places * ((1 << levels) - 1);
        let ranks: Vec<u32> = (0..room).map(|_| rng.below(1000) as u32).collect();
        for (n, &rank) in ranks.iter().enumerate() {
            assert_eq!(heap.push(Element::new(Rank(rank), Tag(n as u32 + 1), Length(0))), Ok(()));
        }
        assert_eq!(heap.push(Element::new(Rank(0), Tag(1), Length(0))), Err(Refusal::Full));
        let mut sorted = ranks.clone();
        sorted.sort_unstable();
        for rank in sorted {
            assert_eq!(heap.pop().unwrap().rank, Rank(rank));
        }
        assert_eq!(heap.pop(), Err(Refusal::Empty));
        assert_eq!(heap.drain(99).map(|d| d.work_left), Ok(false));
        assert!(heap.words().iter().all(|w| *w == 0));
    }
}

/// The worked cases: two places a node, two levels, after pushes of 5/50, 3/30, 8/80 and 1/10 and a drain of one cycle.
#[test]
fn cases() {
    let x = |rank| Element::new(Rank(rank), Tag(10 * rank), Length(0));
    // counts, then rank and tag of both places, of each node
    let nodes = |heap: &ClockedHeap| -> Vec<[u32; 6]> {
        heap.words().chunks(10).map(|w| [w[0], w[1], w[2], w[3], w[6], w[7]]).collect()
    };
    let record = |heap: &ClockedHeap| <[u32; 6]>::from(heap.records()[0]);
    // a second heap with the same words and records
    let again = |heap: &ClockedHeap| ClockedHeap::from_words(2, 2, heap.words().to_vec(), heap.records().to_vec());
    let mut pushed = ClockedHeap::new(2, 2).unwrap();
    for rank in [5, 3, 8, 1] {
        pushed.push(x(rank)).unwrap();
    }
    assert_eq!(pushed.drain(9), Ok(Drained { cycles: 1, work_left: false }));
    let (left, right, empty) = ([0, 0, 8, 80, 0, 0], [0, 0, 5, 50, 0, 0], [0; 6]);
    assert_eq!(nodes(&pushed), [[1, 1, 1, 10, 3, 30], left, right]);

    // four pops in four cycles, and a fifth
    let mut heap = again(&pushed);
    let ranks: Vec<u32> = (0..4).map(|_| heap.pop().unwrap().rank.0).collect();
    assert_eq!((ranks, heap.pop()), (vec![1, 3, 5, 8], Err(Refusal::Empty)));

    // a gap, and one idle cycle later it is filled from below
    let mut heap = again(&pushed);
    assert_eq!(heap.pop(), Ok(x(1)));
    assert_eq!((nodes(&heap), record(&heap)), (vec![[1, 1, 0, 0, 3, 30], left, right], [2, 0, 0, 0, 0, 0]));
    let mut busy = again(&heap);
    heap.idle().unwrap();
    assert_eq!((nodes(&heap), record(&heap)), (vec![[1, 0, 5, 50, 3, 30], left, empty], [0; 6]));

    // two operations in flight: what was lifted goes down again
    busy.push(x(4)).unwrap();
    assert_eq!((nodes(&busy), record(&busy)), (vec![[1, 1, 4, 40, 3, 30], left, empty], [1, 1, 0, 5, 50, 0]));
    busy.idle().unwrap();
    assert_eq!((nodes(&busy), record(&busy)), (vec![[1, 1, 4, 40, 3, 30], left, right], [0; 6]));

    // a newcomer on trial: it stays at equal rank, and goes below a lower one
    for (rank, root, below) in [(5, [5, 57], right), (6, [5, 50], [0, 0, 6, 57, 0, 0])] {
        let mut heap = again(&pushed);
        let newcomer = Element::new(Rank(rank), Tag(57), Length(0));
        assert_eq!(heap.replace(newcomer), Ok(x(1)));
        assert_eq!((nodes(&heap)[0], record(&heap)), ([1, 1, rank, 57, 3, 30], [3, 0, 0, rank, 57, 0]));
        heap.idle().unwrap();
        assert_eq!((nodes(&heap), record(&heap)), (vec![[1, 1, root[0], root[1], 3, 30], left, below], [0; 6]));
    }
}

/// Each clause was met by each call that can be damaged by it, on machines with words and records spoilt.
#[test]
fn every_clause_is_met() {
    let tally = hostile_cycles::<queues::ClockedCluster, 6>(553, 16_000);
    let pending: Causes = cause::ALL.iter().map(|(clause, _)| clause).sum::<Causes>() & !cause::ROOT;
    let all = pending | cause::ROOT;
    for (row, can) in tally.rows.iter().zip([0, pending, all, all, all, 0, pending, cause::ROOT]) {
        let missed = cause::ALL.iter().filter(|(c, _)| can & !row.clauses() & c != 0);
        let missed: Vec<&str> = missed.map(|(_, name)| *name).collect();
        assert!(missed.is_empty(), "{} was never damaged by {missed:?}", row.name);
        assert_eq!(row.clauses() & !can, 0, "{}", row.name);
    }
}

/// Every store of two nodes deep that can be put together from a few places, counts and records, with every request on each.
#[test]
fn small_machines() {
    let mut tally = Tally::of::<queues::ClockedCluster>();
    let places = [[0, 0, 0, 0], [5, 50, 1, 1], [4, 40, 1, 1]];
    let records = [
        [0; 6],
        [0, 7, 7, 7, 7, 7],
        [1, 1, 0, 6, 60, 1],
        [1, 2, 0, 6, 60, 1],
        [2, 0, 0, 0, 0, 0],
        [2, 0, 2, 3, 3, 3],
        [3, 0, 1, 4, 70, 1],
        [3, 0, 0, 9, 90, 1],
        [3, 1, 0, 9, 90, 1],
    ];
    let counts = [[0, 0], [1, 0], [1, 2], [2, 2], [3, 0]];
    for node in 0..81 {
        let [a, b, c, d] = [node % 3, node / 3 % 3, node / 9 % 3, node / 27].map(|n| places[n]);
        for count in counts {
            let mut store = count.to_vec();
            for words in [&a[..], &b, &[0, 0], &c, &[0; 4], &[0, 0], &d, &[8, 80, 1, 1]] {
                store.extend(words);
            }
            let machine =
                |record| Machine::new(Store { records: vec![record].into(), ..Store::of((2, 2), store.clone()) });
            for record in records {
                for request in 0..4 {
                    machine(record).both(&mut tally, Ask::Cycle(request, element(5, 55, 5), 3));
                }
                machine(record).both(&mut tally, Ask::Drain(9, 2));
            }
        }
    }
    assert!(tally.rows[1..5].iter().all(|row| row.numbers[0] > 100 && row.numbers[2] > 100));
}

#[test]
fn the_wrapper() {
    let mut rng = Rng::new(seed(), 554);
    let (mut words, mut records) =
        (vec![9; cluster_words(3, 3) + 1], vec![ClusterRecord::from([9; 6]); record_count(3) + 1]);
    let mut owned = ClockedHeap::new(3, 3).unwrap();
    {
        let mut lent = ClockedCluster::cleared(3, 3, &mut words[..], &mut records[..]).unwrap();
        for n in 0..2000 {
            let x = Element::new(Rank(rng.below(50) as u32), Tag(n % 60), Length(rng.word()));
            match rng.below(7) {
                0 | 1 => assert_eq!(owned.push(x), lent.push(x)),
                2 | 3 => assert_eq!(owned.pop(), lent.pop()),
                4 => assert_eq!(owned.replace(x), lent.replace(x)),
                5 => assert_eq!(owned.idle(), lent.idle()),
                _ => assert_eq!(owned.drain(1), lent.drain(1)),
            }
            assert_eq!(owned.held(), lent.held());
            if n % 400 == 0 {
                let (words, records) = owned.into_words();
                owned = ClockedHeap::from_words(3, 3, words, records);
            }
        }
        assert_eq!((owned.words(), owned.records()), (&lent.words()[..cluster_words(3, 3)], &lent.records()[..2]));
        assert_eq!(lent.clear(), Ok(()));
        assert_eq!(lent.cycle(Request::Idle), Ok(Element::default()));
    }
    assert_eq!((words[cluster_words(3, 3)], records[2]), (9, ClusterRecord::from([9; 6])));
    assert_eq!(ClockedHeap::new(2, u32::MAX), Err(Refusal::BadShape));
    // a fill of a node with nothing below it: the first cycle is refused
    let mut bare = ClockedCluster::from_words(2, 2, [0; 30], [ClusterRecord::from([2, 0, 0, 0, 0, 0])]);
    assert_eq!(bare.drain(9), Err(Stopped { refusal: Refusal::Damaged, cycles: 0 }));
    assert_eq!(bare.drain(0), Ok(Drained { cycles: 0, work_left: true }));
    assert_eq!(bare.into_words(), ([0; 30], [ClusterRecord::from([2, 0, 0, 0, 0, 0])]));
}
