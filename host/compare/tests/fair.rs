//! The library's fair ranks held to the plain model, call by call and word by word: histories from a reset, with the bound on what flows
//! of different weights are served; stores, states and numbers that no call has written; and the wrapper as its users use it.

use card_host::{calls, fair_words, tree_words, Element, Fair, FairQueue, Flow, Length, Rank, Refusal, Tag, Weight};
use compare::desk::{self, Store, Tally};
use compare::queues::{self, FairAsk as Ask};
use models::fair::{Ledger, FLOWS, HEAVIEST, LONGEST, STATE};
use models::rng::{seed, Rng};
use models::{element, tree};

const SHAPES: [(u32, u32); 7] = [(2, 1), (2, 2), (2, 5), (4, 1), (4, 3), (8, 2), (8, 3)];

/// A state and a store on both sides, and what was answered of them.
struct Desk {
    desk: desk::Desk<queues::Fair>,
    tally: Tally,
    /// How often a reset with a state of enough words was refused for the tree's shape.
    shapeless: u64,
}

impl Desk {
    fn new(order: u32, levels: u32, state: Vec<u32>, store: Vec<u32>) -> Desk {
        let store = Store { state: state.into(), ..Store::of((order, levels), store) };
        Desk { desk: desk::Desk::new(store), tally: Tally::of::<queues::Fair>(), shapeless: 0 }
    }

    /// A cleared store and a state that is reset, each with some words behind.
    fn fresh(order: u32, levels: u32) -> Desk {
        let mut desk = Desk::new(order, levels, vec![7; STATE + 2], vec![0; tree_words(order, levels) + 2]);
        assert_eq!(desk.both(Ask::Reset).0, 0);
        desk
    }

    /// One call on both sides. Gives the number and `out`.
    fn both(&mut self, ask: Ask) -> (u32, Vec<u32>) {
        let (number, out) = self.desk.both(&mut self.tally, ask);
        let reset = matches!(ask, Ask::Reset);
        self.shapeless += u64::from(reset && number == 1 && self.state().len() >= STATE);
        (number, out)
    }

    fn state(&self) -> &[u32] {
        &self.desk.library.state
    }
}

/// A length that is short, long, or any.
fn some_length(rng: &mut Rng) -> u32 {
    match rng.below(4) {
        0 => LONGEST,
        1 => 1 + rng.below(200) as u32,
        _ => 1 + rng.below(LONGEST as u64) as u32,
    }
}

/// Histories from a reset. In the first half of each the tags are all different, so that it is plain whose strip left; in the second there
/// are few, and any strip that fits is struck out: the bound holds for all.
#[test]
fn histories_keep_the_bound() {
    let mut rng = Rng::new(seed(), 1000);
    let (mut tally, mut looked, mut reached) = (Tally::of::<queues::Fair>(), 0, 0);
    for (order, levels) in SHAPES {
        for flows in [[0, 1, 2], [61, 62, 63]] {
            let mut desk = Desk::fresh(order, levels);
            let mut ledger = Ledger::default();
            let mut weights = [1, 2, 4];
            for n in 0..4000u32 {
                if rng.once_in(400) {
                    weights = [0; 3].map(|_| rng.pick(&[1, 1, 2, 3, 4, 7, 1000, HEAVIEST]));
                }
                ledger.before(&flows);
                let fill = if n / 300 % 2 == 0 { 6 } else { 4 };
                match rng.below(11) {
                    k if k < fill => {
                        let at = rng.below(3) as usize;
                        let (flow, weight, length) = (flows[at], weights[at], some_length(&mut rng));
                        let tag = match rng.below(40) {
                            0 => 0,
                            _ if n < 2000 => n + 1,
                            _ => 1 + rng.below(3) as u32,
                        };
                        let answer = desk.both(Ask::Push { flow, weight, tag, length }).0;
                        if answer == 0 {
                            ledger.pushed(flow, weight, element(desk.state()[1 + flow as usize], tag, length));
                        }
                    }
                    10 => {
                        let _ = desk.both(Ask::Reset);
                    }
                    9 => {
                        let held = ledger.waiting.len() as u32;
                        assert_eq!(desk.both(Ask::Held { out: 1 }), (0, vec![held]));
                    }
                    _ => {
                        let clock = desk.state()[0];
                        let (number, out) = desk.both(Ask::Pop { out: 3 });
                        if number == 0 {
                            assert!(out[0] >= clock, "the clock does not fall");
                            let gone = element(out[0], out[1], out[2]);
                            ledger.popped(gone, |fits| rng.below(fits as u64) as usize).unwrap();
                        }
                    }
                }
                assert!(ledger.waiting.iter().all(|s| s.element.rank >= desk.state()[0]), "no rank is below the clock");
            }
            looked += ledger.looked;
            reached += ledger.reached;
            tally.add(&desk.tally);
        }
    }
    tally.gave(&[&[0, 11], &[0, 5, 7], &[0, 6], &[0]]);
    assert!(looked > 10_000, "the bound was looked at {looked} times, and reached {reached} times");
}

/// What is at most one longest strip of each flow apart can be just so far apart: two flows of weight 1 with strips of 144 cells. The tags
/// say who leaves first where ranks are equal and stand in one node.
#[test]
fn the_bound_is_reached() {
    for (order, levels) in [(2, 2), (4, 2), (8, 1)] {
        let mut desk = Desk::fresh(order, levels);
        let mut ledger = Ledger::default();
        for (flow, tag) in [(0, 1), (0, 100), (1, 5), (9, 0), (1, 6), (1, 7), (9, 0), (9, 0)] {
            ledger.before(&[0, 1]);
            if tag == 0 {
                let (number, out) = desk.both(Ask::Pop { out: 3 });
                assert_eq!(number, 0);
                ledger.popped(element(out[0], out[1], out[2]), |_| 0).unwrap();
            } else {
                assert_eq!(desk.both(Ask::Push { flow, weight: 1, tag, length: LONGEST }).0, 0);
                ledger.pushed(flow, 1, element(desk.state()[1 + flow as usize], tag, LONGEST));
            }
        }
        assert_eq!((ledger.reached, ledger.waiting.len()), (1, 2), "order {order}");
    }
}

/// One flow of weight 1 with strips of 144 cells spends the clock with its 456th strip; others go on; after the last pop a reset helps.
#[test]
fn the_clock_is_spent() {
    let mut desk = Desk::fresh(4, 5);
    let long = Ask::Push { flow: 5, weight: 1, tag: 1, length: LONGEST };
    for _ in 0..455 {
        assert_eq!(desk.both(long).0, 0);
    }
    assert_eq!(desk.both(long).0, 10);
    // its last finish is 4,293,918,720: what is left is 1,048,575, and a finish may be the highest rank
    assert_eq!(desk.both(Ask::Push { flow: 5, weight: 1, tag: 1, length: 16 * 64 }).0, 10);
    assert_eq!(desk.both(Ask::Push { flow: 5, weight: 1, tag: 1, length: 15 * 64 }).0, 0);
    assert_eq!(desk.state()[6], 4_294_901_760);
    assert_eq!(desk.both(Ask::Push { flow: 5, weight: 2, tag: 1, length: 128 }).0, 10);
    assert_eq!(desk.both(Ask::Push { flow: 6, weight: 1, tag: 1, length: LONGEST }).0, 0);
    // 65,535 more: one cell of each of 1,024 / 64 steps, and so on to the top
    for weight in [2, 4, 8, 16, 32, 64, 128, 256, 512, 1024] {
        assert_eq!(desk.both(Ask::Push { flow: 5, weight, tag: 1, length: 1 }).0, 0);
    }
    assert_eq!(desk.state()[6], 4_294_967_232);
    assert_eq!(desk.both(Ask::Push { flow: 5, weight: 1024, tag: 1, length: 1 }).0, 10);
    assert_eq!(desk.both(Ask::Reset).0, 11);
    for _ in 0..467 {
        assert_eq!(desk.both(Ask::Pop { out: 3 }).0, 0);
    }
    assert_eq!((desk.both(Ask::Pop { out: 3 }), desk.state()[0]), ((6, vec![0; 3]), 4_294_967_232));
    assert_eq!(desk.both(Ask::Push { flow: 7, weight: 1, tag: 1, length: 64 }).0, 10);
    assert_eq!(desk.both(Ask::Reset).0, 0);
    assert_eq!(desk.both(long).0, 0);
    // the highest rank itself is a finish
    desk.both(Ask::Pop { out: 3 });
    desk.desk.change(|store| store.state[0] = u32::MAX - 64);
    assert_eq!(desk.both(Ask::Push { flow: 9, weight: 1024, tag: 1, length: 64 }).0, 0);
    assert_eq!(desk.state()[10], u32::MAX);
}

/// The worked case: strips of one cell and of three, of weights 1 and 2, and a flow that comes late.
#[test]
fn the_worked_case() {
    let mut queue = FairQueue::new(2, 2).unwrap();
    queue.push(Flow(0), Weight(1), Tag(50), Length(64)).unwrap();
    queue.push(Flow(1), Weight(2), Tag(30), Length(129)).unwrap();
    queue.push(Flow(0), Weight(1), Tag(51), Length(1)).unwrap();
    assert_eq!(queue.state()[..3], [0, 131_072, 98_304]);
    assert_eq!(queue.pop(), Ok(Element::new(Rank(65_536), Tag(50), Length(64))));
    // a flow with nothing waiting starts at the clock
    queue.push(Flow(63), Weight(1024), Tag(7), Length(65)).unwrap();
    assert_eq!((queue.clock(), queue.state()[64]), (Rank(65_536), 65_664));
    let tags: Vec<u32> = (0..3).map(|_| queue.pop().unwrap().tag.0).collect();
    assert_eq!((tags, queue.clock(), queue.pop()), (vec![7, 30, 51], Rank(131_072), Err(Refusal::Empty)));
    assert_eq!(queue.reset(), Ok(()));
    assert!(queue.state().iter().all(|w| *w == 0));
}

/// A number at the edge of a limit, or any.
fn edge(rng: &mut Rng, limit: u32) -> u32 {
    match rng.below(8) {
        0 => 0,
        1 => limit,
        2 => limit + 1,
        3 => rng.word(),
        4 => u32::MAX,
        5 => 1,
        _ => rng.below(limit as u64 + 1) as u32,
    }
}

/// Stores and states of garbage, sound ones with words spoilt, short slices, numbers at the edges: every word, and each refusal.
#[test]
fn hostile() {
    let mut rng = Rng::new(seed(), 1001);
    let (mut tally, mut shapeless) = (Tally::of::<queues::Fair>(), 0);
    for round in 0..6000 {
        let (mut order, mut levels) = rng.pick(&SHAPES);
        let words = tree_words(order, levels);
        let mut store = vec![0; words];
        for _ in 0..rng.below(words as u64 / 4 + 2) {
            let _ =
                tree::push(&mut store, order, levels, element(rng.below(90_000) as u32, 1 + rng.below(9) as u32, 64));
        }
        let mut state: Vec<u32> = (0..STATE).map(|_| rng.below(100_000) as u32).collect();
        for _ in 0..rng.below(4) {
            let at = rng.below(words as u64) as usize;
            store[at] = rng.pick(&[0, 1, 2, 3, 21, 5460, 1 << 31, u32::MAX]);
            let at = rng.below(STATE as u64) as usize;
            state[at] = rng.pick(&[0, 1, u32::MAX, u32::MAX - 64, u32::MAX - 65_536, 1 << 31]);
        }
        if round % 5 == 0 {
            store.iter_mut().for_each(|w| *w = rng.word() >> rng.below(32));
            state.iter_mut().for_each(|w| *w = rng.word() >> rng.below(32));
        }
        // slices that are short or long, shapes that are none
        match rng.below(12) {
            0 => store.truncate(rng.below(words as u64) as usize),
            1 => state.truncate(rng.below(STATE as u64) as usize),
            2 => state.extend([4; 3]),
            3 => store.extend([4; 3]),
            4 => order = rng.pick(&[0, 1, 3, 6, 16, u32::MAX]),
            5 => levels = rng.pick(&[0, 16, 31, 32, 33, 64, u32::MAX]),
            _ => {}
        }
        let mut desk = Desk::new(order, levels, state, store);
        for _ in 0..6 {
            let ask = match rng.below(9) {
                0 => Ask::Reset,
                1 => Ask::Held { out: rng.pick(&[0, 1, 1, 2]) },
                2..=4 => Ask::Pop { out: rng.pick(&[0, 2, 3, 3, 3, 4]) },
                _ => Ask::Push {
                    flow: edge(&mut rng, FLOWS - 1),
                    weight: edge(&mut rng, HEAVIEST),
                    tag: rng.below(3) as u32,
                    length: edge(&mut rng, LONGEST),
                },
            };
            desk.both(ask);
        }
        tally.add(&desk.tally);
        shapeless += desk.shapeless;
    }
    assert!(shapeless > 0, "no reset over a shape that is none");
    tally.gave(&[&[0, 1, 2, 11], &[0, 1, 2, 5, 7, 9, 10], &[0, 1, 2, 6], &[0, 1, 2]]);
}

/// Where several causes hold, the earlier test answers: 9, a short state's 1, 10, then the tree's own.
#[test]
fn the_order_of_refusals() {
    let push = |desk: &mut Desk, flow, tag| desk.both(Ask::Push { flow, weight: 1, tag, length: 64 }).0;
    let mut spent = vec![0; STATE];
    spent[0] = u32::MAX;
    // a bad strip before a short state and a shape that is none
    assert_eq!(push(&mut Desk::new(3, 9, vec![], vec![]), 64, 0), 9);
    // a short state before a spent clock
    assert_eq!(push(&mut Desk::new(2, 2, spent[..64].to_vec(), vec![0; 24]), 63, 1), 1);
    // a spent clock before a shape that is none, a damaged store, no tag and a full tree
    assert_eq!(push(&mut Desk::new(3, 9, spent.clone(), vec![]), 63, 1), 10);
    assert_eq!(push(&mut Desk::new(2, 2, spent.clone(), vec![7; 24]), 63, 0), 10);
    // then as the tree: shape, damage, no tag, full
    assert_eq!(push(&mut Desk::new(3, 9, vec![0; 65], vec![0; 24]), 63, 0), 1);
    assert_eq!(push(&mut Desk::new(2, 2, vec![0; 65], vec![7; 24]), 63, 0), 2);
    let full = vec![5, 50, 64, 1, 6, 60, 64, 1];
    assert_eq!(push(&mut Desk::new(2, 1, vec![0; 65], full.clone()), 63, 0), 7);
    assert_eq!(push(&mut Desk::new(2, 1, vec![0; 65], full.clone()), 63, 1), 5);
    // a reset: a short state, the tree's shape and damage, then whether anything is held
    assert_eq!(Desk::new(2, 1, spent[..64].to_vec(), full.clone()).both(Ask::Reset).0, 1);
    assert_eq!(Desk::new(3, 9, spent.clone(), vec![]).both(Ask::Reset).0, 1);
    assert_eq!(Desk::new(2, 1, spent.clone(), full[..7].to_vec()).both(Ask::Reset).0, 1);
    assert_eq!(Desk::new(2, 2, spent.clone(), vec![7; 24]).both(Ask::Reset).0, 2);
    assert_eq!(Desk::new(2, 1, spent, full).both(Ask::Reset).0, 11);
}

/// Every weight, at one cell and at the most: the step is 65,536 / weight rounded down.
#[test]
fn every_weight() {
    let mut desk = Desk::fresh(2, 1);
    for weight in 1..=HEAVIEST {
        for length in [1, LONGEST] {
            assert_eq!(desk.both(Ask::Push { flow: 3, weight, tag: 1, length }).0, 0);
            let finish = (length + 63) / 64 * (65_536 / weight);
            assert_eq!(desk.state()[4], finish);
            assert_eq!(desk.both(Ask::Pop { out: 3 }), (0, vec![finish, 1, length]));
            assert_eq!(desk.both(Ask::Reset).0, 0);
        }
    }
}

#[test]
fn sizes() {
    assert_eq!((calls::fair_words(), fair_words(), STATE), (STATE, STATE, 65));
}

#[test]
fn the_wrapper() {
    let mut queue = FairQueue::new(2, 3).unwrap();
    let (mut state, mut words) = ([9; 67], [9; tree_words(2, 3) + 1]);
    {
        let mut lent = Fair::cleared(2, 3, &mut state[..], &mut words[..]).unwrap();
        let mut rng = Rng::new(seed(), 1002);
        for n in 0..2000 {
            let (flow, weight) = (Flow(rng.below(66) as u32), Weight(1 + rng.below(4) as u32));
            let (tag, length) = (Tag(n % 50), Length(rng.below(9300) as u32));
            match rng.below(9) {
                0..=3 => assert_eq!(queue.push(flow, weight, tag, length), lent.push(flow, weight, tag, length)),
                4..=6 => assert_eq!(queue.pop(), lent.pop()),
                7 => assert_eq!(queue.reset(), lent.reset()),
                _ => {
                    let (state, words) = queue.into_words();
                    queue = FairQueue::from_words(2, 3, state, words);
                }
            }
            assert_eq!((queue.held(), queue.clock()), (lent.held(), lent.clock()));
            assert_eq!((queue.state(), queue.words()), (&lent.state()[..65], &lent.words()[..tree_words(2, 3)]));
        }
        lent.clear().unwrap();
        assert_eq!((lent.held(), lent.clock()), (Ok(0), Rank(0)));
        lent.push(Flow(63), Weight(1024), Tag(8), Length(65)).unwrap();
        assert_eq!(lent.reset(), Err(Refusal::NotEmpty));
        assert_eq!(lent.pop(), Ok(Element::new(Rank(128), Tag(8), Length(65))));
        assert_eq!(lent.clock(), Rank(128));
    }
    assert_eq!((&state[65..], words[tree_words(2, 3)]), (&[9, 9][..], 9));
    // what is too short is refused, and nothing is written
    let (mut short, mut store) = ([7; 64], [7; tree_words(2, 2)]);
    assert_eq!(Fair::cleared(2, 2, &mut short[..], &mut store[..]).map(|_| ()), Err(Refusal::BadShape));
    assert_eq!((short, store), ([7; 64], [7; tree_words(2, 2)]));
    assert_eq!(FairQueue::new(3, 2), Err(Refusal::BadShape));
    let names = [(9, "bad strip"), (10, "clock spent"), (11, "not empty")];
    for (number, name) in names {
        let refusal = Refusal::of(number).unwrap();
        assert_eq!((refusal.number(), refusal.name(), refusal.to_string()), (number, name, name.to_string()));
    }
}
