//! The check of a tree's store and its mending: the library beside the plain model, on sound stores, on spoilt ones and on garbage; and
//! the wrapper as its users use it.

use card_host::{calls, tree_words, Broken, Mended, Refusal, Tree};
use compare::desk::{Desk, Store, Tally};
use compare::queues::{self, MendAsk};
use models::mend::{put, why, Slot, Store as Slots, WORDS};
use models::rng::{seed, Rng};

const SHAPES: [(u32, u32); 8] = [(2, 1), (2, 2), (2, 3), (2, 6), (4, 1), (4, 3), (8, 2), (8, 3)];

/// Both on the same slices: the number, `out`, and every word of the second store, those behind the shape's too. The first stands.
/// Gives why the first broken slot is so, 0 where none is.
fn same(from: &[u32], to: &[u32], order: u32, levels: u32) -> u32 {
    let store = Store { state: to.to_vec().into(), ..Store::of((order, levels), from.to_vec()) };
    let (sound, mut tally) = (Desk::<queues::Mend>::new(store), Tally::of::<queues::Mend>());
    for len in [0, 1, 2, 4] {
        sound.clone().both(&mut tally, MendAsk::Check(len));
    }
    for len in [0, 1, 3] {
        let mut desk = sound.clone();
        let (number, out) = desk.both(&mut tally, MendAsk::Mend(len));
        assert_eq!(&desk.library.words[..], from);
        if number == 0 {
            mended(from, &desk.library.state, order, levels, out[0]);
        }
    }
    Slots::new(from, order, levels).and_then(|s| s.first_broken()).map_or(0, |(_, why)| why)
}

/// What the mender promises, beside the model: it passes, and has every element of the first, less the skipped.
fn mended(from: &[u32], to: &[u32], order: u32, levels: u32, skipped: u32) {
    let mut out = [7; 2];
    assert_eq!((calls::tree_check(to, order, levels, &mut out), out), (0, [1, 0]), "{from:?}");
    let elements = |words: &[u32]| {
        let held = Slots::new(words, order, levels).expect("a store").held();
        held.into_iter().map(|s| Slot { count: 1, ..s }).collect::<Vec<Slot>>()
    };
    let (mut before, mut after) = (elements(from), elements(to));
    let all = before.len();
    before.retain(|s| s.tag != 0);
    assert_eq!(all - before.len(), skipped as usize);
    before.sort_unstable();
    after.sort_unstable();
    assert_eq!(before, after);
}

fn words(order: u32, levels: u32) -> usize {
    tree_words(order, levels)
}

fn any(rng: &mut Rng) -> u32 {
    match rng.below(6) {
        0 => 0,
        1 => rng.below(3) as u32,
        2 => rng.below(40) as u32,
        3 => 1 << 31,
        4 => u32::MAX,
        _ => rng.below(1 << 32) as u32,
    }
}

/// A store with so many elements, some words behind the shape's.
fn sound(rng: &mut Rng, order: u32, levels: u32, held: u64) -> Vec<u32> {
    let mut store = vec![0; words(order, levels) + rng.below(3) as usize];
    for _ in 0..held {
        let tag = 1 + rng.below(1000) as u32;
        put(&mut store, order, levels, Slot { rank: rng.below(50) as u32, tag, length: any(rng), count: 1 });
    }
    store
}

#[test]
fn the_words_of_a_slot() {
    assert_eq!(words(2, 2), WORDS * 6);
}

#[test]
fn sound_stores_pass_and_come_back() {
    let mut rng = Rng::new(seed(), 1100);
    for (order, levels) in SHAPES {
        let capacity = (words(order, levels) / WORDS) as u64;
        for round in 0..40 {
            let held = if round == 0 { capacity } else { rng.below(capacity + 1) };
            let store = sound(&mut rng, order, levels, held);
            let to: Vec<u32> = (0..store.len()).map(|_| any(&mut rng)).collect();
            assert_eq!(same(&store, &to, order, levels), 0);
        }
    }
}

/// Sound stores with one word spoilt, or two or three, and stores of garbage: each part of the sentence is met alone.
#[test]
fn spoilt_stores() {
    let mut rng = Rng::new(seed(), 1101);
    let mut met = [0; 6];
    for round in 0..3000 {
        let (order, levels) = SHAPES[rng.below(SHAPES.len() as u64) as usize];
        let capacity = (words(order, levels) / WORDS) as u64;
        let held = rng.below(capacity + 1);
        let mut store = sound(&mut rng, order, levels, held);
        let spoilt = if round % 3 == 0 { 1 + rng.below(3) } else { 1 };
        for _ in 0..spoilt {
            let at = rng.below(words(order, levels) as u64) as usize;
            let old = store[at];
            store[at] = match rng.below(4) {
                0 => 0,
                1 => old.wrapping_add(1),
                2 => old.wrapping_sub(1),
                _ => any(&mut rng),
            };
        }
        let to: Vec<u32> = (0..store.len()).map(|_| any(&mut rng)).collect();
        let found = same(&store, &to, order, levels);
        if let Some(i) = why::ALL.iter().position(|bit| *bit == found) {
            met[i] += 1;
        }
    }
    assert!(met.iter().all(|n| *n > 0), "{met:?}");
}

#[test]
fn garbage() {
    let mut rng = Rng::new(seed(), 1102);
    for _ in 0..1500 {
        let (order, levels) = SHAPES[rng.below(SHAPES.len() as u64) as usize];
        let len = words(order, levels);
        let from: Vec<u32> = (0..len + rng.below(3) as usize).map(|_| any(&mut rng)).collect();
        let to: Vec<u32> = (0..len + rng.below(3) as usize).map(|_| any(&mut rng)).collect();
        same(&from, &to, order, levels);
    }
}

/// Every store of two levels of order 2 that can be put together from a few slots.
#[test]
fn small_stores() {
    let palette = [[0, 0, 0, 0], [5, 50, 1, 1], [4, 40, 1, 2], [5, 0, 1, 1], [0, 0, 7, 0]];
    let mut numbers = [0; 6];
    loop {
        let from: Vec<u32> = numbers.iter().flat_map(|n| palette[*n]).collect();
        same(&from, &[9; 26], 2, 2);
        match numbers.iter().position(|n| *n + 1 < palette.len()) {
            None => return,
            Some(i) => {
                numbers[..i].fill(0);
                numbers[i] += 1;
            }
        }
    }
}

/// Shapes that are none, slices that are too short: refusal 1 for either store, and nothing is written.
#[test]
fn bad_shapes() {
    let orders = [0, 1, 2, 3, 4, 5, 8, 16, u32::MAX];
    for order in orders {
        for levels in [0, 1, 2, 16, 17, 31, 32, 33, 64, u32::MAX] {
            for len in [0, 5, 7, 8, 23, 24, 25] {
                same(&vec![3; len], &[9; 24], order, levels);
                same(&[3; 24], &vec![9; len], order, levels);
            }
        }
    }
}

/// The request's own example: two counts of 2^31 under a count of 1.
#[test]
fn sums_do_not_wrap() {
    let half = 1 << 31;
    let mut store = vec![5, 50, 0, 1, 0, 0, 0, 0, 8, 80, 0, half, 9, 90, 0, half];
    store.extend([0; 8]);
    let mut out = [7; 2];
    assert_eq!((calls::tree_check(&store, 2, 2, &mut out), out), (0, [0, 0]));
    assert_eq!(same(&store, &[9; 24], 2, 2), why::COUNT);
}

#[test]
fn the_wrapper() {
    let mut store = vec![0; words(2, 2)];
    for (rank, tag) in [(5, 50), (3, 30), (8, 80), (1, 10)] {
        put(&mut store, 2, 2, Slot { rank, tag, length: 0, count: 1 });
    }
    let mut tree = Tree::from_words(2, 2, store);
    assert_eq!(tree.check(), Ok(()));
    let mut words = tree.into_words();
    // the rank of slot 4 is below that of the slot above it, and the tag of slot 2 is gone
    words[WORDS * 4] = 0;
    words[WORDS * 2 + 1] = 0;
    tree = Tree::from_words(2, 2, words);
    assert_eq!(tree.check(), Err(Broken::Slot(4)));
    assert_eq!(tree.check().unwrap_err().to_string(), "slot 4 is broken");
    let Mended { tree: again, skipped } = tree.mend(vec![9; 25]).unwrap();
    assert_eq!((skipped, again.check()), (1, Ok(())));
    let root = [0, 30, 0, 2, 1, 10, 0, 1, 5, 50, 0, 1];
    assert_eq!((&again.words()[..12], &again.words()[12..]), (&root[..], &[0, 0, 0, 0, 0, 0, 0, 0, 0, 0, 0, 0, 9][..]));
    assert_eq!(tree.mend(vec![9; 23]).map(|m| m.skipped), Err(Refusal::BadShape));
    assert_eq!(Tree::from_words(3, 2, [0; 24]).check(), Err(Broken::Refused(Refusal::BadShape)));
}
