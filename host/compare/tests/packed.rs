//! The library's packed heaps held to the plain model, call by call and word by word: histories from a clearing, beside a plain list for
//! each heap; words and numbers that no call has written; every small store; and the wrapper as its users use it.

use card_host::{calls, packed_slots, packed_words, Element, Length, Packed, PackedQueue, Rank, Refusal, Replace, Tag};
use compare::desk::{self, Store, Tally};
use compare::queues::{self, answered, Ask};
use models::list::SortedList;
use models::packed::{self, cause, Shape};
use models::rng::{seed, Rng};
use models::{element, Causes};

/// A store of packed heaps on both sides.
type Desk = desk::Desk<queues::Packed>;

fn tally() -> Tally {
    Tally::of::<queues::Packed>()
}

fn desk(heaps: u32, levels: u32, words: Vec<u32>) -> Desk {
    Desk::new(Store::of((heaps, levels), words))
}

/// A store that is cleared, with some words behind.
fn fresh(heaps: u32, levels: u32) -> Desk {
    let mut desk = desk(heaps, levels, vec![7; packed_words(heaps, levels) + 2]);
    assert_eq!(desk.both(&mut tally(), (0, Ask::Clear)).0, 0, "clear of {heaps}, {levels}");
    desk
}

fn shape(heaps: u32, levels: u32) -> Shape {
    Shape::new(heaps, levels, usize::MAX).unwrap()
}

/// The words of one heap: its held word and its slots, by position.
fn own(heaps: u32, levels: u32, heap: u32) -> Vec<usize> {
    let shape = shape(heaps, levels);
    let slots = (1..=shape.capacity()).flat_map(|at| (0..3).map(move |word| shape.word(heap as u64, at) + word));
    [heap as usize].into_iter().chain(slots).collect()
}

fn taken(words: &[u32], at: &[usize]) -> Vec<u32> {
    at.iter().map(|&at| words[at]).collect()
}

/// A plain list for each heap, and the number that a call at one is to give.
struct Lists {
    room: usize,
    heaps: Vec<SortedList>,
}

impl Lists {
    fn new(heaps: u32, levels: u32) -> Lists {
        Lists { room: (1 << levels) - 1, heaps: vec![SortedList::new(); heaps as usize] }
    }

    fn number(&self, heap: u32, ask: Ask) -> u32 {
        let held = match self.heaps.get(heap as usize) {
            Some(list) => list.held(),
            None => return 12,
        };
        match ask {
            Ask::Push(x) | Ask::Replace(x, _) if x.tag == 0 => 7,
            Ask::Push(_) if held == self.room => 5,
            Ask::Pop(_) | Ask::Replace(..) if held == 0 => 6,
            _ => 0,
        }
    }

    /// What a call answered, and what the heap holds from then on.
    fn done(&mut self, heap: u32, ask: Ask, number: u32, out: &[u32]) {
        assert_eq!(number, self.number(heap, ask), "{ask:?} at heap {heap}");
        if number != 0 {
            return assert!(out.iter().all(|word| *word == 0), "a refusal's words");
        }
        let list = &mut self.heaps[heap as usize];
        if let Ask::Held(_) = ask {
            assert_eq!(out[0] as usize, list.held());
        }
        if let Ask::Pop(_) | Ask::Replace(..) = ask {
            let x = answered(out);
            assert_eq!(Some(x.rank), list.lowest(), "the lowest rank, {ask:?} at heap {heap}");
            assert!(list.take_out(x), "{x:?} is not held, {ask:?} at heap {heap}");
        }
        if let Ask::Push(x) | Ask::Replace(x, _) = ask {
            list.push(x);
        }
    }
}

/// Histories from a clearing: every heap beside its plain list, packed and in order after every call, and the others' words as they were.
fn history(rng: &mut Rng, heaps: u32, levels: u32, rounds: u32, tally: &mut Tally) {
    let (mut desk, mut lists) = (fresh(heaps, levels), Lists::new(heaps, levels));
    for n in 0..rounds {
        // few heaps, so that they fill, the last among them; seldom one that there is not
        let heap = match rng.below(12) {
            0 => rng.pick(&[heaps, heaps + 1, 256, 300, 1 << 31, u32::MAX]).max(heaps),
            1 | 2 => rng.below(heaps as u64) as u32,
            _ => rng.pick(&[0, heaps / 2, heaps - 1]),
        };
        let few = rng.pick(&[3, 12, 1 << 32]);
        let x = element(rng.below(few) as u32, if rng.once_in(20) { 0 } else { n + 1 }, rng.word());
        let ask = match rng.below(10) {
            0..=3 if n / 150 % 2 == 0 => Ask::Push(x),
            0..=3 => Ask::Pop(3),
            4 | 5 => Ask::Push(x),
            6 => Ask::Pop(3),
            7 | 8 => Ask::Replace(x, 3),
            _ => Ask::Held(1),
        };
        let before = desk.library.words.to_vec();
        let (number, out) = desk.both(tally, (heap, ask));
        lists.done(heap, ask, number, &out);
        let mut after = desk.library.words.to_vec();
        if heap < heaps {
            assert!(packed::packed(&after, heaps, levels, heap), "{ask:?} at heap {heap} of {heaps}, {levels}");
            for at in own(heaps, levels, heap) {
                after[at] = before[at];
            }
        }
        assert!(before == after, "{ask:?} at heap {heap} of {heaps}, {levels}: another heap's words");
    }
    for heap in 0..heaps {
        while lists.heaps[heap as usize].held() > 0 {
            let (number, out) = desk.both(tally, (heap, Ask::Pop(3)));
            lists.done(heap, Ask::Pop(3), number, &out);
        }
    }
    let need = packed_words(heaps, levels);
    assert!(desk.library.words[..need].iter().all(|word| *word == 0) && desk.library.words[need..] == [7, 7]);
}

#[test]
fn histories() {
    let (mut rng, mut tally) = (Rng::new(seed(), 2100), tally());
    for (heaps, levels) in [(1, 1), (1, 2), (1, 4), (2, 2), (2, 3), (3, 3), (5, 1), (7, 4), (1, 7)] {
        history(&mut rng, heaps, levels, 3000, &mut tally);
    }
    for (heaps, levels) in [(256, 2), (255, 4), (33, 5), (1, 10)] {
        history(&mut rng, heaps, levels, 600, &mut tally);
    }
    tally.gave(&[&[], &[0, 5, 7, 12], &[0, 6, 12], &[0, 6, 7, 12], &[0, 12]]);
}

/// Shapes with the most slots: filled to the brim by ranks in any order, full, worked there, and emptied by rising ranks.
#[test]
fn to_the_brim() {
    let (mut rng, mut tally) = (Rng::new(seed(), 2101), tally());
    for (heaps, levels) in [(1, 17), (3, 15), (256, 9)] {
        let mut desk = fresh(heaps, levels);
        let room = (1u32 << levels) - 1;
        let mut ranks: Vec<Vec<u32>> = vec![Vec::new(); heaps as usize];
        for n in 0..room * heaps {
            let (heap, x) = (n % heaps, element(rng.word(), n + 1, n));
            assert_eq!(desk.made(&mut tally, &(heap, Ask::Push(x)), false), Ok(0));
            ranks[heap as usize].push(x.rank);
        }
        for heap in [0, heaps - 1] {
            assert_eq!(desk.both(&mut tally, (heap, Ask::Push(element(5, 50, 500)))).0, 5);
            assert_eq!(desk.both(&mut tally, (heap, Ask::Held(1))), (0, vec![room]));
            assert!(packed::packed(&desk.library.words, heaps, levels, heap));
        }
        for heap in 0..heaps {
            let left = &mut ranks[heap as usize];
            left.sort_unstable();
            for n in 0..room {
                let ask = if n % 97 == 0 { Ask::Replace(element(u32::MAX, 1, n), 3) } else { Ask::Pop(3) };
                assert_eq!(desk.made(&mut tally, &(heap, ask), false), Ok(0));
                assert_eq!(desk.outs[0][0], left[n as usize], "{ask:?} at heap {heap}, {n} answered");
            }
        }
        // what the replaces took in
        assert_eq!(desk.both(&mut tally, (heaps - 1, Ask::Held(1))), (0, vec![(room + 96) / 97]));
        assert!((0..heaps).all(|heap| packed::packed(&desk.library.words, heaps, levels, heap)));
    }
}

/// Any operation, with any element and a long or a short `out`.
fn any_operation(rng: &mut Rng) -> Ask {
    let rank = if rng.once_in(3) { rng.pick(&[0, 5, 6, u32::MAX]) } else { rng.below(12) as u32 };
    let x = element(rank, if rng.once_in(12) { 0 } else { 7 }, rng.word());
    let out = rng.pick(&[0, 2, 3, 3, 3, 3, 3, 3, 4]);
    match rng.below(12) {
        0 => Ask::Held(rng.pick(&[0, 1, 1, 2])),
        1..=4 => Ask::Push(x),
        5..=8 => Ask::Pop(out),
        _ => Ask::Replace(x, out),
    }
}

/// A store in use, as a history of the model's calls leaves it.
fn used(rng: &mut Rng, heaps: u32, levels: u32) -> Vec<u32> {
    let mut words = vec![0; packed_words(heaps, levels)];
    let room = packed_slots(heaps, levels) as u64;
    for n in 0..rng.below(2 * room.min(40) + 2) {
        let heap = rng.below(heaps as u64) as u32;
        if rng.once_in(4) {
            let _ = packed::pop(&mut words, heaps, levels, heap);
        } else {
            let _ = packed::push(&mut words, heaps, levels, heap, element(rng.below(12) as u32, 1 + n as u32, 64));
        }
    }
    words
}

/// Spoils a word that calls at a heap read, which it gives: its held word, or a word of a slot at the top, at the end of a push's way, on
/// that way, under a position of it, or anywhere.
fn spoil(rng: &mut Rng, heaps: u32, levels: u32, words: &mut [u32]) -> u32 {
    let (shape, heap) = (shape(heaps, levels), rng.below(heaps as u64));
    let (held, room) = (words[heap as usize], shape.capacity());
    let last = (held as u64).clamp(1, room);
    let next = (last + 1).min(room);
    if rng.once_in(5) {
        let room = room as u32;
        let any = [0, 1, room, room + 1, room + 1, held.wrapping_add(1), held.wrapping_sub(1), u32::MAX];
        words[heap as usize] = rng.pick(&any);
        return heap as u32;
    }
    let way: Vec<u64> = packed::way(rng.pick(&[last, next])).collect();
    let under = 2 * rng.pick(&way) + rng.below(2);
    let at = match rng.below(6) {
        0 => 1,
        1 => rng.pick(&[last, next]),
        2 => rng.pick(&way),
        3 | 4 => under.min(room),
        _ => 1 + rng.below(room),
    };
    let word = shape.word(heap, at) + rng.pick(&[0, 1, 1, 1, 2]) as usize;
    words[word] = match rng.below(4) {
        0 => rng.word(),
        1 => rng.below(9) as u32,
        _ => 0,
    };
    heap as u32
}

/// The clauses that make each call but clear damaged.
fn clauses() -> [Causes; 4] {
    let every = cause::HELD | cause::TOP_NONE | cause::words(cause::TOP_SOME);
    let push = cause::WAY_NONE | cause::words(cause::END_SOME);
    let held = cause::LEFT_NONE | cause::RIGHT_NONE;
    let sink = held | cause::words(cause::LEFT_SOME) | cause::words(cause::RIGHT_SOME);
    [every | push, every | cause::LAST_NONE | sink, every | sink, every]
}

/// Stores with words spoilt where calls read, and stores of garbage; shapes that are none, slices that are too short, heaps that there
/// are not. Each clause of "damaged" makes each call damaged by itself.
#[test]
fn hostile() {
    let (mut rng, mut tally) = (Rng::new(seed(), 2102), tally());
    for round in 0..60_000 {
        let (heaps, levels) = rng.pick(&[(1, 1), (1, 2), (1, 3), (1, 4), (2, 2), (2, 3), (3, 2), (5, 3), (2, 5)]);
        let mut words = used(&mut rng, heaps, levels);
        let mut heap = spoil(&mut rng, heaps, levels, &mut words);
        for _ in 0..rng.pick(&[0, 0, 0, 1, 2]) {
            heap = spoil(&mut rng, heaps, levels, &mut words);
        }
        if round % 40 == 0 {
            let most = rng.pick(&[3, 9, 1 << 32]);
            words.iter_mut().for_each(|word| *word = rng.below(most) as u32);
        }
        let mut desk = desk(heaps, levels, words);
        let (kind, by) = (rng.below(60), 1 + rng.below(desk.library.words.len() as u64) as usize);
        let wrong =
            [rng.pick(&[0, 257, 1 << 16, 1 << 31, u32::MAX]), rng.pick(&[0, 18, 31, 32, 33, 64, 1 << 31, u32::MAX])];
        desk.change(|store| match kind {
            0 => store.words.shorten(by),
            1 | 2 => store.shape[kind as usize - 1] = wrong[kind as usize - 1],
            // other numbers of heaps or levels than the store was cleared for
            3 if heaps > 1 => store.shape[0] -= 1,
            4 if levels > 1 => store.shape[1] -= 1,
            5 => store.shape = [levels, heaps, 0],
            _ => {}
        });
        for _ in 0..4 {
            let call = match rng.below(60) {
                0 => (heap, Ask::Clear),
                1..=3 => (rng.pick(&[heaps, 256, 257, 1 << 31, u32::MAX]), any_operation(&mut rng)),
                4..=9 => (rng.below(heaps as u64) as u32, any_operation(&mut rng)),
                _ => (heap, any_operation(&mut rng)),
            };
            desk.both(&mut tally, call);
        }
    }
    tally.gave(&[&[0, 1], &[0, 1, 2, 5, 7, 12], &[0, 1, 2, 6, 12], &[0, 1, 2, 6, 7, 12], &[0, 1, 2, 12]]);
    for (row, can) in tally.rows[1..].iter().zip(clauses()) {
        let missed = can & !row.clauses_alone();
        let names: Vec<&str> = (0..18).filter(|bit| missed >> bit & 1 == 1).map(|bit| cause::NAMES[bit]).collect();
        assert!(missed == 0, "{} was never damaged by these alone: {names:?}", row.name);
        assert_eq!(row.clauses() & !can, 0, "{}", row.name);
    }
}

/// From any store: what a heap is answered, and the words that it is left with, are what they would be if the other heaps' words were
/// others and no call came to them.
#[test]
fn a_heap_is_apart() {
    let (mut rng, mut tally) = (Rng::new(seed(), 2103), tally());
    for round in 0..1500 {
        let (heaps, levels) = rng.pick(&[(2, 1), (2, 3), (3, 2), (3, 4), (16, 2)]);
        let mine = rng.below(heaps as u64) as u32;
        let own = own(heaps, levels, mine);
        let mut words = used(&mut rng, heaps, levels);
        for _ in 0..round % 3 {
            spoil(&mut rng, heaps, levels, &mut words);
        }
        let mut others: Vec<u32> = words.iter().map(|_| rng.below(6) as u32).collect();
        own.iter().for_each(|&at| others[at] = words[at]);
        let (mut among, mut alone) = (desk(heaps, levels, words), desk(heaps, levels, others));
        for _ in 0..30 {
            let before = taken(&among.library.words, &own);
            for _ in 0..rng.below(4) {
                let other = (mine + 1 + rng.below(heaps as u64 - 1) as u32) % heaps;
                among.both(&mut tally, (other, any_operation(&mut rng)));
            }
            assert_eq!(taken(&among.library.words, &own), before, "calls at other heaps");
            let ask = any_operation(&mut rng);
            assert_eq!(among.both(&mut tally, (mine, ask)), alone.both(&mut tally, (mine, ask)), "{ask:?}");
            assert_eq!(taken(&among.library.words, &own), taken(&alone.library.words, &own), "{ask:?}");
        }
    }
    assert!(tally.rows[1..].iter().all(|row| row.numbers[0] > 0 && row.numbers[2] > 0));
}

/// Every store that can be put together from these slots, under every held word: every call on each.
fn small(heaps: u32, levels: u32, slots: &[[u32; 3]], tally: &mut Tally) {
    let (shape, count) = (shape(heaps, levels), packed_slots(heaps, levels) as u32);
    let asks = [
        Ask::Push(element(0, 9, 90)),
        Ask::Push(element(2, 9, 90)),
        Ask::Push(element(2, 0, 90)),
        Ask::Pop(3),
        Ask::Replace(element(0, 9, 90), 3),
        Ask::Replace(element(2, 9, 90), 3),
        Ask::Replace(element(9, 9, 90), 3),
        Ask::Held(1),
    ];
    for number in 0..slots.len().pow(count) {
        let mut words = vec![0; shape.words()];
        for at in 0..count {
            let slot = slots[number / slots.len().pow(at) % slots.len()];
            let from = (heaps + 3 * at) as usize;
            words[from..from + 3].copy_from_slice(&slot);
        }
        for held in (0..=shape.capacity() as u32 + 1).chain([u32::MAX]) {
            words[..heaps as usize].fill(held);
            let sound = desk(heaps, levels, words.clone());
            for ask in asks {
                sound.clone().both(tally, (number as u32 % heaps, ask));
            }
        }
    }
}

#[test]
fn small_stores() {
    let mut tally = tally();
    let (none, one, two) = ([0, 0, 0], [1, 10, 100], [2, 20, 200]);
    let broken = [[3, 0, 0], [0, 0, 300], [0, 1, 0], [3, 0, 300]];
    let many = [none, one, two, [5, 50, 500], [2, 21, 0], broken[0], broken[1], broken[2], broken[3]];
    small(1, 1, &many, &mut tally);
    small(1, 2, &many, &mut tally);
    small(2, 1, &many, &mut tally);
    small(2, 2, &[none, one, two, broken[1]], &mut tally);
    small(1, 3, &[none, one, two], &mut tally);
    // every clause was met here too
    for (row, can) in tally.rows[1..].iter().zip(clauses()) {
        assert_eq!(can & !row.clauses(), 0, "{}", row.name);
    }
}

/// The most levels that so many heaps can have.
fn most(heaps: u32) -> u32 {
    (1..=17).rev().find(|levels| heaps as u64 * ((1 << levels) - 1) <= 131_071).unwrap()
}

/// Heaps, levels and lengths at and beyond the last that are taken: the sizes are the library's, and what is refused changes nothing.
#[test]
fn shapes_at_their_edges() {
    let far = [300, 65_536, 1 << 24, 1 << 31, u32::MAX];
    for heaps in (0..=258).chain(far) {
        for levels in (0..=20).chain([31, 32, 33, 63, 64, 1 << 31, u32::MAX]) {
            let model = Shape::new(heaps, levels, usize::MAX).map_or(0, |shape| shape.words());
            let words = (calls::packed_words(heaps, levels) as usize, packed_words(heaps, levels));
            assert_eq!(words, (model, model), "{heaps}, {levels}");
        }
    }
    assert_eq!([1, 2, 3, 4, 5, 8, 16, 32, 64, 128, 256].map(most), [17, 16, 15, 15, 14, 14, 13, 12, 11, 10, 9]);
    let x = element(5, 50, 500);
    let others = [Ask::Push(x), Ask::Pop(3), Ask::Replace(x, 3), Ask::Held(1)];
    let mut tally = tally();
    for heaps in [1, 2, 3, 4, 5, 8, 9, 16, 17, 32, 33, 64, 65, 128, 129, 255, 256] {
        let (levels, last) = (most(heaps), heaps - 1);
        let mut just = desk(heaps, levels, vec![7; packed_words(heaps, levels)]);
        assert_eq!(just.both(&mut tally, (0, Ask::Clear)).0, 0, "{heaps}, {levels}");
        for (ask, number) in others.into_iter().zip([0, 0, 6, 0]) {
            assert_eq!(just.both(&mut tally, (last, ask)).0, number, "{heaps}, {levels}");
            assert_eq!(just.both(&mut tally, (heaps, ask)).0, 12, "{heaps}, {levels}");
        }
        let mut short = just.clone();
        short.change(|store| store.words.shorten(1));
        let mut deep = desk(heaps, levels + 1, vec![0; 2 * just.library.words.len() + 2 * heaps as usize]);
        for ask in others.into_iter().chain([Ask::Clear]) {
            assert_eq!(short.both(&mut tally, (last, ask)).0, 1, "a word too few of {heaps}, {levels}");
            assert_eq!(deep.both(&mut tally, (last, ask)).0, 1, "a level more than {heaps}, {levels}");
        }
    }
    for (heaps, levels) in
        [(0, 1), (257, 1), (257, 0), (1, 0), (1, 18), (1, 1 << 31), (1 << 31, 1), (u32::MAX, u32::MAX)]
    {
        let mut none = desk(heaps, levels, vec![0; 2000]);
        for ask in others.into_iter().chain([Ask::Clear]) {
            assert_eq!(none.both(&mut tally, (0, ask)).0, 1, "{heaps}, {levels}");
        }
    }
}

/// Where several causes hold, the earlier test answers: 1, 12, 2, 7, then 5 or 6. Behind 7, 5 and 6 nothing more is tested.
#[test]
fn the_order_of_refusals() {
    let mut tally = tally();
    let mut ask = |desk: &Desk, heap, ask| desk.clone().both(&mut tally, (heap, ask)).0;
    let (bare, x) = (element(5, 0, 500), element(5, 50, 500));
    let sound = fresh(2, 2);
    let mut damaged = sound.clone();
    damaged.change(|store| store.words[0] = 4);
    let mut none = damaged.clone();
    none.change(|store| store.shape[1] = 18);
    for other in [Ask::Push(bare), Ask::Replace(bare, 3), Ask::Pop(3), Ask::Held(1)] {
        assert_eq!(ask(&none, 2, other), 1);
        assert_eq!(ask(&damaged, 2, other), 12);
        assert_eq!(ask(&damaged, 0, other), 2);
    }
    assert_eq!(ask(&sound, 2, Ask::Pop(2)), 1);
    assert_eq!(
        [Ask::Push(bare), Ask::Replace(bare, 3), Ask::Replace(x, 3), Ask::Pop(3)].map(|a| ask(&sound, 1, a)),
        [7, 7, 6, 6]
    );
    // the slot that a push would come to is not empty: 7 is answered before that is looked at
    let mut beyond = sound.clone();
    beyond.change(|store| store.words[..11].copy_from_slice(&[1, 0, 5, 50, 500, 0, 0, 0, 9, 90, 900]));
    assert_eq!([Ask::Push(x), Ask::Push(bare), Ask::Pop(3), Ask::Held(1)].map(|a| ask(&beyond, 0, a)), [2, 7, 0, 0]);
    assert_eq!([Ask::Replace(x, 3), Ask::Replace(bare, 3)].map(|a| ask(&beyond, 0, a)), [2, 7]);
    // a full heap with a damaged slot is full
    let mut full = sound.clone();
    full.change(|store| store.words[..14].copy_from_slice(&[3, 0, 5, 50, 500, 0, 0, 0, 0, 0, 0, 0, 0, 0]));
    assert_eq!([Ask::Push(x), Ask::Push(bare), Ask::Pop(3), Ask::Held(1)].map(|a| ask(&full, 0, a)), [5, 7, 2, 0]);
}

fn strip(rank: u32) -> Element {
    Element::new(Rank(rank), Tag(10 * rank), Length(100 * rank))
}

/// The rules' own store, and what its first case says of it.
#[test]
fn the_worked_store() {
    let mut heaps = PackedQueue::new(2, 2).unwrap();
    for (heap, rank) in [(0, 5), (0, 3), (0, 9), (1, 8), (1, 1)] {
        heaps.heap(heap).push(strip(rank)).unwrap();
    }
    let first = [3, 2, 3, 30, 300, 1, 10, 100, 5, 50, 500, 9, 90, 900, 8, 80, 800, 0, 0, 0];
    assert_eq!(heaps.words(), first);
    assert_eq!(heaps.heap(0).push(strip(4)), Err(Refusal::Full));
    assert_eq!([3, 5, 9].map(|rank| heaps.heap(0).pop() == Ok(strip(rank))), [true; 3]);
    assert_eq!(heaps.heap(0).pop(), Err(Refusal::Empty));
    assert_eq!(heaps.words(), [0, 2, 0, 0, 0, 1, 10, 100, 0, 0, 0, 0, 0, 0, 8, 80, 800, 0, 0, 0]);
    assert_eq!(heaps.heap(1).replace(Element::new(Rank(0), Tag(7), Length(70))), Ok(strip(1)));
    assert_eq!(heaps.words(), [0, 2, 0, 0, 0, 0, 7, 70, 0, 0, 0, 0, 0, 0, 8, 80, 800, 0, 0, 0]);
    assert_eq!((heaps.held(0), heaps.held(1), heaps.held(2)), (Ok(0), Ok(2), Err(Refusal::NoHeap)));
}

/// Of equal ranks none moves past another: the new one stands below, the last entry stays where its children are as low, and of two
/// children the left one rises.
#[test]
fn equal_ranks() {
    let mut heap = PackedQueue::new(1, 3).unwrap();
    let x = |tag| Element::new(Rank(4), Tag(tag), Length(tag));
    for tag in 1..=6 {
        heap.heap(0).push(x(tag)).unwrap();
    }
    let tags = |heap: &PackedQueue| heap.words()[1..].chunks(3).map(|slot| slot[1]).collect::<Vec<_>>();
    assert_eq!(tags(&heap), [1, 2, 3, 4, 5, 6, 0]);
    assert_eq!(heap.heap(0).pop(), Ok(x(1)));
    assert_eq!(tags(&heap), [6, 2, 3, 4, 5, 0, 0]);
    assert_eq!(heap.heap(0).replace(Element::new(Rank(5), Tag(9), Length(9))), Ok(x(6)));
    assert_eq!(tags(&heap), [2, 4, 3, 9, 5, 0, 0]);
}

/// A queue by the traits alone.
fn lowest(queue: &mut impl Replace) -> Result<(usize, u32, Rank), Refusal> {
    for rank in [5, 3, 8] {
        queue.push(strip(rank))?;
    }
    queue.replace(strip(7))?;
    Ok((queue.capacity(), queue.held()?, queue.pop()?.rank))
}

#[test]
fn the_wrapper() {
    let mut words = vec![9; packed_words(3, 3) + 1];
    let mut owned = PackedQueue::new(3, 3).unwrap();
    {
        let mut lent = Packed::cleared(3, 3, &mut words[..]).unwrap();
        let mut rng = Rng::new(seed(), 2104);
        for n in 0..3000 {
            let x = Element::new(Rank(rng.below(20) as u32), Tag(n % 40), Length(rng.word()));
            let number = rng.below(4) as u32;
            let (mut a, mut b) = (owned.heap(number), lent.heap(number));
            match rng.below(5) {
                0 | 1 => assert_eq!(a.push(x), b.push(x)),
                2 => assert_eq!(a.pop(), b.pop()),
                3 => assert_eq!(a.replace(x), b.replace(x)),
                _ => assert_eq!(a.held(), b.held()),
            }
            assert_eq!(owned.held(number), lent.held(number));
            if n % 500 == 0 {
                owned = PackedQueue::from_words(3, 3, owned.into_words());
            }
        }
        assert_eq!(owned.words(), &lent.words()[..packed_words(3, 3)]);
        lent.clear().unwrap();
        assert_eq!((0..3).map(|heap| lent.held(heap)).collect::<Vec<_>>(), [Ok(0); 3]);
        assert_eq!(lowest(&mut lent.heap(2)), Ok((7, 3, Rank(5))));
        assert_eq!(lowest(&mut lent.heap(3)), Err(Refusal::NoHeap));
        assert_eq!((lent.heaps(), lent.levels(), lent.capacity(), lent.heap(3).capacity()), (3, 3, 21, 0));
    }
    assert_eq!(words[packed_words(3, 3)], 9);
    for (heaps, levels) in [(0, 1), (257, 1), (1, 0), (1, 18), (3, 16), (u32::MAX, u32::MAX)] {
        assert_eq!(PackedQueue::new(heaps, levels), Err(Refusal::BadShape));
    }
    assert_eq!(Packed::cleared(2, 2, [9; 19]), Err(Refusal::BadShape));
    assert_eq!((Refusal::of(12), Refusal::NoHeap.name()), (Some(Refusal::NoHeap), "no such heap"));
}
