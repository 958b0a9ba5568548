//! Works any queue of elements, and any that goes by cycles: histories beside a plain list, hostile calls, shapes at their edges. A queue
//! says what it needs for that by `Driven`, and one that goes by cycles by `Machine`.

use crate::desk::{Desk, Lent, Store, Subject, Tally};
use crate::queues::{answered, Ask, Bucket, ClockedCluster, ClockedTree, Cluster, Tree};
use card_host::{
    bucket_bits, bucket_ranks, bucket_words, cluster_places, cluster_words, record_count, tree_slots, tree_words,
};
use models::list::SortedList;
use models::rng::{seed, Rng};
use models::{cluster_clock, element, Element};

/// The two numbers of a shape.
pub type Shape = (u32, u32);

/// A queue that is worked by itself. Its records have N numbers.
pub trait Driven<const N: usize>: Subject<Call = Ask, Store = Store<N>> {
    /// The shapes that are worked.
    const SHAPES: &'static [Shape];
    /// Whether the first in is the first out within a rank; else the order within a rank is the queue's own.
    const IN_TURN: bool = false;
    /// The numbers that each call can give, in histories from a cleared store and on any store.
    const SOUND: &'static [&'static [usize]];
    const ANY: &'static [&'static [usize]];

    /// How many elements there is room for; 0 for a bad shape.
    fn room(shape: Shape) -> usize;
    /// How many ranks there are.
    fn ranks(_: Shape) -> u64 {
        1 << 32
    }
    /// Whether the first in is the first out within a rank in this shape.
    fn in_turn(_: Shape) -> bool {
        Self::IN_TURN
    }
    /// The rank that a small number stands for: those that are used most.
    fn near(_: Shape, n: u32) -> u32 {
        n
    }
    /// Whether there is no room for a push, or for a replace once one has left, where these are held in the order of leaving.
    fn full(shape: Shape, held: &[Element], ask: Ask) -> bool {
        matches!(ask, Ask::Push(_)) && held.len() == Self::room(shape)
    }
    /// Slices of this shape, with so many words and records more than are needed, and no zero in them.
    fn blank(shape: Shape, more: usize) -> Store<N>;
    /// Spoils a word, or a record, that calls read.
    fn spoil(rng: &mut Rng, store: &mut Store<N>) {
        spoil(rng, &mut store.words, 40)
    }
}

/// A queue that goes by cycles.
pub trait Machine<const N: usize>: Driven<N> {
    /// Whether a pop or replace would be too soon.
    fn soon(_: &Store<N>) -> bool {
        false
    }
    /// All that is held in the middle of any work, where the model can say.
    fn in_flight(_: &Store<N>) -> Option<Vec<Element>> {
        None
    }
    /// Whether the words are those of a queue with nothing pending.
    fn at_rest(_: &Store<N>) -> bool {
        true
    }
}

/// Spoils a word: one of the first so many, more often, or any.
fn spoil(rng: &mut Rng, words: &mut Lent<u32>, near: usize) {
    if words.is_empty() {
        return;
    }
    let reach = if rng.once_in(3) { words.len() } else { words.len().min(near) };
    let at = rng.below(reach as u64) as usize;
    let old = words[at];
    let any = [0, 0, 1, 1, 2, 3, 9, 5460, 1 << 31, u32::MAX, old.wrapping_add(1), old.wrapping_sub(1)];
    words[at] = rng.pick(&any);
}

/// A shape that is none, or a slice that is a word too short.
fn misshape<const N: usize>(rng: &mut Rng, store: &mut Store<N>) {
    fn shorten<T: crate::desk::Guard>(slice: &mut Lent<T>) {
        slice.shorten(slice.len().min(1));
    }
    match rng.below(6) {
        0 => store.shape[0] = rng.pick(&[0, 1, 6, 17, 32, 1 << 31, u32::MAX]),
        1 => store.shape[1] = rng.pick(&[0, 31, 32, 33, 64, 65_537, 1 << 31, u32::MAX]),
        2 => shorten(&mut store.words),
        3 => shorten(&mut store.bits),
        4 => shorten(&mut store.state),
        _ => shorten(&mut store.records),
    }
}

/// The plain list beside a queue, and the limits of its answers.
struct Beside {
    list: SortedList,
    shape: Shape,
    full: fn(Shape, &[Element], Ask) -> bool,
    ranks: u64,
    in_turn: bool,
}

impl Beside {
    fn new<Q: Driven<N>, const N: usize>(shape: Shape) -> Beside {
        Beside { list: SortedList::new(), shape, full: Q::full, ranks: Q::ranks(shape), in_turn: Q::in_turn(shape) }
    }

    /// The number that an operation is to give.
    fn number(&self, ask: Ask) -> u32 {
        match ask {
            Ask::Push(x) | Ask::Replace(x, _) if x.rank as u64 >= self.ranks => 4,
            Ask::Push(x) | Ask::Replace(x, _) if x.tag == 0 => 7,
            Ask::Pop(_) | Ask::Replace(..) if self.list.held() == 0 => 6,
            _ if (self.full)(self.shape, self.list.elements(), ask) => 5,
            _ => 0,
        }
    }

    /// What an operation that was not refused answered, and what is held from then on.
    fn done(&mut self, ask: Ask, out: &[u32]) {
        if let Ask::Pop(_) | Ask::Replace(..) = ask {
            let x = answered(out);
            assert_eq!(Some(x.rank), self.list.lowest(), "the lowest rank, {ask:?}");
            if self.in_turn {
                assert_eq!(Some(x), self.list.pop(), "the first of its rank, {ask:?}");
            } else {
                assert!(self.list.take_out(x), "{x:?} is not held, {ask:?}");
            }
        }
        if let Ask::Push(x) | Ask::Replace(x, _) = ask {
            self.list.push(x);
        }
    }
}

/// An element of few ranks or many, of a tag that is seldom 0.
fn some_element(rng: &mut Rng, ranks: u64, n: u32) -> Element {
    let few = rng.pick(&[3, 12, ranks, ranks + ranks / 64]);
    element(rng.below(few) as u32, if rng.once_in(20) { 0 } else { n + 1 }, rng.word())
}

/// A request, in long stretches of mostly pushes and then of mostly pops.
fn some_request(rng: &mut Rng, n: u32) -> u32 {
    match rng.below(12) {
        0..=5 => 1 + (n / 150 % 2),
        6 | 7 => 3,
        8 => 1,
        9 => 2,
        10 => 0,
        _ => 4,
    }
}

/// A store that is cleared, on both sides.
fn fresh<Q: Driven<N>, const N: usize>(tally: &mut Tally, shape: Shape) -> Desk<Q> {
    let mut desk = Desk::new(Q::blank(shape, 2));
    assert_eq!(desk.both(tally, Ask::Clear).0, 0, "clear of {shape:?}");
    desk
}

/// Histories from cleared stores: every word beside the model, and every answer beside the plain list.
pub fn histories<Q: Driven<N>, const N: usize>(stream: u64, calls: u32) {
    let (mut rng, mut tally) = (Rng::new(seed(), stream), Tally::of::<Q>());
    for &shape in Q::SHAPES {
        let (mut desk, mut beside) = (fresh::<Q, N>(&mut tally, shape), Beside::new::<Q, N>(shape));
        for n in 0..calls {
            let x = some_element(&mut rng, beside.ranks, n);
            let ask = match some_request(&mut rng, n) {
                0 | 4 => Ask::Held(1),
                number => Ask::request(number, x),
            };
            let (number, out) = desk.both(&mut tally, ask);
            assert_eq!(number, beside.number(ask), "{ask:?}, {shape:?}");
            if number == 0 {
                beside.done(ask, &out);
            }
            if let Ask::Held(_) = ask {
                assert_eq!(out[0] as usize, beside.list.held());
            }
        }
        while beside.list.held() > 0 {
            let (number, out) = desk.both(&mut tally, Ask::Pop(3));
            assert_eq!(number, 0);
            beside.done(Ask::Pop(3), &out);
        }
    }
    tally.gave(Q::SOUND);
}

/// Histories of a machine from a cleared one: refusals and answers are those of the plain list, but where a request is too soon; held is
/// exact at every moment, nothing is lost in flight, and a drain of at most levels less one cycles leaves a queue at rest.
pub fn cycles<Q: Machine<N>, const N: usize>(stream: u64, calls: u32) {
    let (mut rng, mut tally) = (Rng::new(seed(), stream), Tally::of::<Q>());
    for &shape in Q::SHAPES {
        let (mut desk, mut beside) = (fresh::<Q, N>(&mut tally, shape), Beside::new::<Q, N>(shape));
        for n in 0..calls {
            let x = some_element(&mut rng, beside.ranks, n);
            let request = some_request(&mut rng, n);
            if request == 4 {
                let (number, out) = desk.both(&mut tally, Ask::Drain(rng.pick(&[0, 1, 2, 99]), 2));
                assert!(number == 0 && out[0] < shape.1.max(2), "a drain of {} cycles, {shape:?}", out[0]);
                assert!(out[1] == 1 || Q::at_rest(&desk.library), "the rules of a queue after a drain, {shape:?}");
                continue;
            }
            let (soon, ask) = (Q::soon(&desk.model) && request >= 2, Ask::request(request, x));
            let (number, out) = desk.both(&mut tally, Ask::Cycle(request, x, 3));
            let expected = match request {
                0 => 0,
                _ if soon => 3,
                _ => beside.number(ask),
            };
            assert_eq!(number, expected, "request {request}, {shape:?}");
            if number == 0 && request > 0 {
                beside.done(ask, &out);
            }
            if let Some(mut flying) = Q::in_flight(&desk.library) {
                let mut held = beside.list.elements().to_vec();
                held.sort_unstable();
                flying.sort_unstable();
                assert_eq!(flying, held, "nothing is lost in flight");
            }
            assert_eq!(desk.both(&mut tally, Ask::Held(1)), (0, vec![beside.list.held() as u32]));
        }
    }
    tally.gave(Q::SOUND);
}

/// Any operation, with any element and a long or a short `out`.
fn any_operation(rng: &mut Rng, ranks: u64) -> Ask {
    let x = any_element(rng, ranks);
    let out = rng.pick(&[0, 2, 3, 3, 3, 3, 3, 4]);
    match rng.below(16) {
        0 => Ask::Clear,
        1 => Ask::Held(rng.pick(&[0, 1, 1, 2])),
        2..=6 => Ask::Push(x),
        7..=11 => Ask::Pop(out),
        _ => Ask::Replace(x, out),
    }
}

/// Any call by cycles.
fn any_cycle(rng: &mut Rng, ranks: u64) -> Ask {
    let x = any_element(rng, ranks);
    match rng.below(16) {
        0 => Ask::Clear,
        1 | 2 => Ask::Drain(rng.pick(&[0, 1, 2, 9, u32::MAX]), rng.pick(&[0, 1, 2, 2, 2, 3])),
        3 => Ask::Held(rng.pick(&[0, 1, 1, 2])),
        n => {
            let request = if rng.once_in(40) { rng.pick(&[4, 9, u32::MAX]) } else { n as u32 % 4 };
            Ask::Cycle(request, x, rng.pick(&[0, 2, 3, 3, 3, 3, 3, 4]))
        }
    }
}

fn any_element(rng: &mut Rng, ranks: u64) -> Element {
    let rank = match rng.below(8) {
        0 => ranks.min(u32::MAX as u64) as u32,
        1 => rng.below(ranks) as u32,
        _ => rng.below(12) as u32,
    };
    element(rank, rng.below(5) as u32, rng.word())
}

/// How the calls of hostile histories are made: any call, and the one that asks for a request.
struct Asking {
    any: fn(&mut Rng, u64) -> Ask,
    request: fn(u32, Element) -> Ask,
}

/// Hostile calls: stores in use with words spoilt, stores of garbage, shapes that are none, slices that are too short.
fn any_store<Q: Driven<N>, const N: usize>(stream: u64, rounds: u32, asking: Asking) -> Tally {
    let (mut rng, mut tally) = (Rng::new(seed(), stream), Tally::of::<Q>());
    for _ in 0..rounds {
        let shape = rng.pick(Q::SHAPES);
        let mut store = Q::blank(shape, 0);
        let made = |store: &mut Store<N>, ask: Ask| {
            let _ = Q::model(&ask, store, &mut [0; 4][..Q::out(&ask)]);
        };
        made(&mut store, Ask::Clear);
        // more pushes than others, so that it is filled to any degree
        for n in 0..rng.below(2 * Q::room(shape).min(60) as u64 + 2) {
            let x = element(Q::near(shape, rng.below(12) as u32), 1 + n as u32, rng.below(99) as u32);
            made(&mut store, (asking.request)(rng.pick(&[1, 1, 1, 2, 3]), x));
        }
        for _ in 0..rng.pick(&[0, 1, 1, 1, 2, 3]) {
            Q::spoil(&mut rng, &mut store);
        }
        if rng.once_in(30) {
            store.words.iter_mut().for_each(|w| *w = rng.below(4) as u32);
        }
        if rng.once_in(15) {
            misshape(&mut rng, &mut store);
        }
        let mut desk = Desk::<Q>::new(store);
        for _ in 0..4 {
            let near = |rank: u32| if rank < 12 { Q::near(shape, rank) } else { rank };
            desk.both(&mut tally, (asking.any)(&mut rng, Q::ranks(shape)).ranked(near));
        }
    }
    tally.gave(Q::ANY);
    tally
}

/// Hostile calls of a queue of one operation at a time.
pub fn hostile<Q: Driven<N>, const N: usize>(stream: u64, rounds: u32) -> Tally {
    any_store::<Q, N>(stream, rounds, Asking { any: any_operation, request: Ask::request })
}

/// Hostile calls of a machine.
pub fn hostile_cycles<Q: Machine<N>, const N: usize>(stream: u64, rounds: u32) -> Tally {
    any_store::<Q, N>(stream, rounds, Asking { any: any_cycle, request: |number, x| Ask::Cycle(number, x, 3) })
}

/// Shapes at and beyond the last that are taken, on slices that are just long enough and a word too short: what is taken is what there is
/// room for.
pub fn edges<Q: Driven<N>, const N: usize>(others: &[Ask]) {
    let mut tally = Tally::of::<Q>();
    let far = [31, 32, 33, 64, 65_536, 65_537, 1 << 31, u32::MAX];
    for a in (0..20).chain(far) {
        for b in (0..17).chain(far) {
            let (room, shape) = (Q::room((a, b)), (a, b));
            if room > 70_000 {
                continue;
            }
            let desk = Desk::<Q>::new(Q::blank(shape, 0));
            assert_eq!(desk.clone().both(&mut tally, Ask::Clear).0, (room == 0) as u32, "{shape:?}");
            for short in [false, true] {
                let mut desk = desk.clone();
                if short && !desk.model.words.is_empty() {
                    desk.change(|store| store.words.shorten(1));
                    assert_eq!(desk.both(&mut tally, Ask::Clear).0, 1, "a word too few of {shape:?}");
                }
                for &ask in others {
                    desk.both(&mut tally, ask);
                }
            }
        }
    }
    assert!(tally.rows[0].numbers[0] > 0 && tally.rows[0].numbers[1] > 0);
}

/// So many words that no call has written.
fn words(need: usize, more: usize) -> Vec<u32> {
    vec![7; need + more]
}

const ANY_PUSH: &[usize] = &[0, 1, 2, 5, 7];
const ANY_POP: &[usize] = &[0, 1, 2, 6];
const ANY_REPLACE: &[usize] = &[0, 1, 2, 6, 7];
const ANY_HELD: &[usize] = &[0, 1, 2];

impl Driven<0> for Tree {
    const SHAPES: &'static [Shape] = &[(2, 1), (2, 2), (2, 4), (4, 1), (4, 3), (8, 2)];
    const SOUND: &'static [&'static [usize]] = &[&[0], &[0, 5, 7], &[0, 6], &[0, 6, 7], &[0]];
    const ANY: &'static [&'static [usize]] = &[&[0, 1], ANY_PUSH, ANY_POP, ANY_REPLACE, ANY_HELD];

    fn room((order, levels): Shape) -> usize {
        tree_slots(order, levels)
    }
    fn blank(shape: Shape, more: usize) -> Store {
        Store::of(shape, words(tree_words(shape.0, shape.1), more))
    }
}

impl Driven<0> for Cluster {
    const SHAPES: &'static [Shape] = &[(2, 1), (2, 2), (2, 4), (3, 3), (4, 3), (5, 2), (16, 2)];
    const SOUND: &'static [&'static [usize]] = Tree::SOUND;
    const ANY: &'static [&'static [usize]] = Tree::ANY;

    fn room((places, levels): Shape) -> usize {
        cluster_places(places, levels)
    }
    fn blank(shape: Shape, more: usize) -> Store {
        Store::of(shape, words(cluster_words(shape.0, shape.1), more))
    }
}

impl Driven<0> for Bucket {
    const SHAPES: &'static [Shape] = &[(2, 1), (2, 3), (2, 20), (2, 64)];
    const IN_TURN: bool = true;
    const SOUND: &'static [&'static [usize]] = &[&[0], &[0, 4, 5, 7], &[0, 6], &[0, 4, 6, 7], &[0]];
    const ANY: &'static [&'static [usize]] = &[&[0, 1], &[0, 1, 2, 4, 5, 7], ANY_POP, &[0, 1, 2, 4, 6, 7], ANY_HELD];

    fn room((storeys, nodes): Shape) -> usize {
        if bucket_words(storeys, nodes) == 0 {
            0
        } else {
            nodes as usize
        }
    }
    fn ranks((storeys, _): Shape) -> u64 {
        bucket_ranks(storeys) as u64
    }
    fn blank(shape: Shape, more: usize) -> Store {
        let bits = vec![7; bucket_bits(shape.0) + more];
        Store { bits: bits.into(), ..Store::of(shape, words(bucket_words(shape.0, shape.1), more)) }
    }
    fn spoil(rng: &mut Rng, store: &mut Store) {
        let ranks = bucket_ranks(store.shape[0]);
        // heads and tails of the ranks that are used most, then the nodes, the free link and how many are held
        let (rank, behind) = (rng.below(12) as usize, store.words.len() - 2 * ranks);
        let at = match rng.below(5) {
            0 => rank,
            1 => ranks + rank,
            2 => store.words.len() - 1 - rng.below(2) as usize,
            3 => 2 * ranks + rng.below(behind as u64) as usize,
            _ => {
                let word = rng.pick(&[0, 1]);
                store.bits[word] = rng.pick(&[0, store.bits[word] ^ 1 << rank, store.bits[word] ^ 1]);
                return;
            }
        };
        store.words[at] = rng.pick(&[0, 1, 2, store.shape[1], store.shape[1] + 1, u32::MAX]);
    }
}

/// Records of a machine, none of which a call has written.
fn records<const N: usize>(levels: u32, more: usize) -> Lent<[u32; N]> {
    vec![[9; N]; record_count(levels.min(20)) + more].into()
}

const SOUND_CYCLES: [&[usize]; 8] = [&[0], &[0], &[0, 5, 7], &[0, 6], &[0, 6, 7], &[], &[0], &[0]];

impl Driven<5> for ClockedTree {
    const SHAPES: &'static [Shape] = &[(2, 1), (2, 2), (2, 3), (2, 5), (4, 3), (8, 2)];
    const SOUND: &'static [&'static [usize]] = &[&[0], &[0], &[0, 5, 7], &[0, 3, 6], &[0, 3, 6, 7], &[], &[0], &[0]];
    const ANY: &'static [&'static [usize]] =
        &[&[0, 1], ANY_HELD, ANY_PUSH, &[0, 1, 2, 3, 6], &[0, 1, 2, 3, 6, 7], &[1], ANY_HELD, ANY_HELD];

    fn room(shape: Shape) -> usize {
        Tree::room(shape)
    }
    fn blank(shape: Shape, more: usize) -> Store<5> {
        let (state, records) = (words(1, more).into(), records(shape.1, more));
        Store { state, records, ..Store::of(shape, words(tree_words(shape.0, shape.1), more)) }
    }
    fn spoil(rng: &mut Rng, store: &mut Store<5>) {
        match rng.below(4) {
            0 if !store.records.is_empty() => {
                let (at, order) = (rng.below(store.records.len() as u64) as usize, store.shape[0]);
                let node = rng.pick(&[0, 0, 1, order - 1, order, u32::MAX]);
                store.records[at] = [rng.pick(&[0, 1, 2, 3, 3, 4]), node, rng.below(12) as u32, rng.word(), rng.word()];
            }
            1 if rng.once_in(4) => store.state[0] = rng.pick(&[0, 1, 2, u32::MAX]),
            _ => spoil(rng, &mut store.words, 40),
        }
    }
}

impl Machine<5> for ClockedTree {
    fn soon(store: &Store<5>) -> bool {
        store.state[0] == 1
    }
}

impl Driven<6> for ClockedCluster {
    const SHAPES: &'static [Shape] = &[(2, 1), (2, 2), (2, 3), (2, 6), (3, 3), (4, 3), (5, 2), (16, 2), (3, 1)];
    const SOUND: &'static [&'static [usize]] = &SOUND_CYCLES;
    const ANY: &'static [&'static [usize]] =
        &[&[0, 1], ANY_HELD, ANY_PUSH, ANY_POP, ANY_REPLACE, &[1], ANY_HELD, ANY_HELD];

    fn room(shape: Shape) -> usize {
        Cluster::room(shape)
    }
    fn blank(shape: Shape, more: usize) -> Store<6> {
        let records = records(shape.1, more);
        Store { records, ..Store::of(shape, words(cluster_words(shape.0, shape.1), more)) }
    }
    fn spoil(rng: &mut Rng, store: &mut Store<6>) {
        let places = store.shape[0];
        if store.records.is_empty() || rng.once_in(2) {
            return spoil(rng, &mut store.words, 8 * places as usize + 4);
        }
        let at = rng.below(store.records.len() as u64) as usize;
        let nodes = 1 << (at + 1);
        let node = rng.pick(&[0, 0, 1, nodes / 2 - 1, nodes / 2, nodes - 1, nodes, u32::MAX]);
        let place = rng.pick(&[0, 0, 1, places - 1, places, u32::MAX]);
        let kind =
            if rng.once_in(40) { rng.pick(&[4, 5, 1 << 31, u32::MAX]) } else { rng.pick(&[0, 1, 1, 2, 2, 3, 3]) };
        store.records[at] = [kind, node, place, rng.below(12) as u32, rng.word(), rng.word()];
    }
}

impl Machine<6> for ClockedCluster {
    fn in_flight(store: &Store<6>) -> Option<Vec<Element>> {
        let [places, levels, _] = store.shape;
        Some(cluster_clock::in_flight(&store.words, places, levels, &store.records))
    }
    fn at_rest(store: &Store<6>) -> bool {
        cluster_clock::at_rest(&store.words, store.shape[0], store.shape[1])
    }
}
