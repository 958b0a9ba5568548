//! Lines at the desk, one at a time and by cycles. The kind is a part of the queue's type; a store's shape is the lines, the places and the kind.

use crate::desk::{as_structs, Store, Subject};
use crate::drive::{Driven, Machine, Shape};
use crate::queues::{cycle_kind, Ask, Tree, CYCLES};
use card_host::{calls, lines_room, lines_words, Record};
use models::boundary::{counted, told};
use models::lines::RANKS;
use models::rng::Rng;
use models::{lines, lines_clock, Element, No};

/// Lines of a kind.
pub struct Lines<const KIND: u32>;

impl<const KIND: u32> Subject for Lines<KIND> {
    type Store = Store;
    type Call = Ask;
    const CALLS: &'static [&'static str] = Tree::CALLS;

    fn kind(ask: &Ask) -> usize {
        Tree::kind(ask)
    }

    fn out(ask: &Ask) -> usize {
        Tree::out(ask)
    }

    fn library(ask: &Ask, store: &mut Store, out: &mut [u32]) -> u32 {
        let ([l, p, k], Store { words, .. }) = (store.shape, store);
        match *ask {
            Ask::Clear => calls::lines_clear(words, k, l, p),
            Ask::Push(x) => calls::lines_push(words, k, l, p, x.rank, x.tag, x.length),
            Ask::Pop(_) => calls::lines_pop(words, k, l, p, out),
            Ask::Replace(x, _) => calls::lines_replace(words, k, l, p, x.rank, x.tag, x.length, out),
            _ => calls::lines_held(words, k, l, p, out),
        }
    }

    fn model(ask: &Ask, store: &mut Store, out: &mut [u32]) -> Result<(), No> {
        let ([l, p, k], Store { words, .. }) = (store.shape, store);
        match *ask {
            Ask::Clear => lines::clear(words, k, l, p),
            Ask::Push(x) => lines::push(words, k, l, p, x),
            Ask::Pop(_) => told(out, || lines::pop(words, k, l, p)),
            Ask::Replace(x, _) => told(out, || lines::replace(words, k, l, p, x)),
            _ => counted(out, || lines::held(words, k, l, p)),
        }
    }
}

/// Lines of a kind, by cycles.
pub struct ClockedLines<const KIND: u32>;

impl<const KIND: u32> Subject for ClockedLines<KIND> {
    type Store = Store<5>;
    type Call = Ask;
    const CALLS: &'static [&'static str] = CYCLES;

    fn kind(ask: &Ask) -> usize {
        cycle_kind(ask)
    }

    fn out(ask: &Ask) -> usize {
        Tree::out(ask)
    }

    fn library(ask: &Ask, store: &mut Store<5>, out: &mut [u32]) -> u32 {
        let ([l, p, k], Store { words, records, .. }) = (store.shape, store);
        as_structs(records, |record: &mut [Record]| match *ask {
            Ask::Clear => calls::lines_clock_clear(words, k, l, p, record),
            Ask::Cycle(r, x, _) => calls::lines_clock_cycle(words, k, l, p, record, r, x.rank, x.tag, x.length, out),
            Ask::Drain(budget, _) => calls::lines_clock_drain(words, k, l, p, record, budget, out),
            _ => calls::lines_clock_held(words, k, l, p, out),
        })
    }

    fn model(ask: &Ask, store: &mut Store<5>, out: &mut [u32]) -> Result<(), No> {
        let ([l, p, k], Store { words, records, .. }) = (store.shape, store);
        match *ask {
            Ask::Clear => lines_clock::clear(words, k, l, p, records),
            Ask::Cycle(r, x, _) => lines_clock::cycled(words, k, l, p, records, r, x, out),
            Ask::Drain(budget, _) => lines_clock::drain(words, k, l, p, records, budget, out),
            _ => counted(out, || lines::held(words, k, l, p)),
        }
    }
}

const DAMAGED: &[usize] = &[0, 1, 2];

const SHAPES: &[Shape] = &[(1, 1), (1, 5), (2, 3), (4, 4), (8, 1), (16, 2)];

fn ranks(kind: u32) -> u64 {
    match kind {
        1 => RANKS as u64,
        _ => 1 << 32,
    }
}

/// Of kind 1 small numbers stand for ranks of all lines.
fn near(kind: u32, lines: u32, n: u32) -> u32 {
    match kind {
        1 if lines > 0 && lines <= RANKS => n % lines * (RANKS / lines) + n / lines,
        _ => n,
    }
}

/// Kind 1: as many as a line has places are of the line of x's rank, after the pop of a replace. Kind 2: a push with all places in use.
fn full(kind: u32, (lines, places): Shape, held: &[Element], ask: Ask) -> bool {
    let line = |rank: u32| rank / (RANKS / lines);
    let (x, left) = match ask {
        Ask::Push(x) => (x, held),
        Ask::Replace(x, _) if kind == 1 => (x, &held[1..]),
        _ => return false,
    };
    match kind {
        1 => left.iter().filter(|e| line(e.rank) == line(x.rank)).count() == places as usize,
        _ => held.len() == (lines * places) as usize,
    }
}

/// Lines with no zero in them.
fn blank<const N: usize>(kind: u32, shape: Shape, more: usize) -> Store<N> {
    let mut store = Store::of(shape, vec![7; lines_words(kind, shape.0, shape.1) + more]);
    store.shape[2] = kind;
    store
}

/// Spoils a count, or a word of a place; near the front of a line, or around its end, more often. Now and then the kind is none, or
/// 2 where it was 1.
fn spoil<const N: usize>(rng: &mut Rng, store: &mut Store<N>) {
    let [lines, places, kind] = store.shape;
    if store.words.is_empty() {
        return;
    }
    let line = rng.below(lines as u64) as usize;
    let count = (store.words[line] as usize).min(places as usize - 1);
    let any = rng.below(places as u64) as usize;
    let place = rng.pick(&[0, count.saturating_sub(1), count, count, any]);
    let at = lines as usize + 3 * (line * places as usize + place);
    let old = store.words[at];
    match rng.below(8) {
        0 => store.words[line] = rng.pick(&[0, places - 1, places, places, places + 1, u32::MAX]),
        1 => store.words[at + 1] = rng.pick(&[0, 1, u32::MAX]),
        2 => store.words[at + 2] = rng.pick(&[0, 1, u32::MAX]),
        3 if rng.once_in(3) => store.shape[2] = rng.pick(&[kind, 2, 0, 3, u32::MAX]),
        _ => {
            let any = [0, 1, old.wrapping_add(1), old.wrapping_sub(1), RANKS - 1, RANKS, u32::MAX, near(1, lines, 13)];
            store.words[at] = rng.pick(&any);
        }
    }
}

impl<const KIND: u32> Driven<0> for Lines<KIND> {
    const SHAPES: &'static [Shape] = SHAPES;
    const SOUND: &'static [&'static [usize]] = match KIND {
        1 => &[&[0], &[0, 4, 5, 7], &[0, 6], &[0, 4, 5, 6, 7], &[0]],
        _ => Tree::SOUND,
    };
    const ANY: &'static [&'static [usize]] = match KIND {
        1 => &[&[0, 1], &[0, 1, 2, 4, 5, 7], &[0, 1, 2, 6], &[0, 1, 2, 4, 5, 6, 7], &[0, 1, 2]],
        _ => Tree::ANY,
    };

    fn room((lines, places): Shape) -> usize {
        lines_room(KIND, lines, places)
    }
    fn ranks(_: Shape) -> u64 {
        ranks(KIND)
    }
    fn in_turn((lines, _): Shape) -> bool {
        KIND == 1 || lines == 1
    }
    fn near((lines, _): Shape, n: u32) -> u32 {
        near(KIND, lines, n)
    }
    fn full(shape: Shape, held: &[Element], ask: Ask) -> bool {
        full(KIND, shape, held, ask)
    }
    fn blank(shape: Shape, more: usize) -> Store {
        blank(KIND, shape, more)
    }
    fn spoil(rng: &mut Rng, store: &mut Store) {
        spoil(rng, store)
    }
}

impl<const KIND: u32> Driven<5> for ClockedLines<KIND> {
    const SHAPES: &'static [Shape] = SHAPES;
    const SOUND: &'static [&'static [usize]] = match KIND {
        1 => &[&[0], &[0], &[0, 4, 5, 7], &[0, 6], &[0, 4, 5, 6, 7], &[], &[0], &[0]],
        _ => &[&[0], &[0], &[0, 5, 7], &[0, 6], &[0, 6, 7], &[], &[0], &[0]],
    };
    const ANY: &'static [&'static [usize]] = match KIND {
        1 => &[&[0, 1], DAMAGED, &[0, 1, 2, 4, 5, 7], &[0, 1, 2, 6], &[0, 1, 2, 4, 5, 6, 7], &[1], DAMAGED, DAMAGED],
        _ => &[&[0, 1], DAMAGED, &[0, 1, 2, 5, 7], &[0, 1, 2, 6], &[0, 1, 2, 6, 7], &[1], DAMAGED, DAMAGED],
    };

    fn room((lines, places): Shape) -> usize {
        lines_room(KIND, lines, places)
    }
    fn ranks(_: Shape) -> u64 {
        ranks(KIND)
    }
    fn in_turn((lines, _): Shape) -> bool {
        KIND == 1 || lines == 1
    }
    fn near((lines, _): Shape, n: u32) -> u32 {
        near(KIND, lines, n)
    }
    fn full(shape: Shape, held: &[Element], ask: Ask) -> bool {
        full(KIND, shape, held, ask)
    }
    fn blank(shape: Shape, more: usize) -> Store<5> {
        Store { records: vec![[9; 5]; 1 + more].into(), ..blank(KIND, shape, more) }
    }
    fn spoil(rng: &mut Rng, store: &mut Store<5>) {
        let lines = store.shape[0];
        if store.records.is_empty() || rng.once_in(2) {
            return spoil(rng, store);
        }
        let [kind, line, rank, ..] = store.records[0];
        let record = &mut store.records[0];
        match rng.below(4) {
            0 => record[1] = rng.pick(&[0, lines - 1, lines, u32::MAX, line.wrapping_add(1)]),
            1 => record[2] = rng.pick(&[0, RANKS - 1, RANKS, u32::MAX, rank.wrapping_add(1)]),
            2 if rng.once_in(3) => record[0] = rng.pick(&[4, 1 << 31, u32::MAX, 3 - kind.min(3)]),
            _ => {
                let line = rng.pick(&[0, 0, 1, lines - 1, lines, u32::MAX]);
                let rank = near(KIND, lines, rng.below(14) as u32);
                *record = [rng.pick(&[0, 1, 1, 2, 2, 3, 3]), line, rank, rng.word(), rng.word()];
            }
        }
    }
}

impl<const KIND: u32> Machine<5> for ClockedLines<KIND> {
    fn in_flight(store: &Store<5>) -> Option<Vec<Element>> {
        let [lines, places, kind] = store.shape;
        Some(lines_clock::in_flight(&store.words, kind, lines, places, &store.records))
    }
    fn at_rest(store: &Store<5>) -> bool {
        let [lines, places, kind] = store.shape;
        lines::neat(&store.words, kind, lines, places)
    }
}
