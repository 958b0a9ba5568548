//! The packed heap on a slice of words, one operation at a time: a forest of heaps, by their positions.

use crate::{shape_cause, Causes, Element, No};

/// The most slots of a store.
pub const MOST: u64 = 131_071;

/// What a call can find broken. Where a slot must be empty each of its words is a cause by itself: of the cause that is named here, and
/// of the two bits behind it.
pub mod cause {
    use crate::Causes;
    /// The held word is above 2^L − 1.
    pub const HELD: Causes = 1;
    /// Something is held, and the top has tag 0.
    pub const TOP_NONE: Causes = 1 << 1;
    /// Nothing is held, and a word of the top is not 0.
    pub const TOP_SOME: Causes = 1 << 2;
    /// Push: a slot of the way above its end has tag 0.
    pub const WAY_NONE: Causes = 1 << 5;
    /// Push: a word of the slot at the end of the way is not 0.
    pub const END_SOME: Causes = 1 << 6;
    /// Pop: the last entry has tag 0.
    pub const LAST_NONE: Causes = 1 << 9;
    /// A sink: a left child that is held has tag 0, and a right one.
    pub const LEFT_NONE: Causes = 1 << 10;
    pub const RIGHT_NONE: Causes = 1 << 11;
    /// A sink: a word of a left child that is not held is not 0, and of a right one.
    pub const LEFT_SOME: Causes = 1 << 12;
    pub const RIGHT_SOME: Causes = 1 << 15;

    /// All three words of a slot that must be empty.
    pub const fn words(first: Causes) -> Causes {
        first | first << 1 | first << 2
    }

    pub const NAMES: [&str; 18] = [
        "held above the capacity",
        "top has no tag",
        "rank at an empty top",
        "tag at an empty top",
        "length at an empty top",
        "no tag on the way",
        "rank at the way's end",
        "tag at the way's end",
        "length at the way's end",
        "last entry has no tag",
        "left child has no tag",
        "right child has no tag",
        "rank of a left child not held",
        "tag of a left child not held",
        "length of a left child not held",
        "rank of a right child not held",
        "tag of a right child not held",
        "length of a right child not held",
    ];
}

const EMPTY: Element = Element { rank: 0, tag: 0, length: 0 };

/// A slot that must have an element.
fn some(x: Element, none: Causes) -> Causes {
    if x.tag == 0 {
        none
    } else {
        0
    }
}

/// A slot that must be empty: a cause for each word that is not 0.
fn empty(x: Element, first: Causes) -> Causes {
    let wrong = |word: u32, bit: Causes| if word == 0 { 0 } else { bit };
    wrong(x.rank, first) | wrong(x.tag, first << 1) | wrong(x.length, first << 2)
}

fn whole(causes: Causes) -> Result<(), No> {
    match causes {
        0 => Ok(()),
        causes => Err(No::Damaged(causes)),
    }
}

/// A number of heaps and of levels that are taken.
#[derive(Clone, Copy, PartialEq, Eq, Debug)]
pub struct Shape {
    pub heaps: u64,
    pub levels: u32,
}

impl Shape {
    /// 1 to 256 heaps; at least one level; at most 131,071 slots; a slice that is long enough.
    pub fn new(heaps: u32, levels: u32, len: usize) -> Result<Shape, No> {
        let shape = Shape { heaps: heaps as u64, levels };
        let fits = (1..=256).contains(&heaps) && (1..=17).contains(&levels) && shape.heaps * shape.capacity() <= MOST;
        match fits {
            false => Err(No::BadShape(shape_cause::NUMBERS)),
            true if len < shape.words() => Err(No::BadShape(shape_cause::STORE)),
            true => Ok(shape),
        }
    }

    /// What a heap has room for.
    pub fn capacity(&self) -> u64 {
        (1 << self.levels) - 1
    }

    /// The words of a store.
    pub fn words(&self) -> usize {
        (self.heaps + 3 * self.heaps * self.capacity()) as usize
    }

    /// The first word of a heap's position: level by level, in a level heap by heap, in a heap by position.
    pub fn word(&self, heap: u64, position: u64) -> usize {
        let first = 1 << level(position);
        let slot = self.heaps * (first - 1) + heap * first + (position - first);
        (self.heaps + 3 * slot) as usize
    }
}

/// The level of a position, counted from 0.
fn level(position: u64) -> u32 {
    63 - position.leading_zeros()
}

/// The positions on the way to one, from 1 to it.
pub fn way(position: u64) -> impl Iterator<Item = u64> {
    (0..=level(position)).rev().map(move |below| position >> below)
}

/// One heap of a store, and its words.
#[derive(Clone, Copy)]
struct Heap {
    shape: Shape,
    heap: u64,
}

impl Heap {
    fn held(&self, store: &[u32]) -> u64 {
        store[self.heap as usize] as u64
    }

    fn hold(&self, store: &mut [u32], held: u64) {
        store[self.heap as usize] = held as u32;
    }

    fn get(&self, store: &[u32], position: u64) -> Element {
        let at = self.shape.word(self.heap, position);
        Element { rank: store[at], tag: store[at + 1], length: store[at + 2] }
    }

    fn set(&self, store: &mut [u32], position: u64, x: Element) {
        let at = self.shape.word(self.heap, position);
        store[at..at + 3].copy_from_slice(&[x.rank, x.tag, x.length]);
    }

    /// The held word and the top: what every call tests.
    fn top(&self, store: &[u32]) -> Causes {
        let (held, top) = (self.held(store), self.get(store, 1));
        let above = if held > self.shape.capacity() { cause::HELD } else { 0 };
        above | if held == 0 { empty(top, cause::TOP_SOME) } else { some(top, cause::TOP_NONE) }
    }

    /// Every slot of the way above the position has an element, and its own is empty.
    fn put_tests(&self, store: &[u32], to: u64) -> Causes {
        let test = |at: u64| match at == to {
            true => empty(self.get(store, at), cause::END_SOME),
            false => some(self.get(store, at), cause::WAY_NONE),
        };
        way(to).map(test).fold(0, |all, more| all | more)
    }

    /// At each slot the lower of the two stays, the one that stands there on a tie.
    fn put(&self, store: &mut [u32], to: u64, mut x: Element) {
        for at in way(to) {
            let met = self.get(store, at);
            if at == to || x.rank < met.rank {
                self.set(store, at, x);
                x = met;
            }
        }
    }

    /// The position where x, sunk from position 1, comes to rest where so many are held, and what is broken on its way: both children of
    /// a position are looked at, also where x then stays. A position that is gone is read as empty.
    fn rest(&self, store: &[u32], x: Element, held: u64, gone: u64) -> (u64, Causes) {
        let child = |at: u64| if at == gone { EMPTY } else { self.get(store, at) };
        let test = |at: u64, none: Causes, first: Causes| match at <= held {
            true => some(child(at), none),
            false => empty(child(at), first),
        };
        let (mut at, mut broken) = (1, 0);
        while 2 * at <= self.shape.capacity() {
            let (left, right) = (2 * at, 2 * at + 1);
            broken |= test(left, cause::LEFT_NONE, cause::LEFT_SOME);
            broken |= test(right, cause::RIGHT_NONE, cause::RIGHT_SOME);
            let children = [left, right].into_iter().filter(|&side| child(side).tag != 0);
            // of equal ranks the first, which is the left one
            match children.min_by_key(|&side| child(side).rank) {
                Some(lower) if child(lower).rank < x.rank => at = lower,
                _ => break,
            }
        }
        (at, broken)
    }

    /// x at its rest, and what stands on its way one position up.
    fn sink(&self, store: &mut [u32], x: Element, rest: u64) {
        let way: Vec<u64> = way(rest).collect();
        for pair in way.windows(2) {
            let lifted = self.get(store, pair[1]);
            self.set(store, pair[0], lifted);
        }
        self.set(store, rest, x);
    }
}

/// 1, 12 and then 2 of the held word and the top.
fn open(store: &[u32], heaps: u32, levels: u32, heap: u32) -> Result<Heap, No> {
    let shape = Shape::new(heaps, levels, store.len())?;
    if heap >= heaps {
        return Err(No::NoHeap);
    }
    let heap = Heap { shape, heap: heap as u64 };
    whole(heap.top(store))?;
    Ok(heap)
}

pub fn clear(store: &mut [u32], heaps: u32, levels: u32) -> Result<(), No> {
    let shape = Shape::new(heaps, levels, store.len())?;
    store[..shape.words()].fill(0);
    Ok(())
}

pub fn held(store: &[u32], heaps: u32, levels: u32, heap: u32) -> Result<u32, No> {
    open(store, heaps, levels, heap).map(|heap| heap.held(store) as u32)
}

pub fn push(store: &mut [u32], heaps: u32, levels: u32, heap: u32, x: Element) -> Result<(), No> {
    let heap = open(store, heaps, levels, heap)?;
    let held = heap.held(store);
    if x.tag == 0 {
        return Err(No::NoTag);
    }
    if held == heap.shape.capacity() {
        return Err(No::Full);
    }
    whole(heap.put_tests(store, held + 1))?;
    heap.put(store, held + 1, x);
    heap.hold(store, held + 1);
    Ok(())
}

pub fn pop(store: &mut [u32], heaps: u32, levels: u32, heap: u32) -> Result<Element, No> {
    let heap = open(store, heaps, levels, heap)?;
    let held = heap.held(store);
    if held == 0 {
        return Err(No::Empty);
    }
    let (top, last) = (heap.get(store, 1), heap.get(store, held));
    let (rest, broken) = if held == 1 { (1, 0) } else { heap.rest(store, last, held - 1, held) };
    whole(some(last, cause::LAST_NONE) | broken)?;
    heap.set(store, held, EMPTY);
    if held > 1 {
        heap.sink(store, last, rest);
    }
    heap.hold(store, held - 1);
    Ok(top)
}

pub fn replace(store: &mut [u32], heaps: u32, levels: u32, heap: u32, x: Element) -> Result<Element, No> {
    let heap = open(store, heaps, levels, heap)?;
    let held = heap.held(store);
    if x.tag == 0 {
        return Err(No::NoTag);
    }
    if held == 0 {
        return Err(No::Empty);
    }
    let top = heap.get(store, 1);
    let (rest, broken) = heap.rest(store, x, held, 0);
    whole(broken)?;
    heap.sink(store, x, rest);
    Ok(top)
}

/// Whether a heap of the store is one that its own calls have written: positions 1 to held are occupied and no others, and no element is
/// higher in rank than one below it.
pub fn packed(store: &[u32], heaps: u32, levels: u32, heap: u32) -> bool {
    let heap = match open(store, heaps, levels, heap) {
        Ok(heap) => heap,
        Err(_) => return false,
    };
    let held = heap.held(store);
    let get = |at: u64| heap.get(store, at);
    (1..=held).all(|at| get(at).tag != 0 && (at == 1 || get(at / 2).rank <= get(at).rank))
        && (held + 1..=heap.shape.capacity()).all(|at| get(at) == EMPTY)
}

#[cfg(test)]
mod tests {
    use super::*;
    use crate::element;

    #[test]
    fn the_store_of_the_rules() {
        let mut store = [7; 21];
        assert_eq!(clear(&mut store, 2, 2), Ok(()));
        for (heap, x) in [(0, (5, 50, 500)), (0, (3, 30, 300)), (0, (9, 90, 900)), (1, (8, 80, 800)), (1, (1, 10, 100))]
        {
            assert_eq!(push(&mut store, 2, 2, heap, element(x.0, x.1, x.2)), Ok(()));
        }
        let words = [3, 2, 3, 30, 300, 1, 10, 100, 5, 50, 500, 9, 90, 900, 8, 80, 800, 0, 0, 0, 7];
        assert_eq!(store, words);
        assert!(packed(&store, 2, 2, 0) && packed(&store, 2, 2, 1));
        assert_eq!(push(&mut store, 2, 2, 0, element(7, 70, 700)), Err(No::Full));
        assert_eq!(pop(&mut store, 2, 2, 2), Err(No::NoHeap));
        assert_eq!(push(&mut store, 2, 2, 1, element(7, 0, 700)), Err(No::NoTag));
        assert_eq!(pop(&mut store, 2, 2, 0), Ok(element(3, 30, 300)));
        assert_eq!(replace(&mut store, 2, 2, 0, element(9, 91, 1)), Ok(element(5, 50, 500)));
        assert_eq!(pop(&mut store, 2, 2, 0), Ok(element(9, 91, 1)));
        assert_eq!(pop(&mut store, 2, 2, 0), Ok(element(9, 90, 900)));
        assert_eq!(pop(&mut store, 2, 2, 0), Err(No::Empty));
        assert_eq!(held(&store, 2, 2, 1), Ok(2));
    }

    #[test]
    fn the_limits() {
        let taken = |heaps, levels| Shape::new(heaps, levels, usize::MAX).is_ok();
        let most = [(1, 17), (2, 16), (4, 15), (8, 14), (16, 13), (32, 12), (64, 11), (128, 10), (256, 9)];
        for (heaps, levels) in most {
            assert!(taken(heaps, levels) && !taken(heaps, levels + 1));
            // one heap more has a level less
            assert!(heaps == 256 || !taken(heaps + 1, levels) && taken(heaps + 1, levels - 1));
        }
        assert!(!taken(0, 1) && !taken(257, 1) && !taken(1, 0));
    }
}
