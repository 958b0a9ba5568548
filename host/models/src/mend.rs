//! The check of a tree's store, and its mending: written from the request's words alone, level by level, node by node.

use crate::tree::Shape;

/// The words of a slot: rank, tag, length, count.
pub const WORDS: usize = 4;

/// Which part of the sentence a broken slot met, one bit for each.
pub mod why {
    /// The count is not 0, and not one plus the counts of the node under it.
    pub const COUNT: u32 = 1;
    /// The count is not 0, and the rank is below that of the slot above.
    pub const RANK: u32 = 2;
    /// The count is 0, and the rank, the tag or the length is not.
    pub const LEFT_RANK: u32 = 4;
    pub const LEFT_TAG: u32 = 8;
    pub const LEFT_LENGTH: u32 = 16;
    /// The count is 0, and a count under it is not.
    pub const UNDER: u32 = 32;
    /// All of them.
    pub const ALL: [u32; 6] = [COUNT, RANK, LEFT_RANK, LEFT_TAG, LEFT_LENGTH, UNDER];
}

/// A slot as it stands in the slice.
#[derive(Clone, Copy, PartialEq, Eq, PartialOrd, Ord, Debug)]
pub struct Slot {
    pub rank: u32,
    pub tag: u32,
    pub length: u32,
    pub count: u32,
}

/// The slice's slots of a shape.
#[derive(Clone, Copy)]
pub struct Store<'a> {
    shape: Shape,
    words: &'a [u32],
}

impl<'a> Store<'a> {
    /// None where order, levels or the slice's length are not those of a tree.
    pub fn new(words: &'a [u32], order: u32, levels: u32) -> Option<Store<'a>> {
        let shape = Shape::new(order, levels)?;
        (words.len() >= WORDS * shape.capacity() as usize).then(|| Store { shape, words })
    }

    /// The slot of this number in the slice.
    pub fn slot(&self, number: usize) -> Slot {
        let at = &self.words[WORDS * number..];
        Slot { rank: at[0], tag: at[1], length: at[2], count: at[3] }
    }

    /// The number in the slice of slot j of node n of a level; levels count from 1.
    fn number(&self, level: u64, node: u64, slot: u64) -> usize {
        let above: u64 = (1..level).map(|level| self.shape.nodes(level) * self.shape.order).sum();
        (above + node * self.shape.order + slot) as usize
    }

    fn at(&self, level: u64, node: u64, slot: u64) -> Slot {
        self.slot(self.number(level, node, slot))
    }

    /// Why slot j of node n of a level is broken; 0 where it is not.
    fn broken(&self, level: u64, node: u64, slot: u64) -> u32 {
        let (order, own) = (self.shape.order, self.at(level, node, slot));
        let under: Vec<Slot> = if level == self.shape.levels {
            Vec::new()
        } else {
            (0..order).map(|j| self.at(level + 1, node * order + slot, j)).collect()
        };
        let mut found = 0;
        if own.count != 0 {
            let sum: u64 = under.iter().map(|s| s.count as u64).sum();
            if own.count as u64 != 1 + sum {
                found |= why::COUNT;
            }
            if level > 1 && own.rank < self.at(level - 1, node / order, node % order).rank {
                found |= why::RANK;
            }
        } else {
            let left = [(own.rank, why::LEFT_RANK), (own.tag, why::LEFT_TAG), (own.length, why::LEFT_LENGTH)];
            found |= left.iter().filter(|(word, _)| *word != 0).map(|(_, bit)| bit).sum::<u32>();
            if under.iter().any(|s| s.count != 0) {
                found |= why::UNDER;
            }
        }
        found
    }

    /// The first broken slot in slice order, and why.
    pub fn first_broken(&self) -> Option<(usize, u32)> {
        for level in 1..=self.shape.levels {
            for node in 0..self.shape.nodes(level) {
                for slot in 0..self.shape.order {
                    let why = self.broken(level, node, slot);
                    if why != 0 {
                        return Some((self.number(level, node, slot), why));
                    }
                }
            }
        }
        None
    }

    /// Every slot with a count not 0, in slice order.
    pub fn held(&self) -> Vec<Slot> {
        (0..self.shape.capacity() as usize).map(|i| self.slot(i)).filter(|s| s.count != 0).collect()
    }
}

/// Pushes an element of a slot into a store that has room: a put at the root, and on below.
pub fn put(words: &mut [u32], order: u32, levels: u32, element: Slot) {
    let shape = Shape::new(order, levels).expect("a shape");
    let (mut node, mut x) = (0, element);
    for level in 1..=levels as u64 {
        let numbers: Vec<usize> = {
            let store = Store::new(words, order, levels).expect("a store");
            (0..shape.order).map(|j| store.number(level, node, j)).collect()
        };
        let count = |words: &[u32], number: usize| words[WORDS * number + 3];
        // the first empty slot, or else the smallest count, leftmost on a tie: both are the first of the smallest counts
        let place = (0..numbers.len()).min_by_key(|j| count(words, numbers[*j])).expect("a slot");
        let at = &mut words[WORDS * numbers[place]..][..WORDS];
        let old = Slot { rank: at[0], tag: at[1], length: at[2], count: at[3] };
        let stays = if old.count == 0 || x.rank < old.rank { x } else { old };
        at.copy_from_slice(&[stays.rank, stays.tag, stays.length, old.count + 1]);
        if old.count == 0 {
            return;
        }
        if x.rank < old.rank {
            x = old;
        }
        node = node * shape.order + place as u64;
    }
    panic!("no room");
}

/// The check as C sees it: the number, and `out`.
pub fn check(store: &[u32], order: u32, levels: u32, out: &mut [u32]) -> u32 {
    if out.len() < 2 {
        return 1;
    }
    let (number, yes, slot) = match Store::new(store, order, levels).map(|s| s.first_broken()) {
        None => (1, 0, 0),
        Some(None) => (0, 1, 0),
        Some(Some((slot, _))) => (0, 0, slot as u32),
    };
    out[..2].copy_from_slice(&[yes, slot]);
    number
}

/// The mending as C sees it: the number, the second store and `out`.
pub fn mend(from: &[u32], to: &mut [u32], order: u32, levels: u32, out: &mut [u32]) -> u32 {
    if out.is_empty() {
        return 1;
    }
    out[0] = 0;
    let first = match (Store::new(from, order, levels), Store::new(to, order, levels)) {
        (Some(first), Some(_)) => first,
        _ => return 1,
    };
    to[..WORDS * first.shape.capacity() as usize].fill(0);
    for slot in first.held() {
        if slot.tag == 0 {
            out[0] += 1;
        } else {
            put(to, order, levels, slot);
        }
    }
    0
}
