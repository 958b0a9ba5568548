//! Queues that take the same trace: the card's, and the plain ones beside them.

use crate::measure::Contestant;
use card_host::{BucketQueue, ClusterQueue, Element, Length, PackedQueue, Rank, Tag, TreeQueue};
use std::cmp::{Ordering, Reverse};
use std::collections::{BTreeMap, BinaryHeap, VecDeque};

/// A rank, a tag and a length.
pub type Strip = (u32, u32, u32);

/// A strip as the card's wrapper has it, and back.
pub fn wrapped((rank, tag, length): Strip) -> Element {
    Element::new(Rank(rank), Tag(tag), Length(length))
}

pub fn bare(x: Element) -> Strip {
    (x.rank.0, x.tag.0, x.length.0)
}

/// What a trace asks a queue for.
#[derive(Clone, Copy)]
pub enum Op {
    Push(Strip),
    Pop,
    Replace(Strip),
}

/// A queue of strips. What is not there to be given is a mistake of the trace.
pub trait Queue {
    fn clear(&mut self);
    fn push(&mut self, x: Strip);
    fn pop(&mut self) -> Strip;
    fn replace(&mut self, x: Strip) -> Strip;
}

impl Queue for BucketQueue {
    fn clear(&mut self) {
        BucketQueue::clear(self).expect("clear");
    }
    #[inline]
    fn push(&mut self, x: Strip) {
        BucketQueue::push(self, wrapped(x)).expect("push");
    }
    #[inline]
    fn pop(&mut self) -> Strip {
        bare(BucketQueue::pop(self).expect("pop"))
    }
    #[inline]
    fn replace(&mut self, x: Strip) -> Strip {
        bare(BucketQueue::replace(self, wrapped(x)).expect("replace"))
    }
}

impl Queue for TreeQueue {
    fn clear(&mut self) {
        TreeQueue::clear(self).expect("clear");
    }
    #[inline]
    fn push(&mut self, x: Strip) {
        TreeQueue::push(self, wrapped(x)).expect("push");
    }
    #[inline]
    fn pop(&mut self) -> Strip {
        bare(TreeQueue::pop(self).expect("pop"))
    }
    #[inline]
    fn replace(&mut self, x: Strip) -> Strip {
        bare(TreeQueue::replace(self, wrapped(x)).expect("replace"))
    }
}

impl Queue for ClusterQueue {
    fn clear(&mut self) {
        ClusterQueue::clear(self).expect("clear");
    }
    #[inline]
    fn push(&mut self, x: Strip) {
        ClusterQueue::push(self, wrapped(x)).expect("push");
    }
    #[inline]
    fn pop(&mut self) -> Strip {
        bare(ClusterQueue::pop(self).expect("pop"))
    }
    #[inline]
    fn replace(&mut self, x: Strip) -> Strip {
        bare(ClusterQueue::replace(self, wrapped(x)).expect("replace"))
    }
}

/// The first of the heaps.
impl Queue for PackedQueue {
    fn clear(&mut self) {
        PackedQueue::clear(self).expect("clear");
    }
    #[inline]
    fn push(&mut self, x: Strip) {
        self.heap(0).push(wrapped(x)).expect("push");
    }
    #[inline]
    fn pop(&mut self) -> Strip {
        bare(self.heap(0).pop().expect("pop"))
    }
    #[inline]
    fn replace(&mut self, x: Strip) -> Strip {
        bare(self.heap(0).replace(wrapped(x)).expect("replace"))
    }
}

/// An ordered map from rank to a first-in list of tag and length.
#[derive(Default)]
pub struct MapQueue(BTreeMap<u32, VecDeque<(u32, u32)>>);

impl Queue for MapQueue {
    fn clear(&mut self) {
        self.0.clear();
    }
    #[inline]
    fn push(&mut self, x: Strip) {
        self.0.entry(x.0).or_default().push_back((x.1, x.2));
    }
    #[inline]
    #[cfg(first_entry)]
    #[allow(clippy::incompatible_msrv)]
    fn pop(&mut self) -> Strip {
        let mut first = self.0.first_entry().expect("pop");
        let rank = *first.key();
        let (tag, length) = first.get_mut().pop_front().expect("a list that holds something");
        if first.get().is_empty() {
            first.remove();
        }
        (rank, tag, length)
    }
    #[inline]
    #[cfg(not(first_entry))]
    fn pop(&mut self) -> Strip {
        let (&rank, list) = self.0.iter_mut().next().expect("pop");
        let (tag, length) = list.pop_front().expect("a list that holds something");
        if list.is_empty() {
            self.0.remove(&rank);
        }
        (rank, tag, length)
    }
    #[inline]
    fn replace(&mut self, x: Strip) -> Strip {
        let given = self.pop();
        self.push(x);
        given
    }
}

/// A strip that goes by its rank alone, lowest first out of a heap that gives its greatest.
#[derive(Clone, Copy)]
pub struct ByRank(Strip);

impl PartialEq for ByRank {
    fn eq(&self, other: &ByRank) -> bool {
        self.0 .0 == other.0 .0
    }
}
impl Eq for ByRank {}
impl PartialOrd for ByRank {
    fn partial_cmp(&self, other: &ByRank) -> Option<Ordering> {
        Some(self.cmp(other))
    }
}
impl Ord for ByRank {
    fn cmp(&self, other: &ByRank) -> Ordering {
        other.0 .0.cmp(&self.0 .0)
    }
}

/// The standard library's heap, of strips as a user would write them.
#[derive(Default)]
pub struct HeapQueue(BinaryHeap<Reverse<Strip>>);

impl Queue for HeapQueue {
    fn clear(&mut self) {
        self.0.clear();
    }
    #[inline]
    fn push(&mut self, x: Strip) {
        self.0.push(Reverse(x));
    }
    #[inline]
    fn pop(&mut self) -> Strip {
        self.0.pop().expect("pop").0
    }
    #[inline]
    fn replace(&mut self, x: Strip) -> Strip {
        std::mem::replace(&mut *self.0.peek_mut().expect("replace"), Reverse(x)).0
    }
}

/// The same heap of strips that are compared by their ranks alone, as the tree compares them.
#[derive(Default)]
pub struct RankHeap(BinaryHeap<ByRank>);

impl Queue for RankHeap {
    fn clear(&mut self) {
        self.0.clear();
    }
    #[inline]
    fn push(&mut self, x: Strip) {
        self.0.push(ByRank(x));
    }
    #[inline]
    fn pop(&mut self) -> Strip {
        self.0.pop().expect("pop").0
    }
    #[inline]
    fn replace(&mut self, x: Strip) -> Strip {
        std::mem::replace(&mut *self.0.peek_mut().expect("replace"), ByRank(x)).0
    }
}

/// What the answers are folded into: strips in their order, or ranks alone where ties may leave in another order.
pub fn fold(answers: u64, (rank, tag, length): Strip, whole: bool) -> u64 {
    let x = if whole { ((rank as u64) << 32 | tag as u64) ^ (length as u64) << 16 } else { rank as u64 };
    answers.rotate_left(5) ^ x
}

#[inline]
fn play<Q: Queue>(queue: &mut Q, trace: &[Op], whole: bool) -> u64 {
    let mut answers = 0;
    for op in trace {
        match *op {
            Op::Push(x) => queue.push(x),
            Op::Pop => answers = fold(answers, queue.pop(), whole),
            Op::Replace(x) => answers = fold(answers, queue.replace(x), whole),
        }
    }
    answers
}

/// A queue that takes part.
pub struct Player<Q> {
    pub queue: Q,
    /// Whether tag and length belong to the answer.
    pub whole: bool,
}

impl<Q: Queue> Contestant<Op> for Player<Q> {
    fn ready(&mut self, fill: &[Op]) {
        self.queue.clear();
        play(&mut self.queue, fill, self.whole);
    }
    fn run(&mut self, trace: &[Op]) -> u64 {
        play(&mut self.queue, trace, self.whole)
    }
}

/// The queue as it stands once it is filled.
pub fn filled<Q: Queue>(mut queue: Q, fill: &[Op]) -> Q {
    play(&mut queue, fill, false);
    queue
}
