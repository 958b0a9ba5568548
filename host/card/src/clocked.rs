//! The multi-way tree, worked by clock cycles.

use crate::{calls, refused, tree_slots, Element, Lent, Refusal};
use core::fmt;

/// What a cycle is asked for.
#[derive(Clone, Copy, PartialEq, Eq, Debug)]
pub enum Request {
    /// Nothing: pending work moves on.
    Idle,
    /// Take this element in.
    Push(Element),
    /// Give the element of lowest rank.
    Pop,
    /// Give the element of lowest rank, and then take this one in.
    Replace(Element),
}

impl Request {
    /// Its number, and those of its element; 0 where there is none.
    #[inline]
    pub(crate) fn numbers(self) -> (u32, u32, u32, u32) {
        let (number, x) = match self {
            Request::Idle => (0, Element::default()),
            Request::Push(x) => (1, x),
            Request::Pop => (2, Element::default()),
            Request::Replace(x) => (3, x),
        };
        (number, x.rank.0, x.tag.0, x.length.0)
    }
}

/// What a drain reports.
#[derive(Clone, Copy, PartialEq, Eq, Debug)]
pub struct Drained {
    /// The idle cycles that were run.
    pub cycles: u32,
    /// Whether anything is still pending: then the budget was spent.
    pub work_left: bool,
}

/// A drain that was refused, and how far it came.
#[derive(Clone, Copy, PartialEq, Eq, Debug)]
pub struct Stopped {
    /// Why: [`Refusal::BadShape`], or [`Refusal::Damaged`] by the cycle that was to come next.
    pub refusal: Refusal,
    /// The idle cycles that were run before.
    pub cycles: u32,
}

impl From<Stopped> for Refusal {
    fn from(stopped: Stopped) -> Refusal {
        stopped.refusal
    }
}

impl fmt::Display for Stopped {
    fn fmt(&self, f: &mut fmt::Formatter<'_>) -> fmt::Result {
        write!(f, "{} after {} cycles", self.refusal, self.cycles)
    }
}

#[cfg(feature = "std")]
impl std::error::Error for Stopped {}

/// A pending record: what a level from 2 has to do in the next cycle. This is the library's own layout, so records may lie wherever the
/// card keeps them. A record of nothing that is not loaded stands as it was handed in, whatever its numbers are.
#[repr(C)]
#[derive(Clone, Copy, PartialEq, Eq, Hash, Debug, Default)]
pub struct Record {
    /// 0 nothing, 1 put, 2 take, 3 swap.
    pub kind: u32,
    /// The node of the level, from 0.
    pub node: u32,
    /// The rank that a put or swap carries.
    pub rank: u32,
    /// The tag that a put or swap carries.
    pub tag: u32,
    /// The length that a put or swap carries.
    pub length: u32,
}

impl From<[u32; 5]> for Record {
    /// The record of these numbers: kind, node, rank, tag, length.
    #[inline]
    fn from([kind, node, rank, tag, length]: [u32; 5]) -> Record {
        Record { kind, node, rank, tag, length }
    }
}

impl From<Record> for [u32; 5] {
    /// The record's numbers: kind, node, rank, tag, length.
    #[inline]
    fn from(r: Record) -> [u32; 5] {
        [r.kind, r.node, r.rank, r.tag, r.length]
    }
}

/// A clocked tree over words and records of any kind: lent slices, arrays, or (with feature `std`) vectors of its own, see
/// [`ClockedTree`](crate::ClockedTree).
///
/// An operation is answered in its own cycle and ends within as many cycles as there are levels. A pop or replace just after an
/// answered operation is too soon: the cycle runs as an idle one.
///
/// ```
/// use card_host::{record_count, tree_words, Clocked, Element, Length, Rank, Record, Refusal, Tag};
///
/// # fn main() -> Result<(), Refusal> {
/// let (mut words, mut records) = ([0; tree_words(2, 3)], [Record::default(); record_count(3)]);
/// let mut tree = Clocked::cleared(2, 3, &mut words[..], &mut records[..])?;
/// tree.push(Element::new(Rank(5), Tag(50), Length(1500)))?;
/// assert_eq!(tree.pop(), Err(Refusal::TooSoon));
/// assert_eq!(tree.pop()?, Element::new(Rank(5), Tag(50), Length(1500)));
/// assert_eq!(tree.drain(3)?.work_left, false);
/// # Ok(())
/// # }
/// ```
#[derive(PartialEq, Eq, Debug)]
pub struct Clocked<W, R> {
    order: u32,
    levels: u32,
    words: W,
    records: R,
    mark: [u32; 1],
}

impl<W: Lent<u32>, R: Lent<Record>> Clocked<W, R> {
    /// An empty tree with nothing pending and the mark off: the words and records that it needs are cleared, those behind them are never touched.
    /// Refused [`Refusal::BadShape`] where order, levels or the number of words ([`tree_words`](crate::tree_words)) or
    /// records ([`record_count`](crate::record_count)) are not those of a tree; then nothing is written.
    #[inline]
    pub fn cleared(order: u32, levels: u32, words: W, records: R) -> Result<Clocked<W, R>, Refusal> {
        let mut tree = Clocked { order, levels, words, records, mark: [0] };
        tree.clear()?;
        Ok(tree)
    }

    /// A tree over words and records as they stand, from [`into_words`](Clocked::into_words) or from elsewhere. Nothing is tested here: each call
    /// tests what it reads, and refuses what is damaged.
    #[inline]
    pub fn from_words(order: u32, levels: u32, words: W, records: R, mark: bool) -> Clocked<W, R> {
        Clocked { order, levels, words, records, mark: [mark as u32] }
    }

    /// The words of the slots, the records and the mark, handed back.
    #[inline]
    pub fn into_words(self) -> (W, R, bool) {
        (self.words, self.records, self.mark[0] != 0)
    }

    /// The words: rank, tag, length and count of each slot, level by level.
    #[inline]
    pub fn words(&self) -> &[u32] {
        self.words.as_ref()
    }

    /// The pending records, one for each level from 2.
    #[inline]
    pub fn records(&self) -> &[Record] {
        self.records.as_ref()
    }

    /// Whether the last cycle's operation was answered without refusal.
    #[inline]
    pub fn mark(&self) -> bool {
        self.mark[0] != 0
    }
}

shape! {
    Clocked<W, R> {
        /// The order.
        order,
        /// The number of levels.
        levels,
    } room tree_slots
}

cycles! {
    Clocked<W: u32, R: Record> on (words) of (order, levels) pending (records, mark):
        clocked_clear, clocked_cycle, clocked_drain, clocked_held
}
