//! Plain models of the card's queues, written from the paper's rules alone and from no code.
//!
//! Each queue is modelled word by word: which words of a lent store a call writes, what it
//! answers, and which refusal it gives. `list` is the plain sorted list that the queues' answers
//! are held to, `mend` the check of a tree's store and its mending, `cluster_clock` the cluster heap by clock cycles, `packed` the packed heap, `lines` sorted lines and `lines_clock` the same by clock cycles, `fair` the ranks from weights above the tree, `ports` several ports on one pool of the bucket queue, `flight` the account of a clocked machine in the middle of its work, `trace` the
//! trace program, and `boundary` the same calls as the C library offers them (slices of numbers in,
//! a refusal number out); `call` is such a call as data, and `rng` makes the random numbers of the
//! comparisons.

pub mod boundary;
pub mod bucket;
pub mod call;
pub mod clocked;
pub mod cluster;
pub mod cluster_clock;
pub mod fair;
pub mod flight;
pub mod lines;
pub mod lines_clock;
pub mod list;
pub mod mend;
pub mod packed;
pub mod ports;
pub mod rng;
pub mod trace;
pub mod tree;

/// An element: a rank, a tag and a length, which travels with them and decides nothing.
#[derive(Clone, Copy, PartialEq, Eq, PartialOrd, Ord, Debug, Default)]
pub struct Element {
    pub rank: u32,
    pub tag: u32,
    pub length: u32,
}

/// An element of this rank, this tag and this length.
pub fn element(rank: u32, tag: u32, length: u32) -> Element {
    Element { rank, tag, length }
}

/// A set of causes: which of a test's clauses was not met, one bit for each.
///
/// The bits never decide an answer. They tell the comparison which clause a call met, so that it
/// can say whether each clause was met at least once and alone.
pub type Causes = u64;

/// A refusal.
#[derive(Clone, Copy, PartialEq, Eq, Debug)]
pub enum No {
    BadShape(Causes),
    Damaged(Causes),
    TooSoon,
    BadRank,
    Full,
    Empty,
    NoTag,
    NoPort,
    BadStrip,
    ClockSpent,
    NotEmpty,
    NoHeap,
}

impl No {
    /// The paper's number for the refusal.
    pub fn number(self) -> u32 {
        match self {
            No::BadShape(_) => 1,
            No::Damaged(_) => 2,
            No::TooSoon => 3,
            No::BadRank => 4,
            No::Full => 5,
            No::Empty => 6,
            No::NoTag => 7,
            No::NoPort => 8,
            No::BadStrip => 9,
            No::ClockSpent => 10,
            No::NotEmpty => 11,
            No::NoHeap => 12,
        }
    }
}

/// Causes of refusal 1. The first two are the queues' own; the rest are the boundary's.
pub mod shape_cause {
    use super::Causes;
    /// Order, levels or number of nodes.
    pub const NUMBERS: Causes = 1;
    /// A store's slice is too short (the first one).
    pub const STORE: Causes = 2;
    /// The bucket queue's slice of 64-bit words is too short.
    pub const BITS: Causes = 4;
    /// `out` is too short.
    pub const OUT: Causes = 8;
    /// A request above 3.
    pub const REQUEST: Causes = 16;
    /// `mark` has no word.
    pub const MARK_SHORT: Causes = 32;
    /// The mark's word is above 1.
    pub const MARK_WORD: Causes = 64;
    /// `records` has less than five words for each level from 2.
    pub const RECORDS: Causes = 128;
    /// A record's kind is above 3.
    pub const KIND: Causes = 256;

    /// The causes that are the boundary's own.
    pub const BOUNDARY: Causes = OUT | REQUEST | MARK_SHORT | MARK_WORD | RECORDS | KIND;

    pub const NAMES: [&str; 9] = [
        "order, levels or N",
        "store too short",
        "bits too short",
        "out too short",
        "request above 3",
        "no mark",
        "mark above 1",
        "records too short",
        "kind above 3",
    ];
}
