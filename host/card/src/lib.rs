//! Safe Rust over the card's library of proved priority queues.
//!
//! An [`Element`] is a [`Rank`], a [`Tag`] and a [`Length`]; the lowest rank leaves first. There are eight queues:
//!
//! | queue | ranks | ties | over lent words or arrays | with a store of its own (feature `std`) |
//! |---|---|---|---|---|
//! | multi-way tree | any | in a node the lower tag, else its own order | [`Tree`] | `TreeQueue` |
//! | bucket queue | 0 to 4,095, or 262,143 | first in, first out | [`Bucket`] | `BucketQueue` |
//! | cluster heap | any | in a node the lower tag, else its own order | [`Cluster`] | `ClusterQueue` |
//! | packed heap, up to 256 side by side | any | its own order | [`Packed`] | `PackedQueue` |
//! | multi-way tree by clock cycles | any | in a node the lower tag, else its own order | [`Clocked`] | `ClockedTree` |
//! | cluster heap by clock cycles | any | its own order | [`ClockedCluster`] | `ClockedHeap` |
//! | sorted lines | 0 to 65,535 (kind 1), any (kind 2) | first in, first out; of kind 2 within a line | [`Lines`] | `LinesQueue` |
//! | sorted lines by clock cycles | as the lines | as the lines | [`ClockedLines`] | `ClockedLinesQueue` |
//!
//! Several bucket queues can share one pool of nodes: [`Ports`] (`PortsQueue`), up to 16, each with a floor and a ceiling.
//! Above the tree stands [`Fair`] (`FairQueue`): ranks from weights, for up to 64 flows.
//!
//! A call that is refused says so by a [`Refusal`] and leaves behind what the paper's table says. No store's content makes a call
//! unsafe, endless or a panic. The crate is `no_std` and allocates nothing; feature `std`, which is on unless it is switched off,
//! adds the queues that own their stores.
//!
//! A card lends its own memory:
//!
//! ```
//! use card_host::{tree_words, Element, Length, Rank, Refusal, Tag, Tree};
//!
//! fn main() -> Result<(), Refusal> {
//!     let mut memory = [0; tree_words(2, 2)];
//!     let mut queue = Tree::cleared(2, 2, &mut memory[..])?;
//!     queue.push(Element::new(Rank(5), Tag(50), Length(1500)))?;
//!     assert_eq!(queue.pop()?, Element::new(Rank(5), Tag(50), Length(1500)));
//!     assert_eq!(queue.pop(), Err(Refusal::Empty));
//!     Ok(())
//! }
//! ```
#![no_std]
#![deny(missing_docs)]

#[cfg(feature = "std")]
extern crate std;

#[macro_use]
mod queue;
#[macro_use]
mod raw;

mod bucket;
pub mod calls;
mod clocked;
mod clocked_cluster;
mod clocked_lines;
mod cluster;
mod fair;
mod lines;
mod mend;
#[cfg(feature = "std")]
mod owned;
mod packed;
mod ports;
mod sizes;
mod tree;

pub use bucket::Bucket;
pub use clocked::{Clocked, Drained, Record, Request, Stopped};
pub use clocked_cluster::{ClockedCluster, ClusterRecord};
pub use clocked_lines::ClockedLines;
pub use cluster::Cluster;
pub use fair::{Fair, Flow, Strip, Weight};
pub use lines::Lines;
pub use mend::{Broken, Mended};
#[cfg(feature = "std")]
pub use owned::{
    BucketQueue, ClockedHeap, ClockedLinesQueue, ClockedTree, ClusterQueue, FairQueue, LinesQueue, PackedQueue,
    PortsQueue, TreeQueue,
};
pub use packed::{Heap, Packed};
pub use ports::{Limits, Port, Ports};
pub use queue::{Clear, Lent, Machine, Queue, Replace};
pub use sizes::{
    bucket_bits, bucket_ranks, bucket_words, cluster_places, cluster_words, fair_words, lines_room, lines_words,
    packed_slots, packed_words, ports_bits, ports_words, record_count, tree_slots, tree_words,
};
pub use tree::Tree;

use core::fmt;

/// The version of the library's calls that this crate was written for; [`calls::version`] is that of the library which is linked.
pub const VERSION: u32 = 1;

/// A rank: lower leaves first.
#[derive(Clone, Copy, PartialEq, Eq, PartialOrd, Ord, Hash, Debug, Default)]
pub struct Rank(pub u32);

/// A tag: what the card knows the element by.
#[derive(Clone, Copy, PartialEq, Eq, Hash, Debug, Default)]
pub struct Tag(pub u32);

/// A length in bytes: it travels with the element and decides nothing.
#[derive(Clone, Copy, PartialEq, Eq, Hash, Debug, Default)]
pub struct Length(pub u32);

/// What a queue holds.
#[derive(Clone, Copy, PartialEq, Eq, Hash, Debug, Default)]
pub struct Element {
    /// When it leaves.
    pub rank: Rank,
    /// What it is.
    pub tag: Tag,
    /// How long it is.
    pub length: Length,
}

impl Element {
    /// An element of this rank, tag and length.
    ///
    /// ```
    /// use card_host::{Element, Length, Rank, Tag};
    ///
    /// let x = Element::new(Rank(5), Tag(50), Length(1500));
    /// assert_eq!((x.rank.0, x.tag.0, x.length.0), (5, 50, 1500));
    /// ```
    #[inline]
    pub const fn new(rank: Rank, tag: Tag, length: Length) -> Element {
        Element { rank, tag, length }
    }
}

impl From<[u32; 3]> for Element {
    /// The element in the three words that a call writes.
    #[inline]
    fn from(out: [u32; 3]) -> Element {
        Element::new(Rank(out[0]), Tag(out[1]), Length(out[2]))
    }
}

/// Why a queue says no. The discriminants are the paper's numbers.
#[derive(Clone, Copy, PartialEq, Eq, Hash, Debug)]
#[repr(u32)]
#[non_exhaustive]
pub enum Refusal {
    /// Order, places, heaps, levels, storeys, number of nodes, ports or lines, kind, limits or a slice's length. Everything
    /// stands.
    BadShape = 1,
    /// The store or a pending record does not hold together. Everything stands.
    Damaged = 2,
    /// A pop or replace of a clocked tree just after an answered operation. The cycle runs as an idle one.
    TooSoon = 3,
    /// A bucket rank above the last, 4,095 or (with three storeys) 262,143, or a rank above 65,535 of lines of kind 1. Everything stands; a
    /// cycle runs as an idle one.
    BadRank = 4,
    /// A push on a full queue, or of lines of kind 1 a push or replace into a full line. The store stands; a cycle runs as an idle one.
    Full = 5,
    /// A pop or replace on an empty queue. The store stands; a cycle runs as an idle one.
    Empty = 6,
    /// A push or replace with tag 0, which stands for no strip. The store stands; a cycle runs as an idle one.
    NoTag = 7,
    /// A port above the last. Everything stands.
    NoPort = 8,
    /// Fair ranks: a flow, weight or length outside the limits. Everything stands.
    BadStrip = 9,
    /// Fair ranks: a finish above the highest rank. Everything stands; once nothing is held a reset sets the clock to 0.
    ClockSpent = 10,
    /// Fair ranks: a reset while something is held. Everything stands.
    NotEmpty = 11,
    /// A packed heap above the last. Everything stands.
    NoHeap = 12,
}

impl Refusal {
    /// The refusal of this number; none where there is no such refusal.
    ///
    /// ```
    /// use card_host::Refusal;
    ///
    /// assert_eq!(Refusal::of(6), Some(Refusal::Empty));
    /// assert_eq!(Refusal::of(0), None);
    /// ```
    #[inline]
    pub const fn of(number: u32) -> Option<Refusal> {
        Some(match number {
            1 => Refusal::BadShape,
            2 => Refusal::Damaged,
            3 => Refusal::TooSoon,
            4 => Refusal::BadRank,
            5 => Refusal::Full,
            6 => Refusal::Empty,
            7 => Refusal::NoTag,
            8 => Refusal::NoPort,
            9 => Refusal::BadStrip,
            10 => Refusal::ClockSpent,
            11 => Refusal::NotEmpty,
            12 => Refusal::NoHeap,
            _ => return None,
        })
    }

    /// The paper's number.
    #[inline]
    pub const fn number(self) -> u32 {
        self as u32
    }

    /// The paper's name.
    pub const fn name(self) -> &'static str {
        match self {
            Refusal::BadShape => "bad shape",
            Refusal::Damaged => "damaged",
            Refusal::TooSoon => "too soon",
            Refusal::BadRank => "bad rank",
            Refusal::Full => "full",
            Refusal::Empty => "empty",
            Refusal::NoTag => "no tag",
            Refusal::NoPort => "no such port",
            Refusal::BadStrip => "bad strip",
            Refusal::ClockSpent => "clock spent",
            Refusal::NotEmpty => "not empty",
            Refusal::NoHeap => "no such heap",
        }
    }
}

impl fmt::Display for Refusal {
    fn fmt(&self, f: &mut fmt::Formatter<'_>) -> fmt::Result {
        f.write_str(self.name())
    }
}

#[cfg(feature = "std")]
impl std::error::Error for Refusal {}

/// A number of the library's as a result. It is proved that the library has no others.
#[inline]
fn refused(number: u32) -> Result<(), Refusal> {
    match Refusal::of(number) {
        None if number == 0 => Ok(()),
        None => unreachable!("the library has no number {}", number),
        Some(refusal) => Err(refusal),
    }
}
