//! Queues that own their stores.

use crate::{
    bucket_bits, bucket_words, cluster_words, fair_words, lines_words, packed_words, ports_bits, ports_words,
    record_count, tree_words, Bucket, Clocked, ClockedCluster, ClockedLines, Cluster, ClusterRecord, Fair, Limits,
    Lines, Packed, Ports, Record, Refusal, Tree,
};
use std::vec;
use std::vec::Vec;

/// A multi-way tree with a store of its own. Everything else is [`Tree`]'s.
///
/// ```
/// use card_host::{Element, Length, Rank, Refusal, Tag, TreeQueue};
///
/// # fn main() -> Result<(), Refusal> {
/// let mut queue = TreeQueue::new(4, 3)?;
/// queue.push(Element::new(Rank(5), Tag(50), Length(1500)))?;
/// let words = queue.into_words();
/// let mut again = TreeQueue::from_words(4, 3, words);
/// assert_eq!(again.pop()?, Element::new(Rank(5), Tag(50), Length(1500)));
/// # Ok(())
/// # }
/// ```
pub type TreeQueue = Tree<Vec<u32>>;

impl TreeQueue {
    /// An empty tree, its store allocated.
    pub fn new(order: u32, levels: u32) -> Result<TreeQueue, Refusal> {
        Tree::cleared(order, levels, vec![0; tree_words(order, levels)])
    }
}

/// Fair ranks with a state and a store of their own. Everything else is [`Fair`]'s.
///
/// ```
/// use card_host::{FairQueue, Flow, Length, Refusal, Tag, Weight};
///
/// # fn main() -> Result<(), Refusal> {
/// let mut queue = FairQueue::new(4, 3)?;
/// queue.push(Flow(0), Weight(1), Tag(50), Length(1500))?;
/// let (state, words) = queue.into_words();
/// let mut again = FairQueue::from_words(4, 3, state, words);
/// assert_eq!(again.pop()?.tag, Tag(50));
/// # Ok(())
/// # }
/// ```
pub type FairQueue = Fair<Vec<u32>, Vec<u32>>;

impl FairQueue {
    /// Nothing held, clock and finishes 0, state and store allocated.
    pub fn new(order: u32, levels: u32) -> Result<FairQueue, Refusal> {
        Fair::cleared(order, levels, vec![0; fair_words()], vec![0; tree_words(order, levels)])
    }
}

/// A cluster heap with a store of its own. Everything else is [`Cluster`]'s.
///
/// ```
/// use card_host::{ClusterQueue, Element, Length, Rank, Refusal, Tag};
///
/// # fn main() -> Result<(), Refusal> {
/// let mut queue = ClusterQueue::new(4, 3)?;
/// queue.push(Element::new(Rank(5), Tag(50), Length(1500)))?;
/// assert_eq!(queue.pop()?, Element::new(Rank(5), Tag(50), Length(1500)));
/// # Ok(())
/// # }
/// ```
pub type ClusterQueue = Cluster<Vec<u32>>;

impl ClusterQueue {
    /// An empty heap, its store allocated.
    pub fn new(places: u32, levels: u32) -> Result<ClusterQueue, Refusal> {
        Cluster::cleared(places, levels, vec![0; cluster_words(places, levels)])
    }
}

/// Packed heaps with a store of their own. Everything else is [`Packed`]'s.
///
/// ```
/// use card_host::{Element, Length, PackedQueue, Rank, Refusal, Tag};
///
/// # fn main() -> Result<(), Refusal> {
/// let mut heaps = PackedQueue::new(5, 6)?;
/// heaps.heap(4).push(Element::new(Rank(7), Tag(1), Length(64)))?;
/// let mut again = PackedQueue::from_words(5, 6, heaps.into_words());
/// assert_eq!((again.held(4)?, again.held(0)?), (1, 0));
/// # Ok(())
/// # }
/// ```
pub type PackedQueue = Packed<Vec<u32>>;

impl PackedQueue {
    /// So many empty heaps of these levels, their store allocated.
    pub fn new(heaps: u32, levels: u32) -> Result<PackedQueue, Refusal> {
        Packed::cleared(heaps, levels, vec![0; packed_words(heaps, levels)])
    }
}

/// A bucket queue with a store of its own. Everything else is [`Bucket`]'s.
///
/// ```
/// use card_host::{BucketQueue, Element, Length, Rank, Refusal, Tag};
///
/// # fn main() -> Result<(), Refusal> {
/// let mut queue = BucketQueue::new(2, 100)?;
/// queue.push(Element::new(Rank(7), Tag(1), Length(64)))?;
/// let (bits, words) = queue.into_words();
/// let mut again = BucketQueue::from_words(2, 100, bits, words);
/// assert_eq!(again.pop()?, Element::new(Rank(7), Tag(1), Length(64)));
/// # Ok(())
/// # }
/// ```
pub type BucketQueue = Bucket<Vec<u64>, Vec<u32>>;

impl BucketQueue {
    /// An empty queue with two or three storeys and a pool of 1 to 65,536 nodes, its store allocated.
    pub fn new(storeys: u32, nodes: u32) -> Result<BucketQueue, Refusal> {
        Bucket::cleared(storeys, nodes, vec![0; bucket_bits(storeys)], vec![0; bucket_words(storeys, nodes)])
    }
}

/// Several ports with a pool of their own. Everything else is [`Ports`]'s.
///
/// ```
/// use card_host::{Element, Length, Limits, PortsQueue, Rank, Refusal, Tag};
///
/// # fn main() -> Result<(), Refusal> {
/// let mut halls = PortsQueue::new(2, 100, &[Limits { floor: 10, ceiling: 100 }; 5])?;
/// halls.port(4).push(Element::new(Rank(7), Tag(1), Length(64)))?;
/// assert_eq!((halls.held(4)?, halls.held(0)?), (1, 0));
/// # Ok(())
/// # }
/// ```
pub type PortsQueue = Ports<Vec<u64>, Vec<u32>>;

impl PortsQueue {
    /// Empty ports, one for each of the limits, with two or three storeys and a pool of 1 to 65,536 nodes, their store allocated.
    pub fn new(storeys: u32, nodes: u32, limits: &[Limits]) -> Result<PortsQueue, Refusal> {
        let ports = limits.len().min(u32::MAX as usize) as u32;
        let (bits, words) = (ports_bits(storeys, ports), ports_words(storeys, nodes, ports));
        Ports::cleared(storeys, nodes, limits, vec![0; bits], vec![0; words])
    }
}

/// A clocked tree with store and records of its own. Everything else is [`Clocked`]'s.
///
/// ```
/// use card_host::{ClockedTree, Element, Length, Rank, Refusal, Tag};
///
/// # fn main() -> Result<(), Refusal> {
/// let mut tree = ClockedTree::new(2, 3)?;
/// tree.push(Element::new(Rank(5), Tag(50), Length(1500)))?;
/// let (words, records, mark) = tree.into_words();
/// let mut again = ClockedTree::from_words(2, 3, words, records, mark);
/// assert_eq!(again.pop(), Err(Refusal::TooSoon));
/// assert_eq!(again.pop()?, Element::new(Rank(5), Tag(50), Length(1500)));
/// # Ok(())
/// # }
/// ```
pub type ClockedTree = Clocked<Vec<u32>, Vec<Record>>;

impl ClockedTree {
    /// An empty tree with nothing pending and the mark off, its store and records allocated.
    pub fn new(order: u32, levels: u32) -> Result<ClockedTree, Refusal> {
        let words = tree_words(order, levels);
        let records = if words == 0 { 0 } else { record_count(levels) };
        Clocked::cleared(order, levels, vec![0; words], vec![Record::default(); records])
    }
}

/// A clocked cluster heap with store and records of its own. Everything else is [`ClockedCluster`]'s.
///
/// ```
/// use card_host::{ClockedHeap, Element, Length, Rank, Refusal, Tag};
///
/// # fn main() -> Result<(), Refusal> {
/// let mut heap = ClockedHeap::new(2, 3)?;
/// heap.push(Element::new(Rank(5), Tag(50), Length(1500)))?;
/// // nothing is ever too soon
/// assert_eq!(heap.pop()?, Element::new(Rank(5), Tag(50), Length(1500)));
/// # Ok(())
/// # }
/// ```
pub type ClockedHeap = ClockedCluster<Vec<u32>, Vec<ClusterRecord>>;

impl ClockedHeap {
    /// An empty heap with nothing pending, its store and records allocated.
    pub fn new(places: u32, levels: u32) -> Result<ClockedHeap, Refusal> {
        let words = cluster_words(places, levels);
        let records = if words == 0 { 0 } else { record_count(levels) };
        ClockedCluster::cleared(places, levels, vec![0; words], vec![ClusterRecord::default(); records])
    }
}

/// Sorted lines with a store of their own. Everything else is [`Lines`]'s.
///
/// ```
/// use card_host::{Element, Length, LinesQueue, Rank, Refusal, Tag};
///
/// # fn main() -> Result<(), Refusal> {
/// let mut queue = LinesQueue::new(2, 4, 64)?;
/// queue.push(Element::new(Rank(5), Tag(50), Length(1500)))?;
/// let words = queue.into_words();
/// let mut again = LinesQueue::from_words(2, 4, 64, words);
/// assert_eq!(again.pop()?, Element::new(Rank(5), Tag(50), Length(1500)));
/// # Ok(())
/// # }
/// ```
pub type LinesQueue = Lines<Vec<u32>>;

impl LinesQueue {
    /// Empty lines of kind 1 or 2, their store allocated.
    pub fn new(kind: u32, lines: u32, places: u32) -> Result<LinesQueue, Refusal> {
        Lines::cleared(kind, lines, places, vec![0; lines_words(kind, lines, places)])
    }
}

/// Clocked lines with store and record of their own. Everything else is [`ClockedLines`]'s.
///
/// ```
/// use card_host::{ClockedLinesQueue, Element, Length, Rank, Refusal, Tag};
///
/// # fn main() -> Result<(), Refusal> {
/// let mut lines = ClockedLinesQueue::new(1, 4, 64)?;
/// lines.push(Element::new(Rank(5), Tag(50), Length(1500)))?;
/// // nothing is ever too soon
/// assert_eq!(lines.pop()?, Element::new(Rank(5), Tag(50), Length(1500)));
/// # Ok(())
/// # }
/// ```
pub type ClockedLinesQueue = ClockedLines<Vec<u32>, Vec<Record>>;

impl ClockedLinesQueue {
    /// Empty lines of kind 1 or 2 with nothing pending, their store and record allocated.
    pub fn new(kind: u32, lines: u32, places: u32) -> Result<ClockedLinesQueue, Refusal> {
        ClockedLines::cleared(kind, lines, places, vec![0; lines_words(kind, lines, places)], vec![Record::default()])
    }
}
