//! The cluster heap, worked by clock cycles.

use crate::{calls, cluster_places, refused, Drained, Element, Lent, Refusal, Request, Stopped};

/// A pending record: what stands between a level from 2 and the one above it, for the next cycle. This is the library's own layout, so
/// records may lie wherever the card keeps them.
#[repr(C)]
#[derive(Clone, Copy, PartialEq, Eq, Hash, Debug, Default)]
pub struct ClusterRecord {
    /// 0 nothing, 1 put, 2 fill, 3 swap.
    pub kind: u32,
    /// Of a put the node of this level, of a fill or swap that of the level above, from 0.
    pub node: u32,
    /// The place of a fill or swap.
    pub place: u32,
    /// The rank that a put or swap carries.
    pub rank: u32,
    /// The tag that a put or swap carries.
    pub tag: u32,
    /// The length that a put or swap carries.
    pub length: u32,
}

impl From<[u32; 6]> for ClusterRecord {
    /// The record of these numbers: kind, node, place, rank, tag, length.
    #[inline]
    fn from([kind, node, place, rank, tag, length]: [u32; 6]) -> ClusterRecord {
        ClusterRecord { kind, node, place, rank, tag, length }
    }
}

impl From<ClusterRecord> for [u32; 6] {
    /// The record's numbers: kind, node, place, rank, tag, length.
    #[inline]
    fn from(r: ClusterRecord) -> [u32; 6] {
        [r.kind, r.node, r.place, r.rank, r.tag, r.length]
    }
}

/// A clocked cluster heap over words and records of any kind: lent slices, arrays, or (with feature `std`) vectors of its own, see
/// [`ClockedHeap`](crate::ClockedHeap).
///
/// An operation is answered in its own cycle, and the next may start in the next: nothing is ever too soon. Its last write falls within as
/// many cycles as there are levels. The ranks that it answers are those of a plain list in rank order; which of equal ranks leaves
/// first is the heap's own.
///
/// ```
/// use card_host::{cluster_words, record_count, ClockedCluster, ClusterRecord, Element, Length, Rank, Refusal, Tag};
///
/// # fn main() -> Result<(), Refusal> {
/// let (mut words, mut records) = ([0; cluster_words(2, 3)], [ClusterRecord::default(); record_count(3)]);
/// let mut heap = ClockedCluster::cleared(2, 3, &mut words[..], &mut records[..])?;
/// for rank in [5, 3, 8, 1] {
///     heap.push(Element::new(Rank(rank), Tag(10 * rank), Length(100 * rank)))?;
/// }
/// for rank in [1, 3, 5, 8] {
///     assert_eq!(heap.pop()?.rank, Rank(rank));
/// }
/// assert_eq!(heap.drain(3)?.work_left, false);
/// # Ok(())
/// # }
/// ```
#[derive(PartialEq, Eq, Debug)]
pub struct ClockedCluster<W, R> {
    places: u32,
    levels: u32,
    words: W,
    records: R,
}

impl<W: Lent<u32>, R: Lent<ClusterRecord>> ClockedCluster<W, R> {
    /// An empty heap with nothing pending: the words and records that it needs are cleared, those behind them are never touched. Refused
    /// [`Refusal::BadShape`] where places, levels or the number of words ([`cluster_words`](crate::cluster_words)) or records
    /// ([`record_count`](crate::record_count)) are not those of a heap; then nothing is written.
    #[inline]
    pub fn cleared(places: u32, levels: u32, words: W, records: R) -> Result<ClockedCluster<W, R>, Refusal> {
        let mut heap = ClockedCluster { places, levels, words, records };
        heap.clear()?;
        Ok(heap)
    }

    /// A heap over words and records as they stand, from [`into_words`](ClockedCluster::into_words) or from elsewhere. Nothing is tested
    /// here: each call tests what it reads, and refuses what is damaged.
    #[inline]
    pub fn from_words(places: u32, levels: u32, words: W, records: R) -> ClockedCluster<W, R> {
        ClockedCluster { places, levels, words, records }
    }

    /// The words of the nodes and the records, handed back.
    #[inline]
    pub fn into_words(self) -> (W, R) {
        (self.words, self.records)
    }

    /// The words: two counts and the places of each node, level by level.
    #[inline]
    pub fn words(&self) -> &[u32] {
        self.words.as_ref()
    }

    /// The pending records, one for each level from 2.
    #[inline]
    pub fn records(&self) -> &[ClusterRecord] {
        self.records.as_ref()
    }
}

shape! {
    ClockedCluster<W, R> {
        /// The number of places in a node.
        places,
        /// The number of levels.
        levels,
    } room cluster_places
}

cycles! {
    ClockedCluster<W: u32, R: ClusterRecord> on (words) of (places, levels) pending (records):
        clocked_cluster_clear, clocked_cluster_cycle, clocked_cluster_drain, clocked_cluster_held
}
