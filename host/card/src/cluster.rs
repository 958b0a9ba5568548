//! The cluster heap, one operation at a time.

use crate::{calls, cluster_places, refused, Element, Lent, Refusal};

/// A binary heap with several places in each node, over words of any kind: a lent slice, an array, or (with feature `std`) a vector of
/// its own, see [`ClusterQueue`](crate::ClusterQueue).
///
/// K places a node, K from 2 to 16, levels L at least 1, and K × (2^L − 1) elements, at most 5,460, can be held. Its ranks are the
/// tree's. Equal ranks that stand in one node leave by lower tag; in different nodes the order of leaving is the heap's own.
///
/// ```
/// use card_host::{cluster_words, Cluster, Element, Length, Rank, Refusal, Tag};
///
/// # fn main() -> Result<(), Refusal> {
/// let mut memory = [0; cluster_words(2, 2)];
/// let mut queue = Cluster::cleared(2, 2, &mut memory[..])?;
/// for rank in [5, 3, 8, 1] {
///     queue.push(Element::new(Rank(rank), Tag(10 * rank), Length(100 * rank)))?;
/// }
/// assert_eq!(queue.pop()?, Element::new(Rank(1), Tag(10), Length(100)));
/// assert_eq!(queue.held()?, 3);
/// # Ok(())
/// # }
/// ```
#[derive(PartialEq, Eq, Debug)]
pub struct Cluster<W> {
    places: u32,
    levels: u32,
    words: W,
}

impl<W: Lent<u32>> Cluster<W> {
    /// An empty heap: the words that it needs are cleared, those behind them are never touched. Refused [`Refusal::BadShape`] where
    /// places, levels or the number of words ([`cluster_words`](crate::cluster_words)) are not those of a heap; then nothing is written.
    #[inline]
    pub fn cleared(places: u32, levels: u32, words: W) -> Result<Cluster<W>, Refusal> {
        let mut queue = Cluster { places, levels, words };
        queue.clear()?;
        Ok(queue)
    }

    /// A heap over words as they stand, from [`into_words`](Cluster::into_words) or from elsewhere. Nothing is tested here: each call
    /// tests what it reads, and refuses what is damaged.
    #[inline]
    pub fn from_words(places: u32, levels: u32, words: W) -> Cluster<W> {
        Cluster { places, levels, words }
    }

    /// The words, handed back.
    #[inline]
    pub fn into_words(self) -> W {
        self.words
    }

    /// The words: two counts and the places of each node, level by level.
    #[inline]
    pub fn words(&self) -> &[u32] {
        self.words.as_ref()
    }
}

shape! {
    Cluster<W> {
        /// The number of places in a node.
        places,
        /// The number of levels.
        levels,
    } room cluster_places
}

operations! {
    Cluster<W: u32> on (words) of (places, levels): cluster_clear, cluster_push, cluster_pop, cluster_replace, cluster_held
}
