//! The bucket queue.

use crate::sizes::bucket_room;
use crate::{calls, refused, Element, Lent, Refusal};

/// A bucket queue over words of any kind: lent slices, arrays, or (with feature `std`) vectors of its own, see
/// [`BucketQueue`](crate::BucketQueue).
///
/// With two storeys of bits ranks are 0 to 4,095, with three 0 to 262,143; there is no other depth. Within a rank the first in is the
/// first out. Up to N elements are held, N from 1 to 65,536.
///
/// ```
/// use card_host::{bucket_bits, bucket_words, Bucket, Element, Length, Rank, Refusal, Tag};
///
/// # fn main() -> Result<(), Refusal> {
/// let (mut bits, mut words) = ([0; bucket_bits(2)], [0; bucket_words(2, 3)]);
/// let mut queue = Bucket::cleared(2, 3, &mut bits[..], &mut words[..])?;
/// queue.push(Element::new(Rank(7), Tag(1), Length(64)))?;
/// queue.push(Element::new(Rank(7), Tag(2), Length(1500)))?;
/// assert_eq!(queue.pop()?, Element::new(Rank(7), Tag(1), Length(64)));
/// assert_eq!(queue.push(Element::new(Rank(4096), Tag(3), Length(40))), Err(Refusal::BadRank));
/// # Ok(())
/// # }
/// ```
#[derive(PartialEq, Eq, Debug)]
pub struct Bucket<B, W> {
    storeys: u32,
    nodes: u32,
    bits: B,
    words: W,
}

impl<B: Lent<u64>, W: Lent<u32>> Bucket<B, W> {
    /// An empty queue with so many storeys and a pool of so many nodes: the words that it needs are cleared and chained, those behind
    /// them are never touched. Refused [`Refusal::BadShape`] where the storeys, the nodes or the number of words
    /// ([`bucket_bits`](crate::bucket_bits), [`bucket_words`](crate::bucket_words)) are not those of a queue; then nothing is written.
    #[inline]
    pub fn cleared(storeys: u32, nodes: u32, bits: B, words: W) -> Result<Bucket<B, W>, Refusal> {
        let mut queue = Bucket { storeys, nodes, bits, words };
        queue.clear()?;
        Ok(queue)
    }

    /// A queue over words as they stand, from [`into_words`](Bucket::into_words) or from elsewhere. Nothing is tested here: each call
    /// tests what it reads, and refuses what is damaged.
    #[inline]
    pub fn from_words(storeys: u32, nodes: u32, bits: B, words: W) -> Bucket<B, W> {
        Bucket { storeys, nodes, bits, words }
    }

    /// The words of 64 and of 32 bits, handed back.
    #[inline]
    pub fn into_words(self) -> (B, W) {
        (self.bits, self.words)
    }

    /// The words of 64 bits: top, middle, lowest.
    #[inline]
    pub fn bits(&self) -> &[u64] {
        self.bits.as_ref()
    }

    /// The words of 32 bits: heads, tails, tag, length and next of each node, free link, held.
    #[inline]
    pub fn words(&self) -> &[u32] {
        self.words.as_ref()
    }
}

shape! {
    Bucket<B, W> {
        /// The number of storeys of bits.
        storeys,
        /// The number of nodes in the pool.
        nodes,
    } room bucket_room
}

operations! {
    Bucket<B: u64, W: u32> on (bits, words) of (storeys, nodes): bucket_clear, bucket_push, bucket_pop, bucket_replace, bucket_held
}
