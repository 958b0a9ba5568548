//! Packed heaps side by side, one operation at a time.

use crate::{calls, packed_slots, refused, Element, Lent, Refusal};

/// Up to 256 binary heaps of one size side by side, over words of any kind: a lent slice, an array, or (with feature `std`) a vector of
/// its own, see [`PackedQueue`](crate::PackedQueue).
///
/// Each has levels L, at least 1, and room for 2^L − 1 elements; all heaps together have room for at most 131,071. A heap is worked
/// through its handle ([`heap`](Packed::heap)), and a call at one heap neither reads nor writes the words of another. Its ranks are the
/// tree's; of equal ranks the order of leaving is the heap's own.
///
/// ```
/// use card_host::{packed_words, Element, Length, Packed, Rank, Refusal, Tag};
///
/// # fn main() -> Result<(), Refusal> {
/// let mut memory = [0; packed_words(2, 2)];
/// let mut heaps = Packed::cleared(2, 2, &mut memory[..])?;
/// let strip = |rank| Element::new(Rank(rank), Tag(10 * rank), Length(100 * rank));
/// for rank in [5, 3, 9] {
///     heaps.heap(0).push(strip(rank))?;
/// }
/// heaps.heap(1).push(strip(8))?;
/// assert_eq!(heaps.heap(0).push(strip(1)), Err(Refusal::Full));
/// assert_eq!(heaps.heap(0).pop()?, strip(3));
/// assert_eq!(heaps.heap(1).replace(strip(1))?, strip(8));
/// assert_eq!((heaps.held(0)?, heaps.held(1)?), (2, 1));
/// assert_eq!(heaps.heap(2).pop(), Err(Refusal::NoHeap));
/// # Ok(())
/// # }
/// ```
#[derive(PartialEq, Eq, Debug)]
pub struct Packed<W> {
    heaps: u32,
    levels: u32,
    words: W,
}

/// One heap of several: its calls are those of a queue.
#[derive(Debug)]
pub struct Heap<'a, W> {
    of: &'a mut Packed<W>,
    number: u32,
}

impl<W: Lent<u32>> Packed<W> {
    /// So many empty heaps of these levels: the words that they need are cleared, those behind them are never touched. Refused
    /// [`Refusal::BadShape`] where heaps, levels or the number of words ([`packed_words`](crate::packed_words)) are not those of packed
    /// heaps; then nothing is written.
    #[inline]
    pub fn cleared(heaps: u32, levels: u32, words: W) -> Result<Packed<W>, Refusal> {
        let mut queue = Packed { heaps, levels, words };
        queue.clear()?;
        Ok(queue)
    }

    /// Heaps over words as they stand, from [`into_words`](Packed::into_words) or from elsewhere. Nothing is tested here: each call tests
    /// what it reads, and refuses what is damaged.
    #[inline]
    pub fn from_words(heaps: u32, levels: u32, words: W) -> Packed<W> {
        Packed { heaps, levels, words }
    }

    /// The words, handed back.
    #[inline]
    pub fn into_words(self) -> W {
        self.words
    }

    /// The words: how many each heap holds, then rank, tag and length of each slot, level by level, in a level heap by heap.
    #[inline]
    pub fn words(&self) -> &[u32] {
        self.words.as_ref()
    }

    /// Empties all heaps.
    #[inline]
    pub fn clear(&mut self) -> Result<(), Refusal> {
        refused(calls::packed_clear(self.words.as_mut(), self.heaps, self.levels))
    }

    /// The handle of a heap. Calls at a heap that there is not are refused [`Refusal::NoHeap`].
    #[inline]
    pub fn heap(&mut self, number: u32) -> Heap<'_, W> {
        Heap { of: self, number }
    }

    /// How many elements a heap holds.
    #[inline]
    pub fn held(&self, heap: u32) -> Result<u32, Refusal> {
        let mut out = [0; 1];
        refused(calls::packed_held(self.words.as_ref(), self.heaps, self.levels, heap, &mut out))?;
        Ok(out[0])
    }
}

shape! {
    Packed<W> {
        /// How many heaps there are, numbered from 0.
        heaps,
        /// The number of levels of each.
        levels,
    } room packed_slots
}

impl<W: Lent<u32>> Heap<'_, W> {
    /// How many elements the heap can hold; 0 of a heap that there is not.
    #[inline]
    pub fn capacity(&self) -> usize {
        if self.number >= self.of.heaps {
            return 0;
        }
        self.of.capacity() / self.of.heaps as usize
    }

    /// Takes an element in. Refused [`Refusal::NoTag`] with tag 0, [`Refusal::Full`] where the heap is full.
    #[inline]
    pub fn push(&mut self, x: Element) -> Result<(), Refusal> {
        let Packed { heaps, levels, ref mut words } = *self.of;
        refused(calls::packed_push(words.as_mut(), heaps, levels, self.number, x.rank.0, x.tag.0, x.length.0))
    }

    /// Gives the element of lowest rank. Refused [`Refusal::Empty`] where the heap holds nothing.
    #[inline]
    pub fn pop(&mut self) -> Result<Element, Refusal> {
        let mut out = [0; 3];
        let Packed { heaps, levels, ref mut words } = *self.of;
        refused(calls::packed_pop(words.as_mut(), heaps, levels, self.number, &mut out))?;
        Ok(Element::from(out))
    }

    /// A pop, and then a push of the new element: gives the element of lowest rank, even if the new rank is lower. Works on a full heap.
    /// Refused [`Refusal::NoTag`] with tag 0, [`Refusal::Empty`] where the heap holds nothing.
    #[inline]
    pub fn replace(&mut self, x: Element) -> Result<Element, Refusal> {
        let (rank, tag, length, mut out) = (x.rank.0, x.tag.0, x.length.0, [0; 3]);
        let Packed { heaps, levels, ref mut words } = *self.of;
        refused(calls::packed_replace(words.as_mut(), heaps, levels, self.number, rank, tag, length, &mut out))?;
        Ok(Element::from(out))
    }

    /// How many elements the heap holds.
    #[inline]
    pub fn held(&self) -> Result<u32, Refusal> {
        self.of.held(self.number)
    }
}

queue! { ['a, W: Lent<u32>] Heap<'a, W>: Queue, Replace }
