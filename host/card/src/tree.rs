//! The multi-way tree, one operation at a time.

use crate::{calls, refused, tree_slots, Element, Lent, Refusal};

/// A multi-way tree over words of any kind: a lent slice, an array, or (with feature `std`) a vector of its own, see
/// [`TreeQueue`](crate::TreeQueue).
///
/// Order M is 2, 4 or 8, levels L at least 1, and M + M² + … + M^L elements, at most 87,380, can be held: up to 15 levels of order 2,
/// 8 of order 4, 5 of order 8. Equal ranks that stand in one node leave by lower tag; in different nodes the order of leaving is the
/// tree's own.
///
/// ```
/// use card_host::{tree_words, Element, Length, Rank, Refusal, Tag, Tree};
///
/// # fn main() -> Result<(), Refusal> {
/// let mut memory = [0; tree_words(2, 2)];
/// let mut queue = Tree::cleared(2, 2, &mut memory[..])?;
/// for rank in [5, 3, 8, 1] {
///     queue.push(Element::new(Rank(rank), Tag(10 * rank), Length(100 * rank)))?;
/// }
/// assert_eq!(queue.pop()?, Element::new(Rank(1), Tag(10), Length(100)));
/// assert_eq!(queue.held()?, 3);
/// # Ok(())
/// # }
/// ```
#[derive(PartialEq, Eq, Debug)]
pub struct Tree<W> {
    order: u32,
    levels: u32,
    words: W,
}

impl<W: Lent<u32>> Tree<W> {
    /// An empty tree: the words that it needs are cleared, those behind them are never touched. Refused [`Refusal::BadShape`] where
    /// order, levels or the number of words ([`tree_words`](crate::tree_words)) are not those of a tree; then nothing is written.
    #[inline]
    pub fn cleared(order: u32, levels: u32, words: W) -> Result<Tree<W>, Refusal> {
        let mut queue = Tree { order, levels, words };
        queue.clear()?;
        Ok(queue)
    }

    /// A tree over words as they stand, from [`into_words`](Tree::into_words) or from elsewhere. Nothing is tested here: each call
    /// tests what it reads, and refuses what is damaged.
    #[inline]
    pub fn from_words(order: u32, levels: u32, words: W) -> Tree<W> {
        Tree { order, levels, words }
    }

    /// The words, handed back.
    #[inline]
    pub fn into_words(self) -> W {
        self.words
    }

    /// The words: rank, tag, length and count of each slot, level by level.
    #[inline]
    pub fn words(&self) -> &[u32] {
        self.words.as_ref()
    }
}

shape! {
    Tree<W> {
        /// The order.
        order,
        /// The number of levels.
        levels,
    } room tree_slots
}

operations! { Tree<W: u32> on (words) of (order, levels): tree_clear, tree_push, tree_pop, tree_replace, tree_held }
