//! Ranks from weights, above the tree.

use crate::{calls, fair_words, refused, tree_slots, Element, Length, Lent, Queue, Rank, Refusal, Tag};

/// A flow: 0 to 63.
#[derive(Clone, Copy, PartialEq, Eq, Hash, Debug, Default)]
pub struct Flow(pub u32);

/// A weight: 1 to 1,024. A flow of twice the weight is served twice the cells.
#[derive(Clone, Copy, PartialEq, Eq, Hash, Debug, Default)]
pub struct Weight(pub u32);

/// A strip of a flow: what a push takes in. Its rank comes from its weight and its length.
#[derive(Clone, Copy, PartialEq, Eq, Hash, Debug, Default)]
pub struct Strip {
    /// Whose it is.
    pub flow: Flow,
    /// How much of the line its flow is to have.
    pub weight: Weight,
    /// What it is.
    pub tag: Tag,
    /// How long it is.
    pub length: Length,
}

/// Fair ranks over words of any kind: lent slices, arrays, or (with feature `std`) vectors of its own, see
/// [`FairQueue`](crate::FairQueue).
///
/// Up to 64 flows share one tree. A strip's length, 1 to 9,216 bytes, counts in cells of 64 bytes, rounded up; its step is 65,536 / weight,
/// rounded down. Its rank is its finish: the larger of the clock and its flow's last finish, plus cells times step. The clock becomes
/// the rank of what is popped. While two flows keep their weights and always have something waiting, the cells served of each, times its
/// step, differ by no more than one longest strip of each.
///
/// Store and state belong together: from a reset on, nothing but these calls may change them.
///
/// ```
/// use card_host::{fair_words, tree_words, Fair, Flow, Length, Rank, Refusal, Tag, Weight};
///
/// # fn main() -> Result<(), Refusal> {
/// let (mut state, mut words) = ([0; fair_words()], [0; tree_words(2, 3)]);
/// let mut queue = Fair::cleared(2, 3, &mut state[..], &mut words[..])?;
/// for tag in 1..=4 {
///     queue.push(Flow(0), Weight(1), Tag(tag), Length(64))?;
///     queue.push(Flow(1), Weight(3), Tag(10 * tag), Length(64))?;
/// }
/// // flow 1 has three times the weight
/// for tag in [10, 20, 30, 1] {
///     assert_eq!(queue.pop()?.tag, Tag(tag));
/// }
/// assert_eq!((queue.clock(), queue.held()?), (Rank(65_536), 4));
/// assert_eq!(queue.reset(), Err(Refusal::NotEmpty));
/// assert_eq!(queue.push(Flow(64), Weight(1), Tag(5), Length(64)), Err(Refusal::BadStrip));
/// # Ok(())
/// # }
/// ```
#[derive(PartialEq, Eq, Debug)]
pub struct Fair<S, W> {
    order: u32,
    levels: u32,
    state: S,
    words: W,
}

impl<S: Lent<u32>, W: Lent<u32>> Fair<S, W> {
    /// Nothing held, clock and finishes 0: the words that are needed are cleared, those behind them are never touched. Refused
    /// [`Refusal::BadShape`] where order, levels or the number of words ([`fair_words`](crate::fair_words),
    /// [`tree_words`](crate::tree_words)) are not those of a tree and a state; then nothing is written.
    #[inline]
    pub fn cleared(order: u32, levels: u32, state: S, words: W) -> Result<Fair<S, W>, Refusal> {
        let mut queue = Fair { order, levels, state, words };
        queue.clear()?;
        Ok(queue)
    }

    /// Fair ranks over state and words as they stand, from [`into_words`](Fair::into_words) or from elsewhere. Nothing is tested here:
    /// each call tests what it reads, and refuses what is damaged.
    #[inline]
    pub fn from_words(order: u32, levels: u32, state: S, words: W) -> Fair<S, W> {
        Fair { order, levels, state, words }
    }

    /// The state and the tree's words, handed back.
    #[inline]
    pub fn into_words(self) -> (S, W) {
        (self.state, self.words)
    }

    /// The state: the clock, then the last finish of each flow.
    #[inline]
    pub fn state(&self) -> &[u32] {
        self.state.as_ref()
    }

    /// The words of the tree below: rank, tag, length and count of each slot, level by level.
    #[inline]
    pub fn words(&self) -> &[u32] {
        self.words.as_ref()
    }

    /// The clock: the rank of what was popped last, 0 after a reset.
    #[inline]
    pub fn clock(&self) -> Rank {
        Rank(self.state.as_ref().first().copied().unwrap_or(0))
    }

    /// Empties the tree, whatever it holds, and resets.
    #[inline]
    pub fn clear(&mut self) -> Result<(), Refusal> {
        // the tree is left alone where the reset behind it would be refused
        if self.state.as_ref().len() < fair_words() {
            return Err(Refusal::BadShape);
        }
        refused(calls::tree_clear(self.words.as_mut(), self.order, self.levels))?;
        self.reset()
    }

    /// Sets the clock and all finishes to 0. Refused [`Refusal::NotEmpty`] while anything is held, [`Refusal::Damaged`] where the tree's root
    /// is damaged.
    #[inline]
    pub fn reset(&mut self) -> Result<(), Refusal> {
        refused(calls::fair_reset(self.state.as_mut(), self.words.as_ref(), self.order, self.levels))
    }

    /// Takes a strip of a flow in. Refused [`Refusal::BadStrip`] for a flow, weight or length outside the limits,
    /// [`Refusal::ClockSpent`] where its finish is above the highest rank, [`Refusal::NoTag`] with tag 0, [`Refusal::Full`] where there
    /// is no room.
    #[inline]
    pub fn push(&mut self, flow: Flow, weight: Weight, tag: Tag, length: Length) -> Result<(), Refusal> {
        let (state, words) = (self.state.as_mut(), self.words.as_mut());
        refused(calls::fair_push(state, words, self.order, self.levels, flow.0, weight.0, tag.0, length.0))
    }

    /// Gives the strip of lowest rank, which the clock becomes. Refused [`Refusal::Empty`] where nothing is held.
    #[inline]
    pub fn pop(&mut self) -> Result<Element, Refusal> {
        let (state, words, mut out) = (self.state.as_mut(), self.words.as_mut(), [0; 3]);
        refused(calls::fair_pop(state, words, self.order, self.levels, &mut out))?;
        Ok(Element::from(out))
    }

    /// How many strips are held.
    #[inline]
    pub fn held(&self) -> Result<u32, Refusal> {
        let mut out = [0; 1];
        refused(calls::fair_held(self.words.as_ref(), self.order, self.levels, &mut out))?;
        Ok(out[0])
    }
}

shape! {
    Fair<S, W> {
        /// The tree's order.
        order,
        /// The tree's number of levels.
        levels,
    } room tree_slots
}

impl<S: Lent<u32>, W: Lent<u32>> Queue for Fair<S, W> {
    type Pushed = Strip;
    #[inline]
    fn push(&mut self, x: Strip) -> Result<(), Refusal> {
        self.push(x.flow, x.weight, x.tag, x.length)
    }
    #[inline]
    fn pop(&mut self) -> Result<Element, Refusal> {
        self.pop()
    }
    #[inline]
    fn held(&self) -> Result<u32, Refusal> {
        self.held()
    }
    #[inline]
    fn capacity(&self) -> usize {
        self.capacity()
    }
}

queue! { [S: Lent<u32>, W: Lent<u32>] Fair<S, W>: Clear }
