//! The check of a tree's store, and its mending.

use crate::{calls, refused, Lent, Refusal, Tree};
use core::fmt;

/// Why a store does not pass the check.
#[derive(Clone, Copy, PartialEq, Eq, Hash, Debug)]
pub enum Broken {
    /// The first broken slot, from 0 in slice order.
    Slot(u32),
    /// There is nothing to check: [`Refusal::BadShape`].
    Refused(Refusal),
}

impl fmt::Display for Broken {
    fn fmt(&self, f: &mut fmt::Formatter<'_>) -> fmt::Result {
        match self {
            Broken::Slot(slot) => write!(f, "slot {slot} is broken"),
            Broken::Refused(refusal) => write!(f, "{refusal}"),
        }
    }
}

#[cfg(feature = "std")]
impl std::error::Error for Broken {}

/// A mended tree.
#[derive(PartialEq, Eq, Debug)]
pub struct Mended<W> {
    /// It holds every element of the first one's slots with a count not 0, less the skipped, and passes the check.
    pub tree: Tree<W>,
    /// How many slots were skipped, because they have tag 0.
    pub skipped: u32,
}

impl<W: Lent<u32>> Tree<W> {
    /// Whether no slot of the store is broken; else the first that is. What passes is as good as a tree that was only ever used: no call
    /// on it, or on what calls leave of it, is refused as damaged.
    ///
    /// A slot with a count not 0 is broken if that count is not one plus the counts of the node under it, or if its rank is below that of
    /// the slot above it; a slot with count 0, if another of its words is not 0 or a count under it is not 0. The store of a clocked tree
    /// passes once nothing is pending.
    #[inline]
    pub fn check(&self) -> Result<(), Broken> {
        let mut out = [0; 2];
        refused(calls::tree_check(self.words(), self.order(), self.levels(), &mut out)).map_err(Broken::Refused)?;
        match out {
            [1, _] => Ok(()),
            [_, slot] => Err(Broken::Slot(slot)),
        }
    }

    /// Clears the words of a second tree of equal shape and pushes into it, in slice order, every slot of this one with a count not 0;
    /// slots with tag 0 are skipped. This one is left alone. Refused [`Refusal::BadShape`] where order, levels or the number of words of
    /// either are not those of a tree; then nothing is written.
    #[inline]
    pub fn mend<V: Lent<u32>>(&self, mut words: V) -> Result<Mended<V>, Refusal> {
        let mut out = [0; 1];
        refused(calls::tree_mend(self.words(), words.as_mut(), self.order(), self.levels(), &mut out))?;
        Ok(Mended { tree: Tree::from_words(self.order(), self.levels(), words), skipped: out[0] })
    }
}
