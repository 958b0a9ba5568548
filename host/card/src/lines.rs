//! Sorted lines, one operation at a time.

use crate::{calls, lines_room, refused, Element, Lent, Refusal};

/// Sorted lines over words of any kind: a lent slice, an array, or (with feature `std`) a vector of its own, see
/// [`LinesQueue`](crate::LinesQueue).
///
/// There are Q lines of W places each, Q a power of two from 1 to 512, W from 1 to 1,024. Kind 1 is a queue a line with strict priority:
/// ranks are 0 to 65,535, each line has as many of them as every other, equal ranks leave first in, first out, and a push is
/// [`Refusal::Full`] where the line of its rank is. Kind 2 is one queue over all lines, of any rank; first in, first out holds within a line.
/// With one line both are a single sorted row.
///
/// ```
/// use card_host::{lines_words, Element, Length, Lines, Rank, Refusal, Tag};
///
/// # fn main() -> Result<(), Refusal> {
/// let mut memory = [0; lines_words(1, 2, 3)];
/// let mut queue = Lines::cleared(1, 2, 3, &mut memory[..])?;
/// for (rank, tag) in [(5, 50), (40_000, 40), (3, 30), (5, 51)] {
///     queue.push(Element::new(Rank(rank), Tag(tag), Length(10 * tag)))?;
/// }
/// // the line of ranks below 32,768 has three places
/// assert_eq!(queue.push(Element::new(Rank(6), Tag(60), Length(600))), Err(Refusal::Full));
/// for tag in [30, 50, 51, 40] {
///     assert_eq!(queue.pop()?.tag, Tag(tag));
/// }
/// assert_eq!(queue.push(Element::new(Rank(65_536), Tag(1), Length(1))), Err(Refusal::BadRank));
/// # Ok(())
/// # }
/// ```
#[derive(PartialEq, Eq, Debug)]
pub struct Lines<W> {
    kind: u32,
    lines: u32,
    places: u32,
    words: W,
}

impl<W: Lent<u32>> Lines<W> {
    /// Empty lines: the words that they need are cleared, those behind them are never touched. Refused [`Refusal::BadShape`] where kind,
    /// lines, places or the number of words ([`lines_words`](crate::lines_words)) are not those of lines; then nothing is written.
    #[inline]
    pub fn cleared(kind: u32, lines: u32, places: u32, words: W) -> Result<Lines<W>, Refusal> {
        let mut queue = Lines { kind, lines, places, words };
        queue.clear()?;
        Ok(queue)
    }

    /// Lines over words as they stand, from [`into_words`](Lines::into_words) or from elsewhere. Nothing is tested here: each call
    /// tests what it reads, and refuses what is damaged.
    #[inline]
    pub fn from_words(kind: u32, lines: u32, places: u32, words: W) -> Lines<W> {
        Lines { kind, lines, places, words }
    }

    /// The words, handed back.
    #[inline]
    pub fn into_words(self) -> W {
        self.words
    }

    /// The words: the count of each line, then rank, tag and length of each place, line by line.
    #[inline]
    pub fn words(&self) -> &[u32] {
        self.words.as_ref()
    }
}

shape! {
    Lines<W> {
        /// The kind: 1, a queue a line, or 2, one queue over all lines.
        kind,
        /// The number of lines.
        lines,
        /// The number of places in a line.
        places,
    } room lines_room
}

operations! { Lines<W: u32> on (words) of (kind, lines, places): lines_clear, lines_push, lines_pop, lines_replace, lines_held }
