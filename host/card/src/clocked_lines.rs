//! Sorted lines, worked by clock cycles.

use crate::{calls, lines_room, refused, Drained, Element, Lent, Record, Refusal, Request, Stopped};

/// Clocked lines over words and a record of any kind: lent slices, arrays, or (with feature `std`) vectors of its own, see
/// [`ClockedLinesQueue`](crate::ClockedLinesQueue).
///
/// An operation is answered in its own cycle, as [`Lines`](crate::Lines) answers it, and the next may start in the next: nothing is ever
/// too soon. The counts change at once, the line in the next cycle; one idle cycle leaves the words of the lines worked one at a time.
/// The one pending [`Record`] has the line as its node, and its kinds are 1 push, 2 pop, 3 replace.
///
/// ```
/// use card_host::{lines_words, ClockedLines, Element, Length, Rank, Record, Refusal, Tag};
///
/// # fn main() -> Result<(), Refusal> {
/// let (mut words, mut record) = ([0; lines_words(1, 2, 3)], [Record::default(); 1]);
/// let mut lines = ClockedLines::cleared(1, 2, 3, &mut words[..], &mut record[..])?;
/// for (rank, tag) in [(5, 50), (40_000, 40), (3, 30), (5, 51)] {
///     lines.push(Element::new(Rank(rank), Tag(tag), Length(10 * tag)))?;
/// }
/// for tag in [30, 50, 51, 40] {
///     assert_eq!(lines.pop()?.tag, Tag(tag));
/// }
/// assert_eq!(lines.drain(1)?.work_left, false);
/// # Ok(())
/// # }
/// ```
#[derive(PartialEq, Eq, Debug)]
pub struct ClockedLines<W, R> {
    kind: u32,
    lines: u32,
    places: u32,
    words: W,
    record: R,
}

impl<W: Lent<u32>, R: Lent<Record>> ClockedLines<W, R> {
    /// Empty lines with nothing pending: the words and the record that they need are cleared, those behind them are never touched. Refused
    /// [`Refusal::BadShape`] where kind, lines, places or the number of words ([`lines_words`](crate::lines_words)) are not those of lines,
    /// or there is no record; then nothing is written.
    #[inline]
    pub fn cleared(kind: u32, lines: u32, places: u32, words: W, record: R) -> Result<ClockedLines<W, R>, Refusal> {
        let mut machine = ClockedLines { kind, lines, places, words, record };
        machine.clear()?;
        Ok(machine)
    }

    /// Lines over words and a record as they stand, from [`into_words`](ClockedLines::into_words) or from elsewhere. Nothing is tested
    /// here: each call tests what it reads, and refuses what is damaged.
    #[inline]
    pub fn from_words(kind: u32, lines: u32, places: u32, words: W, record: R) -> ClockedLines<W, R> {
        ClockedLines { kind, lines, places, words, record }
    }

    /// The words of the lines and the record, handed back.
    #[inline]
    pub fn into_words(self) -> (W, R) {
        (self.words, self.record)
    }

    /// The words: the count of each line, then rank, tag and length of each place, line by line.
    #[inline]
    pub fn words(&self) -> &[u32] {
        self.words.as_ref()
    }

    /// The pending record, and whatever stands behind it.
    #[inline]
    pub fn record(&self) -> &[Record] {
        self.record.as_ref()
    }
}

shape! {
    ClockedLines<W, R> {
        /// The kind: 1, a queue a line, or 2, one queue over all lines.
        kind,
        /// The number of lines.
        lines,
        /// The number of places in a line.
        places,
    } room lines_room
}

cycles! {
    ClockedLines<W: u32, R: Record> on (words) of (kind, lines, places) pending (record):
        lines_clock_clear, lines_clock_cycle, lines_clock_drain, lines_clock_held
}
