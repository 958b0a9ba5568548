//! Several ports on one pool of the bucket queue.

use crate::sizes::{ports_room, PORTS};
use crate::{bucket_ranks, calls, refused, Element, Lent, Refusal};

/// What a port may count on, and what it may not pass.
#[derive(Clone, Copy, PartialEq, Eq, Hash, Debug)]
pub struct Limits {
    /// So many elements it can always hold, whatever the others do.
    pub floor: u32,
    /// It never holds more; at least the floor, and it may be above the number of nodes.
    pub ceiling: u32,
}

/// Up to 16 ports, each a bucket queue with ranks of its own, over one pool of nodes: over words of any kind, lent slices, arrays, or
/// (with feature `std`) vectors of its own, see [`PortsQueue`](crate::PortsQueue).
///
/// A port is worked through its handle ([`port`](Ports::port)). A push is accepted where the port holds less than its floor, or less than
/// its ceiling while the nodes less the larger of held and floor of each port leave something; else it is full. So no port can keep
/// another from its floor.
///
/// ```
/// use card_host::{ports_bits, ports_words, Element, Length, Limits, Ports, Rank, Refusal, Tag};
///
/// # fn main() -> Result<(), Refusal> {
/// let (mut bits, mut words) = ([0; ports_bits(2, 2)], [0; ports_words(2, 3, 2)]);
/// let limits = [Limits { floor: 1, ceiling: 3 }, Limits { floor: 0, ceiling: 3 }];
/// let mut halls = Ports::cleared(2, 3, &limits, &mut bits[..], &mut words[..])?;
/// let strip = |tag| Element::new(Rank(7), Tag(tag), Length(64));
/// halls.port(1).push(strip(1))?;
/// halls.port(1).push(strip(2))?;
/// // the third node is port 0's
/// assert_eq!(halls.port(1).push(strip(3)), Err(Refusal::Full));
/// halls.port(0).push(strip(4))?;
/// assert_eq!(halls.port(1).pop()?, strip(1));
/// assert_eq!(halls.port(2).pop(), Err(Refusal::NoPort));
/// # Ok(())
/// # }
/// ```
#[derive(PartialEq, Eq, Debug)]
pub struct Ports<B, W> {
    storeys: u32,
    nodes: u32,
    ports: u32,
    bits: B,
    words: W,
}

/// One port of several: its calls are those of a bucket queue.
#[derive(Debug)]
pub struct Port<'a, B, W> {
    of: &'a mut Ports<B, W>,
    number: u32,
}

impl<B: Lent<u64>, W: Lent<u32>> Ports<B, W> {
    /// Empty ports, one for each of the limits, with so many storeys and one pool of so many nodes: the words that they need are cleared
    /// and chained, those behind them are never touched. Refused [`Refusal::BadShape`] where the storeys, the nodes, the limits or the
    /// number of words ([`ports_bits`](crate::ports_bits), [`ports_words`](crate::ports_words)) are not those of ports; then nothing is
    /// written.
    #[inline]
    pub fn cleared(storeys: u32, nodes: u32, limits: &[Limits], bits: B, words: W) -> Result<Ports<B, W>, Refusal> {
        let ports = limits.len().min(u32::MAX as usize) as u32;
        let mut queue = Ports { storeys, nodes, ports, bits, words };
        queue.clear(limits)?;
        Ok(queue)
    }

    /// Ports over words as they stand, from [`into_words`](Ports::into_words) or from elsewhere; their limits stand in the words. Nothing
    /// is tested here: each call tests what it reads, and refuses what is damaged.
    #[inline]
    pub fn from_words(storeys: u32, nodes: u32, ports: u32, bits: B, words: W) -> Ports<B, W> {
        Ports { storeys, nodes, ports, bits, words }
    }

    /// The words of 64 and of 32 bits, handed back.
    #[inline]
    pub fn into_words(self) -> (B, W) {
        (self.bits, self.words)
    }

    /// The words of 64 bits: port after port, each top, middle, lowest.
    #[inline]
    pub fn bits(&self) -> &[u64] {
        self.bits.as_ref()
    }

    /// The words of 32 bits: heads and tails of each port, the nodes, the free link, then held, floor and ceiling of each port.
    #[inline]
    pub fn words(&self) -> &[u32] {
        self.words.as_ref()
    }

    /// A port's floor and ceiling, as the words have them; none of a port that there is not.
    #[inline]
    pub fn limits(&self, port: u32) -> Option<Limits> {
        if port >= self.ports {
            return None;
        }
        // behind the heads and tails, the nodes and the free link: held, floor and ceiling of each port
        let before = 2 * bucket_ranks(self.storeys) as u64 * self.ports as u64 + 3 * self.nodes as u64 + 1;
        let at = usize::try_from(before + 3 * port as u64 + 1).ok()?;
        match self.words().get(at..)? {
            [floor, ceiling, ..] => Some(Limits { floor: *floor, ceiling: *ceiling }),
            _ => None,
        }
    }

    /// Empties all ports and fixes their limits anew, one for each port that there is.
    #[inline]
    pub fn clear(&mut self, limits: &[Limits]) -> Result<(), Refusal> {
        if limits.len() != self.ports as usize {
            return Err(Refusal::BadShape);
        }
        // more than are taken are refused by their number
        let mut pairs = [0; 2 * PORTS];
        for (pair, limit) in pairs.chunks_exact_mut(2).zip(limits) {
            pair.copy_from_slice(&[limit.floor, limit.ceiling]);
        }
        let (bits, words) = (self.bits.as_mut(), self.words.as_mut());
        refused(calls::ports_clear(bits, words, self.storeys, self.nodes, self.ports, &pairs))
    }

    /// The handle of a port. Calls at a port that there is not are refused [`Refusal::NoPort`].
    #[inline]
    pub fn port(&mut self, number: u32) -> Port<'_, B, W> {
        Port { of: self, number }
    }

    /// How many elements a port holds.
    #[inline]
    pub fn held(&self, port: u32) -> Result<u32, Refusal> {
        let (bits, words, mut out) = (self.bits.as_ref(), self.words.as_ref(), [0; 1]);
        refused(calls::ports_held(bits, words, self.storeys, self.nodes, self.ports, port, &mut out))?;
        Ok(out[0])
    }
}

shape! {
    Ports<B, W> {
        /// The number of storeys of bits.
        storeys,
        /// The number of nodes in the pool.
        nodes,
        /// How many ports there are, numbered from 0.
        ports,
    } room ports_room
}

impl<B: Lent<u64>, W: Lent<u32>> Port<'_, B, W> {
    /// How many elements the port can hold, where the others leave it room: its ceiling, or the pool's nodes where they are fewer; 0 of a
    /// port that there is not.
    #[inline]
    pub fn capacity(&self) -> usize {
        self.of.limits(self.number).map_or(0, |limits| self.of.capacity().min(limits.ceiling as usize))
    }

    /// Takes an element in, behind those of its rank. Refused [`Refusal::BadRank`] above the last rank, [`Refusal::NoTag`] with
    /// tag 0, [`Refusal::Full`] where the port's limits and the pool leave no room.
    #[inline]
    pub fn push(&mut self, x: Element) -> Result<(), Refusal> {
        let Ports { storeys, nodes, ports, .. } = *self.of;
        let (bits, words) = (self.of.bits.as_mut(), self.of.words.as_mut());
        refused(calls::ports_push(bits, words, storeys, nodes, ports, self.number, x.rank.0, x.tag.0, x.length.0))
    }

    /// Gives the first element of the lowest rank. Refused [`Refusal::Empty`] where the port holds nothing.
    #[inline]
    pub fn pop(&mut self) -> Result<Element, Refusal> {
        let Ports { storeys, nodes, ports, .. } = *self.of;
        let (bits, words, mut out) = (self.of.bits.as_mut(), self.of.words.as_mut(), [0; 3]);
        refused(calls::ports_pop(bits, words, storeys, nodes, ports, self.number, &mut out))?;
        Ok(Element::from(out))
    }

    /// A pop, and then a push of the new element: gives the first element of the lowest rank, even if the new rank is lower. Needs no
    /// room. Refused [`Refusal::BadRank`] above the last rank, [`Refusal::NoTag`] with tag 0, [`Refusal::Empty`] where the port holds
    /// nothing.
    #[inline]
    pub fn replace(&mut self, x: Element) -> Result<Element, Refusal> {
        let Ports { storeys, nodes, ports, .. } = *self.of;
        let (bits, words, mut out) = (self.of.bits.as_mut(), self.of.words.as_mut(), [0; 3]);
        let (rank, tag, length) = (x.rank.0, x.tag.0, x.length.0);
        refused(calls::ports_replace(bits, words, storeys, nodes, ports, self.number, rank, tag, length, &mut out))?;
        Ok(Element::from(out))
    }

    /// How many elements the port holds.
    #[inline]
    pub fn held(&self) -> Result<u32, Refusal> {
        self.of.held(self.number)
    }
}

queue! { ['a, B: Lent<u64>, W: Lent<u32>] Port<'a, B, W>: Queue, Replace }
