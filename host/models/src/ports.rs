//! Several ports on one pool: each a bucket queue of its own over nodes and a free link that all share.
//!
//! The calls are as C sees them: slices of numbers in, a refusal or nothing out, `out` written. `Plain` is the same by plain lists.

use crate::bucket::{self, pairs, pop_tests, pop_writes, push_tests, push_writes, Places, Pool};
use crate::list::SortedList;
use crate::{shape_cause, Causes, Element, No};

/// What a call can find broken beside the bucket queue's own causes.
pub mod cause {
    use crate::Causes;
    /// A port's floor is above its ceiling.
    pub const FLOOR: Causes = 1 << 48;
    /// A port holds more than its ceiling.
    pub const CEILING: Causes = 1 << 49;
    /// The larger of held and floor of each port come to more than N.
    pub const CLAIMS: Causes = 1 << 50;
}

/// The most ports.
pub const PORTS: u32 = 16;

/// Numbers that are taken.
#[derive(Clone, Copy, PartialEq, Eq, Debug)]
pub struct Shape {
    pub storeys: u32,
    pub nodes: u32,
    pub ports: u32,
}

impl Shape {
    /// Two or three storeys, 1 to 65,536 nodes, 1 to 16 ports.
    pub fn new(storeys: u32, nodes: u32, ports: u32) -> Option<Shape> {
        let good = (2..=3).contains(&storeys) && (1..=bucket::NODES).contains(&nodes) && (1..=PORTS).contains(&ports);
        good.then(|| Shape { storeys, nodes, ports })
    }

    /// The words of 64 bits: port after port.
    pub fn bits(&self) -> usize {
        self.ports as usize * bucket::bits(self.storeys)
    }

    /// The words of 32 bits: heads and tails of each port, nodes, free link, and three of each port.
    pub fn words(&self) -> usize {
        self.free() + 1 + 3 * self.ports as usize
    }

    fn nodes_at(&self) -> usize {
        self.ports as usize * 2 * bucket::ranks(self.storeys)
    }

    /// Where the free link stands.
    pub fn free(&self) -> usize {
        self.nodes_at() + 3 * self.nodes as usize
    }

    /// Where a port's held stands; its floor and its ceiling stand behind it.
    pub fn held(&self, port: u32) -> usize {
        self.free() + 1 + 3 * port as usize
    }

    /// A port as a bucket queue.
    pub fn seat(&self, port: u32) -> Places {
        Places {
            storeys: self.storeys,
            n: self.nodes,
            bits: port as usize * bucket::bits(self.storeys),
            heads: port as usize * 2 * bucket::ranks(self.storeys),
            nodes: self.nodes_at(),
            free: self.free(),
            held: self.held(port),
        }
    }

    /// Held, floor and ceiling of each port.
    fn counts<'a>(&self, words: &'a [u32]) -> impl Iterator<Item = (u64, u64, u64)> + 'a {
        let counts = &words[self.free() + 1..self.words()];
        counts.chunks(3).map(|c| (c[0] as u64, c[1] as u64, c[2] as u64))
    }

    /// All that is held.
    fn used(&self, words: &[u32]) -> u64 {
        self.counts(words).map(|(held, _, _)| held).sum()
    }

    /// The sum of the larger of held and floor.
    fn claimed(&self, words: &[u32]) -> u64 {
        self.counts(words).map(|(held, floor, _)| held.max(floor)).sum()
    }

    /// The tests that every call but clear makes, of this port.
    fn whole(&self, bits: &[u64], words: &[u32], port: u32) -> Causes {
        let mut c = 0;
        if self.counts(words).any(|(_, floor, ceiling)| floor > ceiling) {
            c |= cause::FLOOR;
        }
        if self.counts(words).any(|(held, _, ceiling)| held > ceiling) {
            c |= cause::CEILING;
        }
        if self.claimed(words) > self.nodes as u64 {
            c |= cause::CLAIMS;
        }
        let (top, free, held) = (bits[self.seat(port).bits], words[self.free()], words[self.held(port)]);
        c | pairs(top, free, held, self.used(words), self.nodes)
    }

    /// Whether a push that nothing else refuses is accepted: below its floor, or below its ceiling while something is not claimed.
    fn room(&self, words: &[u32], port: u32) -> bool {
        let at = self.held(port);
        let (held, floor, ceiling) = (words[at], words[at + 1], words[at + 2]);
        held < floor || held < ceiling && self.claimed(words) < self.nodes as u64
    }
}

/// The numbers, and slices that are long enough.
fn shape(bits: &[u64], words: &[u32], storeys: u32, nodes: u32, ports: u32) -> Result<Shape, No> {
    let shape = Shape::new(storeys, nodes, ports).ok_or(No::BadShape(shape_cause::NUMBERS))?;
    let mut c = 0;
    if bits.len() < shape.bits() {
        c |= shape_cause::BITS;
    }
    if words.len() < shape.words() {
        c |= shape_cause::STORE;
    }
    if c != 0 {
        return Err(No::BadShape(c));
    }
    Ok(shape)
}

/// Floor and ceiling of each port in turn.
pub fn clear(
    bits: &mut [u64],
    words: &mut [u32],
    storeys: u32,
    nodes: u32,
    ports: u32,
    limits: &[u32],
) -> Result<(), No> {
    let shape = shape(bits, words, storeys, nodes, ports)?;
    let bad = No::BadShape(shape_cause::NUMBERS);
    let limits = limits.get(..2 * ports as usize).ok_or(bad)?;
    let floors: u64 = limits.chunks(2).map(|l| l[0] as u64).sum();
    if limits.chunks(2).any(|l| l[0] > l[1]) || floors > nodes as u64 {
        return Err(bad);
    }
    bits[..shape.bits()].fill(0);
    words[..shape.words()].fill(0);
    for link in 1..nodes as usize {
        words[shape.nodes_at() + 3 * (link - 1) + 2] = link as u32 + 1;
    }
    words[shape.free()] = 1;
    for (port, l) in limits.chunks(2).enumerate() {
        let at = shape.held(port as u32);
        words[at + 1..at + 3].copy_from_slice(l);
    }
    Ok(())
}

/// The port is asked after right behind the shape.
fn known(shape: Shape, port: u32) -> Result<(), No> {
    if port >= shape.ports {
        return Err(No::NoPort);
    }
    Ok(())
}

/// What a push and a replace ask of their element.
fn taken(shape: Shape, x: Element) -> Result<(), No> {
    if x.rank as usize >= bucket::ranks(shape.storeys) {
        return Err(No::BadRank);
    }
    if x.tag == 0 {
        return Err(No::NoTag);
    }
    Ok(())
}

fn whole(shape: Shape, bits: &[u64], words: &[u32], port: u32) -> Result<(), No> {
    match shape.whole(bits, words, port) {
        0 => Ok(()),
        c => Err(No::Damaged(c)),
    }
}

/// A port of a store: the words, the numbers that they are read by, and the port.
pub struct Lent<'a> {
    pub bits: &'a mut [u64],
    pub words: &'a mut [u32],
    pub storeys: u32,
    pub nodes: u32,
    pub ports: u32,
    pub port: u32,
}

impl Lent<'_> {
    fn shape(&self) -> Result<Shape, No> {
        shape(self.bits, self.words, self.storeys, self.nodes, self.ports)
    }

    pub fn push(self, x: Element) -> Result<(), No> {
        let shape = self.shape()?;
        known(shape, self.port)?;
        taken(shape, x)?;
        whole(shape, self.bits, self.words, self.port)?;
        if !shape.room(self.words, self.port) {
            return Err(No::Full);
        }
        let used = shape.used(self.words);
        let mut p = Pool::new(self.bits, self.words, shape.seat(self.port));
        push_tests(&p, x.rank, used).map_err(No::Damaged)?;
        push_writes(&mut p, x);
        Ok(())
    }

    /// Something must be held at the port, whatever the others hold.
    fn some(&self, shape: Shape) -> Result<(), No> {
        if self.words[shape.held(self.port)] == 0 {
            return Err(No::Empty);
        }
        Ok(())
    }

    fn given(self) -> Result<Element, No> {
        let shape = self.shape()?;
        known(shape, self.port)?;
        whole(shape, self.bits, self.words, self.port)?;
        self.some(shape)?;
        let mut p = Pool::new(self.bits, self.words, shape.seat(self.port));
        let rank = pop_tests(&p).map_err(No::Damaged)?;
        Ok(pop_writes(&mut p, rank))
    }

    /// The pop, and all the push's tests but for room on the store as after it; written only if all hold.
    fn replaced(self, x: Element) -> Result<Element, No> {
        let shape = self.shape()?;
        known(shape, self.port)?;
        taken(shape, x)?;
        whole(shape, self.bits, self.words, self.port)?;
        self.some(shape)?;
        let mut p = Pool::new(self.bits, self.words, shape.seat(self.port));
        let rank = pop_tests(&p).map_err(No::Damaged)?;
        let gone = pop_writes(&mut p, rank);
        let (bits, words) = p.slices();
        let used = shape.used(words);
        let again = match shape.whole(bits, words, self.port) {
            0 => push_tests(&p, x.rank, used),
            c => Err(c),
        };
        if let Err(c) = again {
            p.take_back();
            return Err(No::Damaged(c << bucket::cause::SECOND));
        }
        push_writes(&mut p, x);
        Ok(gone)
    }

    pub fn pop(self, out: &mut [u32]) -> Result<(), No> {
        answer(out, || self.given())
    }

    pub fn replace(self, x: Element, out: &mut [u32]) -> Result<(), No> {
        answer(out, || self.replaced(x))
    }

    pub fn held(self, out: &mut [u32]) -> Result<(), No> {
        if out.is_empty() {
            return Err(No::BadShape(shape_cause::OUT));
        }
        let count = self.shape().and_then(|shape| {
            known(shape, self.port)?;
            whole(shape, self.bits, self.words, self.port)?;
            Ok(self.words[shape.held(self.port)])
        });
        out[0] = count.unwrap_or(0);
        count.map(|_| ())
    }
}

/// An `out` that is too short comes before all else; any other refusal writes zeros there.
fn answer(out: &mut [u32], given: impl FnOnce() -> Result<Element, No>) -> Result<(), No> {
    if out.len() < 3 {
        return Err(No::BadShape(shape_cause::OUT));
    }
    let given = given();
    let x = given.unwrap_or_default();
    out[..3].copy_from_slice(&[x.rank, x.tag, x.length]);
    given.map(|_| ())
}

/// The ports as plain lists, under the rule of floors and ceilings.
pub struct Plain {
    pub nodes: u64,
    pub ranks: u32,
    /// Floor, ceiling, and what is held.
    pub ports: Vec<(u64, u64, SortedList)>,
}

impl Plain {
    pub fn new(storeys: u32, nodes: u32, limits: &[u32]) -> Plain {
        let ports = limits.chunks(2).map(|l| (l[0] as u64, l[1] as u64, SortedList::new())).collect();
        Plain { nodes: nodes as u64, ranks: bucket::ranks(storeys) as u32, ports }
    }

    fn bad(&self, x: Element) -> Option<u32> {
        if x.rank >= self.ranks {
            Some(4)
        } else if x.tag == 0 {
            Some(7)
        } else {
            None
        }
    }

    /// N less the larger of held and floor of each port is above zero.
    fn spare(&self) -> bool {
        self.ports.iter().map(|(floor, _, list)| (list.held() as u64).max(*floor)).sum::<u64>() < self.nodes
    }

    /// The number that a push at a port is to answer.
    pub fn push(&mut self, port: usize, x: Element) -> u32 {
        if let Some(number) = self.bad(x) {
            return number;
        }
        let spare = self.spare();
        let (floor, ceiling, list) = &mut self.ports[port];
        let held = list.held() as u64;
        if held < *floor || held < *ceiling && spare {
            list.push(x);
            return 0;
        }
        5
    }

    pub fn pop(&mut self, port: usize) -> Result<Element, u32> {
        self.ports[port].2.pop().ok_or(6)
    }

    pub fn replace(&mut self, port: usize, x: Element) -> Result<Element, u32> {
        if let Some(number) = self.bad(x) {
            return Err(number);
        }
        let gone = self.pop(port)?;
        self.ports[port].2.push(x);
        Ok(gone)
    }
}

#[cfg(test)]
mod tests {
    use super::*;
    use crate::element;

    fn at<'a>(bits: &'a mut [u64], words: &'a mut [u32], port: u32) -> Lent<'a> {
        Lent { bits, words, storeys: 2, nodes: 3, ports: 2, port }
    }

    /// Two ports, three nodes; port 0 has a floor of 1 and port 1 none.
    #[test]
    fn worked() {
        let shape = Shape::new(2, 3, 2).unwrap();
        assert_eq!((shape.bits(), shape.words()), (130, 2 * 8192 + 9 + 1 + 6));
        let (mut bits, mut words) = (vec![7; 131], vec![7; shape.words() + 1]);
        clear(&mut bits, &mut words, 2, 3, 2, &[1, 3, 0, 9]).unwrap();
        let numbers = [1, 1, 1].map(|port| at(&mut bits, &mut words, port).push(element(7, port, 64)));
        // the third would take what is port 0's
        assert_eq!(numbers, [Ok(()), Ok(()), Err(No::Full)]);
        at(&mut bits, &mut words, 0).push(element(7, 5, 64)).unwrap();
        assert_eq!(words[16384..], [1, 64, 2, 1, 64, 0, 5, 64, 0, 0, 1, 1, 3, 2, 0, 9, 7]);
        assert_eq!((words[7], words[8192 + 7], words[8192 + 4096 + 7]), (3, 1, 2));
        assert_eq!((bits[0], bits[1], bits[65], bits[66], bits[130]), (1, 128, 1, 128, 7));
        // a replace needs no room
        let mut out = [9; 3];
        at(&mut bits, &mut words, 1).replace(element(3, 8, 1), &mut out).unwrap();
        assert_eq!(out, [7, 1, 64]);
        assert_eq!(at(&mut bits, &mut words, 2).pop(&mut out), Err(No::NoPort));
    }
}
