//! The cluster heap on a slice of words, one operation at a time.

use crate::{Element, No};

/// The highest capacity that is taken.
pub const MOST: u64 = 5_460;

/// The words of a place: rank, tag, length, flag.
const PLACE: usize = 4;

/// A number of places a node and a number of levels that are taken.
#[derive(Clone, Copy, PartialEq, Eq, Debug)]
pub struct Shape {
    pub places: usize,
    pub levels: u32,
}

/// A place that is flagged and its element, or nothing.
pub type Place = Option<Element>;

/// What is done at a node.
#[derive(Clone, Copy, PartialEq, Eq, Debug)]
enum Work {
    Put(Element),
    Take,
    Swap(Element),
}

/// A node as it stands in the store, read whole and tested.
#[derive(Clone)]
pub struct Node {
    pub counts: [u32; 2],
    pub places: Vec<Place>,
}

impl Shape {
    /// 2 to 16 places; at least one level; capacity at most 5,460; a slice that is long enough.
    pub fn new(places: u32, levels: u32, len: usize) -> Option<Shape> {
        if !(2..=16).contains(&places) || levels < 1 {
            return None;
        }
        let mut nodes: u64 = 0;
        for _ in 0..levels {
            nodes = 2 * nodes + 1;
            if nodes * places as u64 > MOST {
                return None;
            }
        }
        let shape = Shape { places: places as usize, levels };
        if len < shape.words() {
            return None;
        }
        Some(shape)
    }

    /// The nodes of so many levels.
    pub fn nodes(levels: u32) -> usize {
        (1 << levels) - 1
    }

    /// How many elements so many levels hold.
    pub fn room(&self, levels: u32) -> u64 {
        (self.places * Shape::nodes(levels)) as u64
    }

    fn node_words(&self) -> usize {
        2 + PLACE * self.places
    }

    /// The words of a store.
    pub fn words(&self) -> usize {
        Shape::nodes(self.levels) * self.node_words()
    }

    /// Reads a node that has so many levels below it. A flag is 0 or 1, an unflagged place is all 0, no count is above the room of a
    /// child, and with something below no more than so many places are not flagged: none, or one that may wait to be filled.
    pub fn read(&self, store: &[u32], number: usize, below: u32, gaps: usize) -> Result<Node, No> {
        let at = number * self.node_words();
        let counts = [store[at], store[at + 1]];
        let mut places = Vec::new();
        for j in 0..self.places {
            let w = at + 2 + PLACE * j;
            match (store[w + 3], &store[w..w + 3]) {
                (1, e) => places.push(Some(Element { rank: e[0], tag: e[1], length: e[2] })),
                (0, [0, 0, 0]) => places.push(None),
                _ => return Err(No::Damaged(1)),
            }
        }
        if counts.iter().any(|&c| c as u64 > self.room(below)) {
            return Err(No::Damaged(1));
        }
        if counts != [0, 0] && places.iter().filter(|p| p.is_none()).count() > gaps {
            return Err(No::Damaged(1));
        }
        Ok(Node { counts, places })
    }

    /// Writes a node.
    pub fn write(&self, store: &mut [u32], number: usize, node: &Node) {
        let at = number * self.node_words();
        store[at..at + 2].copy_from_slice(&node.counts);
        for (j, place) in node.places.iter().enumerate() {
            let (w, e) = (at + 2 + PLACE * j, place.unwrap_or_default());
            store[w..w + PLACE].copy_from_slice(&[e.rank, e.tag, e.length, place.is_some() as u32]);
        }
    }
}

impl Node {
    pub fn held(&self) -> u64 {
        let flagged = self.places.iter().filter(|p| p.is_some()).count() as u64;
        flagged + self.counts[0] as u64 + self.counts[1] as u64
    }

    /// The place of lowest rank, then of lowest tag, then the first.
    pub fn low(&self) -> Option<usize> {
        let flagged = (0..self.places.len()).filter(|&j| self.places[j].is_some());
        flagged.min_by_key(|&j| self.places[j].map(|e| (e.rank, e.tag, j)))
    }

    /// The place of highest rank, the last on a tie.
    pub fn high(&self) -> usize {
        let flagged = (0..self.places.len()).filter(|&j| self.places[j].is_some());
        flagged.max_by_key(|&j| self.places[j].map(|e| (e.rank, j))).expect("a full node")
    }
}

/// A store's words and shape, and what an operation is going to write: nothing is written before the whole way is tested.
struct Way<'a> {
    shape: Shape,
    store: &'a [u32],
    writes: Vec<(usize, u32)>,
}

impl Way<'_> {
    fn write_place(&mut self, number: usize, j: usize, place: Place) {
        let w = number * self.shape.node_words() + 2 + PLACE * j;
        let e = place.unwrap_or_default();
        for (i, word) in [e.rank, e.tag, e.length, place.is_some() as u32].into_iter().enumerate() {
            self.writes.push((w + i, word));
        }
    }

    fn write_count(&mut self, number: usize, side: usize, count: u32) {
        self.writes.push((number * self.shape.node_words() + side, count));
    }

    /// The lower of the children's lowest: its side and its element. A child of count 0 is not read.
    fn lower(&self, node: &Node, number: usize, below: u32) -> Result<(usize, Element), No> {
        let mut best: Option<(usize, Element)> = None;
        for side in 0..2 {
            if node.counts[side] == 0 {
                continue;
            }
            let child = self.shape.read(self.store, 2 * number + 1 + side, below - 1, 0)?;
            let j = child.low().ok_or(No::Damaged(1))?;
            let e = child.places[j].expect("a flagged place");
            if best.map_or(true, |(_, b)| e.rank < b.rank) {
                best = Some((side, e));
            }
        }
        best.ok_or(No::Damaged(1))
    }

    /// The work at a node, and below it.
    fn work(&mut self, work: Work, number: usize, below: u32) -> Result<(), No> {
        let node = self.shape.read(self.store, number, below, 0)?;
        let (side, rest) = match work {
            Work::Put(x) => {
                if let Some(j) = node.places.iter().position(|p| p.is_none()) {
                    self.write_place(number, j, Some(x));
                    return Ok(());
                }
                if node.counts.iter().all(|&c| c as u64 == self.shape.room(below)) {
                    return Err(No::Damaged(1));
                }
                let side = (node.counts[1] < node.counts[0]) as usize;
                let j = node.high();
                let met = node.places[j].expect("a flagged place");
                let (stays, goes) = if x.rank < met.rank { (x, met) } else { (met, x) };
                self.write_place(number, j, Some(stays));
                self.write_count(number, side, node.counts[side] + 1);
                (side, Work::Put(goes))
            }
            Work::Take => {
                let j = node.low().ok_or(No::Damaged(1))?;
                if node.counts == [0, 0] {
                    self.write_place(number, j, None);
                    return Ok(());
                }
                let (side, e) = self.lower(&node, number, below)?;
                self.write_place(number, j, Some(e));
                self.write_count(number, side, node.counts[side] - 1);
                (side, Work::Take)
            }
            Work::Swap(x) => {
                let j = node.low().ok_or(No::Damaged(1))?;
                if node.counts == [0, 0] {
                    self.write_place(number, j, Some(x));
                    return Ok(());
                }
                let (side, e) = self.lower(&node, number, below)?;
                if e.rank >= x.rank {
                    self.write_place(number, j, Some(x));
                    return Ok(());
                }
                self.write_place(number, j, Some(e));
                (side, Work::Swap(x))
            }
        };
        self.work(rest, 2 * number + 1 + side, below - 1)
    }
}

fn done(shape: Shape, store: &mut [u32], work: Work) -> Result<(), No> {
    let mut way = Way { shape, store: &*store, writes: Vec::new() };
    way.work(work, 0, shape.levels - 1)?;
    let writes = way.writes;
    for (w, word) in writes {
        store[w] = word;
    }
    Ok(())
}

fn root(store: &[u32], places: u32, levels: u32) -> Result<(Shape, Node), No> {
    let shape = Shape::new(places, levels, store.len()).ok_or(No::BadShape(1))?;
    let node = shape.read(store, 0, levels - 1, 0)?;
    Ok((shape, node))
}

pub fn clear(store: &mut [u32], places: u32, levels: u32) -> Result<(), No> {
    let shape = Shape::new(places, levels, store.len()).ok_or(No::BadShape(1))?;
    store[..shape.words()].fill(0);
    Ok(())
}

pub fn held(store: &[u32], places: u32, levels: u32) -> Result<u32, No> {
    root(store, places, levels).map(|(_, node)| node.held() as u32)
}

pub fn push(store: &mut [u32], places: u32, levels: u32, x: Element) -> Result<(), No> {
    let (shape, node) = root(store, places, levels)?;
    if x.tag == 0 {
        return Err(No::NoTag);
    }
    if node.held() == shape.room(levels) {
        return Err(No::Full);
    }
    done(shape, store, Work::Put(x))
}

/// What a pop and a replace answer: the root's lowest.
fn lowest(node: &Node) -> Result<Element, No> {
    node.low().and_then(|j| node.places[j]).ok_or(No::Empty)
}

pub fn pop(store: &mut [u32], places: u32, levels: u32) -> Result<Element, No> {
    let (shape, node) = root(store, places, levels)?;
    let e = lowest(&node)?;
    done(shape, store, Work::Take)?;
    Ok(e)
}

pub fn replace(store: &mut [u32], places: u32, levels: u32, x: Element) -> Result<Element, No> {
    let (shape, node) = root(store, places, levels)?;
    if x.tag == 0 {
        return Err(No::NoTag);
    }
    let e = lowest(&node)?;
    done(shape, store, Work::Swap(x))?;
    Ok(e)
}

#[cfg(test)]
mod tests {
    use super::*;
    use crate::element;

    /// The worked store of the rules: three nodes of two counts and two places.
    #[test]
    fn worked() {
        let mut store = [7; 31];
        clear(&mut store, 2, 2).unwrap();
        for (rank, tag) in [(5, 50), (3, 30), (8, 80), (1, 10), (9, 90)] {
            push(&mut store, 2, 2, element(rank, tag, 100 * rank)).unwrap();
        }
        let words = [
            2, 1, 1, 10, 100, 1, 3, 30, 300, 1, 0, 0, 8, 80, 800, 1, 9, 90, 900, 1, 0, 0, 5, 50, 500, 1, 0, 0, 0, 0, 7,
        ];
        assert_eq!(store, words);
        assert_eq!(replace(&mut store, 2, 2, element(4, 7, 70)), Ok(element(1, 10, 100)));
        for rank in [3, 4, 5, 8, 9] {
            assert_eq!(pop(&mut store, 2, 2).unwrap().rank, rank);
        }
        assert_eq!(pop(&mut store, 2, 2), Err(No::Empty));
        assert_eq!(store[..30], [0; 30]);
    }
}
