//! The multi-way tree on a slice of words, one operation at a time.

use crate::{shape_cause, Causes, Element, No};

/// The highest capacity that is taken.
pub const MOST: u64 = 87_380;

/// What a node can break, and where it was read: the bit is `clause << (7 * place)`.
pub mod cause {
    use crate::Causes;
    /// A count above one plus the room below the slot.
    pub const COUNT: Causes = 1;
    /// Count 0 and a rank that is not 0.
    pub const RANK: Causes = 2;
    /// Count 0 and a tag that is not 0.
    pub const TAG: Causes = 4;
    /// Count 0 and a length that is not 0.
    pub const LENGTH: Causes = 8;
    /// A put finds every count at one plus the room below.
    pub const FULL: Causes = 16;
    /// A take, a swap or a read for the lowest finds an empty node.
    pub const EMPTY: Causes = 32;
    /// A pending record names a node that its level lacks.
    pub const RANGE: Causes = 64;

    /// The root.
    pub const ROOT: u32 = 0;
    /// A node of level 2 that an operation reaches.
    pub const BELOW: u32 = 1;
    /// A node of level 3 or deeper that an operation reaches.
    pub const DEEPER: u32 = 2;
    /// The node that a pending put, take or swap names.
    pub const PUT: u32 = 3;
    pub const TAKE: u32 = 4;
    pub const SWAP: u32 = 5;
    /// The node below it, read for its lowest.
    pub const UNDER_TAKE: u32 = 6;
    pub const UNDER_SWAP: u32 = 7;

    pub fn at(place: u32, clauses: Causes) -> Causes {
        clauses << (7 * place)
    }

    pub fn name(bit: u32) -> String {
        let place = [
            "root",
            "level 2",
            "deeper",
            "pending put",
            "pending take",
            "pending swap",
            "below a pending take",
            "below a pending swap",
        ][(bit / 7) as usize];
        let clause = [
            "count too high",
            "empty slot with a rank",
            "empty slot with a tag",
            "empty slot with a length",
            "put into a full node",
            "empty node",
            "no such node",
        ][(bit % 7) as usize];
        format!("{place}: {clause}")
    }
}

/// An order and a number of levels that are taken.
#[derive(Clone, Copy, PartialEq, Eq, Debug)]
pub struct Shape {
    pub order: u64,
    pub levels: u64,
}

impl Shape {
    /// Order 2, 4 or 8; at least one level; capacity at most 87,380.
    pub fn new(order: u32, levels: u32) -> Option<Shape> {
        if order != 2 && order != 4 && order != 8 {
            return None;
        }
        if levels < 1 {
            return None;
        }
        let mut capacity = 0;
        let mut power = 1;
        for _ in 0..levels {
            power *= order as u64;
            capacity += power;
            if capacity > MOST {
                return None;
            }
        }
        Some(Shape { order: order as u64, levels: levels as u64 })
    }

    /// M + M² + … + M^n.
    fn powers(&self, n: u64) -> u64 {
        let mut sum = 0;
        let mut power = 1;
        for _ in 0..n {
            power *= self.order;
            sum += power;
        }
        sum
    }

    /// The number of slots.
    pub fn capacity(&self) -> u64 {
        self.powers(self.levels)
    }

    /// The words of a store.
    pub fn words(&self) -> usize {
        SLOT * self.capacity() as usize
    }

    /// The number of nodes of a level (levels count from 1): M to the power level − 1.
    pub fn nodes(&self, level: u64) -> u64 {
        let mut power = 1;
        for _ in 1..level {
            power *= self.order;
        }
        power
    }

    /// The slots below a slot of this level.
    pub fn room_below(&self, level: u64) -> u64 {
        self.powers(self.levels - level)
    }

    /// The place in the slice of the first word of a slot.
    pub fn word(&self, level: u64, node: u64, slot: u64) -> usize {
        (self.powers(level - 1) + node * self.order + slot) as usize * SLOT
    }
}

/// The words of a slot: rank, tag, length, count.
pub const SLOT: usize = 4;

/// A slot's four words.
#[derive(Clone, Copy, PartialEq, Eq, Debug, Default)]
pub struct Slot {
    pub rank: u32,
    pub tag: u32,
    pub length: u32,
    pub count: u32,
}

impl Slot {
    pub fn element(&self) -> Element {
        Element { rank: self.rank, tag: self.tag, length: self.length }
    }
    pub fn holding(x: Element, count: u32) -> Slot {
        Slot { rank: x.rank, tag: x.tag, length: x.length, count }
    }
}

/// A node as it stands in the store, read whole and tested.
pub struct Node {
    slots: [Slot; 8],
    order: usize,
    limit: u64,
}

impl Node {
    /// Reads the node and makes the test of every slot: no count above one plus the room below
    /// it, no slot with count 0 and another word not 0.
    pub fn read(shape: Shape, store: &[u32], level: u64, node: u64) -> Result<Node, Causes> {
        let mut slots = [Slot::default(); 8];
        let limit = 1 + shape.room_below(level);
        let mut broken = 0;
        for j in 0..shape.order {
            let w = shape.word(level, node, j);
            let slot = Slot { rank: store[w], tag: store[w + 1], length: store[w + 2], count: store[w + 3] };
            if slot.count as u64 > limit {
                broken |= cause::COUNT;
            }
            if slot.count == 0 && slot.rank != 0 {
                broken |= cause::RANK;
            }
            if slot.count == 0 && slot.tag != 0 {
                broken |= cause::TAG;
            }
            if slot.count == 0 && slot.length != 0 {
                broken |= cause::LENGTH;
            }
            slots[j as usize] = slot;
        }
        if broken != 0 {
            return Err(broken);
        }
        Ok(Node { slots, order: shape.order as usize, limit })
    }

    pub fn slots(&self) -> &[Slot] {
        &self.slots[..self.order]
    }

    /// The sum of the counts.
    pub fn held(&self) -> u64 {
        self.slots().iter().map(|s| s.count as u64).sum()
    }

    /// The first empty slot.
    pub fn first_empty(&self) -> Option<usize> {
        self.slots().iter().position(|s| s.count == 0)
    }

    /// Whether every count is at one plus the room below it.
    pub fn every_count_at_limit(&self) -> bool {
        self.slots().iter().all(|s| s.count as u64 == self.limit)
    }

    /// The slot with the smallest count, leftmost on a tie.
    pub fn smallest_count(&self) -> usize {
        let mut best = 0;
        for j in 1..self.order {
            if self.slots[j].count < self.slots[best].count {
                best = j;
            }
        }
        best
    }

    /// The occupied slot of lowest rank; of equal ranks the one of lower tag, leftmost where the tags are equal too.
    pub fn lowest(&self) -> Option<usize> {
        let mut best: Option<usize> = None;
        for j in 0..self.order {
            if self.slots[j].count == 0 {
                continue;
            }
            match best {
                Some(b) if self.slots[j].rank > self.slots[b].rank => {}
                Some(b) if self.slots[j].rank == self.slots[b].rank && self.slots[j].tag >= self.slots[b].tag => {}
                _ => best = Some(j),
            }
        }
        best
    }
}

/// The words that a call is going to write: they are written once the whole path is tested.
pub struct Writes(Vec<(usize, Slot)>);

impl Writes {
    pub fn new() -> Writes {
        Writes(Vec::new())
    }
    pub fn slot(&mut self, shape: Shape, level: u64, node: u64, slot: usize, to: Slot) {
        self.0.push((shape.word(level, node, slot as u64), to));
    }
    pub fn append(&mut self, mut other: Writes) {
        self.0.append(&mut other.0);
    }
    pub fn done(self, store: &mut [u32]) {
        for (w, slot) in self.0 {
            store[w] = slot.rank;
            store[w + 1] = slot.tag;
            store[w + 2] = slot.length;
            store[w + 3] = slot.count;
        }
    }
}

impl Default for Writes {
    fn default() -> Writes {
        Writes::new()
    }
}

fn place(level: u64) -> u32 {
    match level {
        1 => cause::ROOT,
        2 => cause::BELOW,
        _ => cause::DEEPER,
    }
}

fn read(shape: Shape, store: &[u32], level: u64, node: u64) -> Result<Node, No> {
    Node::read(shape, store, level, node).map_err(|c| No::Damaged(cause::at(place(level), c)))
}

fn broken(level: u64, clause: Causes) -> No {
    No::Damaged(cause::at(place(level), clause))
}

fn put(shape: Shape, store: &[u32], level: u64, node: u64, x: Element, w: &mut Writes) -> Result<(), No> {
    let n = read(shape, store, level, node)?;
    if let Some(j) = n.first_empty() {
        w.slot(shape, level, node, j, Slot::holding(x, 1));
        return Ok(());
    }
    if level > 1 && n.every_count_at_limit() {
        return Err(broken(level, cause::FULL));
    }
    let j = n.smallest_count();
    let s = n.slots()[j];
    let (stays, left_over) = if x.rank < s.rank { (x, s.element()) } else { (s.element(), x) };
    w.slot(shape, level, node, j, Slot::holding(stays, s.count + 1));
    put(shape, store, level + 1, node * shape.order + j as u64, left_over, w)
}

fn take(shape: Shape, store: &[u32], level: u64, node: u64, w: &mut Writes) -> Result<Element, No> {
    let n = read(shape, store, level, node)?;
    let j = match n.lowest() {
        Some(j) => j,
        None => return Err(broken(level, cause::EMPTY)),
    };
    let s = n.slots()[j];
    let count = s.count - 1;
    if count == 0 {
        w.slot(shape, level, node, j, Slot::default());
    } else {
        let received = take(shape, store, level + 1, node * shape.order + j as u64, w)?;
        w.slot(shape, level, node, j, Slot::holding(received, count));
    }
    Ok(s.element())
}

fn lowest_of(shape: Shape, store: &[u32], level: u64, node: u64) -> Result<Element, No> {
    let n = read(shape, store, level, node)?;
    match n.lowest() {
        Some(j) => Ok(n.slots()[j].element()),
        None => Err(broken(level, cause::EMPTY)),
    }
}

fn swap(shape: Shape, store: &[u32], level: u64, node: u64, x: Element, w: &mut Writes) -> Result<Element, No> {
    let n = read(shape, store, level, node)?;
    let j = match n.lowest() {
        Some(j) => j,
        None => return Err(broken(level, cause::EMPTY)),
    };
    let s = n.slots()[j];
    if s.count == 1 {
        w.slot(shape, level, node, j, Slot::holding(x, s.count));
        return Ok(s.element());
    }
    let below = node * shape.order + j as u64;
    let lowest = lowest_of(shape, store, level + 1, below)?;
    if lowest.rank < x.rank {
        w.slot(shape, level, node, j, Slot::holding(lowest, s.count));
        swap(shape, store, level + 1, below, x, w)?;
    } else {
        w.slot(shape, level, node, j, Slot::holding(x, s.count));
    }
    Ok(s.element())
}

/// Refusal 1: order, levels, and the slice's length in words.
pub fn shape(store: &[u32], order: u32, levels: u32) -> Result<Shape, No> {
    let shape = Shape::new(order, levels).ok_or(No::BadShape(shape_cause::NUMBERS))?;
    if store.len() < shape.words() {
        return Err(No::BadShape(shape_cause::STORE));
    }
    Ok(shape)
}

/// The root, read and tested.
pub fn root(shape: Shape, store: &[u32]) -> Result<Node, No> {
    read(shape, store, 1, 0)
}

pub fn clear(store: &mut [u32], order: u32, levels: u32) -> Result<(), No> {
    let shape = shape(store, order, levels)?;
    for word in &mut store[..shape.words()] {
        *word = 0;
    }
    Ok(())
}

pub fn push(store: &mut [u32], order: u32, levels: u32, x: Element) -> Result<(), No> {
    let shape = shape(store, order, levels)?;
    let n = root(shape, store)?;
    if x.tag == 0 {
        return Err(No::NoTag);
    }
    if n.held() == shape.capacity() {
        return Err(No::Full);
    }
    let mut w = Writes::new();
    put(shape, store, 1, 0, x, &mut w)?;
    w.done(store);
    Ok(())
}

pub fn pop(store: &mut [u32], order: u32, levels: u32) -> Result<Element, No> {
    let shape = shape(store, order, levels)?;
    let n = root(shape, store)?;
    if n.held() == 0 {
        return Err(No::Empty);
    }
    let mut w = Writes::new();
    let gives = take(shape, store, 1, 0, &mut w)?;
    w.done(store);
    Ok(gives)
}

/// A pop and then a push: without a tag refused, else refused like a pop, and the newcomer's rank has no say in what is given.
pub fn replace(store: &mut [u32], order: u32, levels: u32, x: Element) -> Result<Element, No> {
    let shape = shape(store, order, levels)?;
    let n = root(shape, store)?;
    if x.tag == 0 {
        return Err(No::NoTag);
    }
    if n.held() == 0 {
        return Err(No::Empty);
    }
    let mut w = Writes::new();
    let gives = swap(shape, store, 1, 0, x, &mut w)?;
    w.done(store);
    Ok(gives)
}

pub fn held(store: &[u32], order: u32, levels: u32) -> Result<u32, No> {
    let shape = shape(store, order, levels)?;
    let n = root(shape, store)?;
    Ok(n.held() as u32)
}
