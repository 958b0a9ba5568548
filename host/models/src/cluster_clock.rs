//! The cluster heap by clock cycles: every level reads what stood at the cycle's start, writes its own nodes and the record below it.
//!
//! The calls are as C sees them: slices of numbers and records in, a refusal or nothing out, `out` written.

use crate::cluster::{Node, Shape};
use crate::{element, shape_cause, Element, No};

/// What a cycle can find broken: which record, or the root, and what of it.
pub mod cause {
    use crate::Causes;
    /// C1: a put names a node that there is not, a fill or a swap a node or a place.
    pub const NODE: Causes = 1;
    pub const PLACE: Causes = 2;
    /// C2: a node that is read is not in order.
    pub const ROOT: Causes = 4;
    pub const PUT: Causes = 8;
    pub const WAITING: Causes = 16;
    pub const CHILD: Causes = 32;
    /// C3: a fill's place is flagged, a swap's is not, or nothing lies below.
    pub const FLAGGED: Causes = 64;
    pub const UNFLAGGED: Causes = 128;
    pub const BARE: Causes = 256;
    /// C4: a put finds no room.
    pub const FULL: Causes = 512;
    /// C5: a child of count not 0 is empty.
    pub const EMPTY: Causes = 1024;

    pub const ALL: [(Causes, &str); 11] = [
        (NODE, "no such node"),
        (PLACE, "no such place"),
        (ROOT, "the root"),
        (PUT, "a put's node"),
        (WAITING, "a waiting node"),
        (CHILD, "a child of a waiting node"),
        (FLAGGED, "a fill's place is flagged"),
        (UNFLAGGED, "a swap's place is not flagged"),
        (BARE, "nothing below a waiting node"),
        (FULL, "a put finds no room"),
        (EMPTY, "a child with nothing to give"),
    ];
}

/// A pending record as numbers: kind, node, place, rank, tag, length.
pub type Record = [u32; 6];

/// What a record asks of the next cycle.
#[derive(Clone, Copy, PartialEq, Eq, Debug)]
enum Due {
    Nothing,
    /// The lower level puts y at this node of its own.
    Put {
        node: u32,
        y: Element,
    },
    /// A place of this node of the upper level is a gap.
    Fill {
        node: u32,
        place: u32,
    },
    /// x stands in a place of this node of the upper level, on trial.
    Swap {
        node: u32,
        place: u32,
        x: Element,
    },
}

/// The record as it is read. Numbers that its kind doesn't use decide nothing.
fn due(&[kind, node, place, rank, tag, length]: &Record) -> Due {
    let x = element(rank, tag, length);
    match kind {
        1 => Due::Put { node, y: x },
        2 => Due::Fill { node, place },
        3 => Due::Swap { node, place, x },
        _ => Due::Nothing,
    }
}

/// The record as it is written: 0 for what its kind doesn't use.
fn record(due: Due) -> Record {
    match due {
        Due::Nothing => [0; 6],
        Due::Put { node, y } => [1, node, 0, y.rank, y.tag, y.length],
        Due::Fill { node, place } => [2, node, place, 0, 0, 0],
        Due::Swap { node, place, x } => [3, node, place, x.rank, x.tag, x.length],
    }
}

/// A level's work at one of its nodes.
#[derive(Clone, Copy, Debug)]
enum Work {
    Put(Element),
    Take,
    Swap(Element),
}

/// What a record comes to: what the node that waits receives and from which side, and the work of the lower level.
#[derive(Clone, Copy, Default)]
struct Choice {
    lifted: Option<(usize, Element)>,
    work: Option<(Work, u32)>,
}

/// A request.
#[derive(Clone, Copy, PartialEq, Eq, Debug)]
pub enum Ask {
    Idle,
    Push(Element),
    Pop,
    Replace(Element),
}

/// A store as it stands at a cycle's start. Levels count from 0, the root's.
struct Start<'a> {
    shape: Shape,
    store: &'a [u32],
}

impl Start<'_> {
    fn number(&self, level: u32, node: u32) -> usize {
        Shape::nodes(level) + node as usize
    }

    fn node(&self, level: u32, node: u32, clause: u64) -> Result<Node, No> {
        let below = self.shape.levels - 1 - level;
        self.shape.read(self.store, self.number(level, node), below, 1).map_err(|_| No::Damaged(clause))
    }

    /// The lower child of a node that waits: its side and its lowest. A child of count 0 is not read.
    fn choice(&self, waiting: &Node, level: u32, node: u32) -> Result<(usize, Element), No> {
        let mut best: Option<(usize, Element)> = None;
        for side in 0..2 {
            if waiting.counts[side] == 0 {
                continue;
            }
            let child = self.node(level + 1, 2 * node + side as u32, cause::CHILD)?;
            let low = child.low().and_then(|j| child.places[j]).ok_or(No::Damaged(cause::EMPTY))?;
            if best.map_or(true, |(_, b)| low.rank < b.rank) {
                best = Some((side, low));
            }
        }
        best.ok_or(No::Damaged(cause::BARE))
    }

    /// The record between this level and the next, tested, and what it comes to.
    fn settle(&self, due: Due, upper: u32) -> Result<Choice, No> {
        let (node, place, on_trial) = match due {
            Due::Nothing => return Ok(Choice::default()),
            Due::Put { node, y } => {
                if u64::from(node) >= 1 << (upper + 1) {
                    return Err(No::Damaged(cause::NODE));
                }
                let put = self.node(upper + 1, node, cause::PUT)?;
                let room = self.shape.room(self.shape.levels - 2 - upper);
                if !put.places.contains(&None) && put.counts.iter().all(|&c| u64::from(c) == room) {
                    return Err(No::Damaged(cause::FULL));
                }
                return Ok(Choice { lifted: None, work: Some((Work::Put(y), node)) });
            }
            Due::Fill { node, place } => (node, place, None),
            Due::Swap { node, place, x } => (node, place, Some(x)),
        };
        if u64::from(node) >= 1 << upper {
            return Err(No::Damaged(cause::NODE));
        }
        if place as usize >= self.shape.places {
            return Err(No::Damaged(cause::PLACE));
        }
        let waiting = self.node(upper, node, cause::WAITING)?;
        match (on_trial, waiting.places[place as usize]) {
            (None, Some(_)) => return Err(No::Damaged(cause::FLAGGED)),
            (Some(_), None) => return Err(No::Damaged(cause::UNFLAGGED)),
            _ => {}
        }
        let (side, low) = self.choice(&waiting, upper, node)?;
        let child = 2 * node + side as u32;
        Ok(match on_trial {
            None => Choice { lifted: Some((side, low)), work: Some((Work::Take, child)) },
            Some(x) if low.rank < x.rank => Choice { lifted: Some((side, low)), work: Some((Work::Swap(x), child)) },
            Some(_) => Choice::default(),
        })
    }
}

/// B: the work at a node as A leaves it, giving from the place that was the lowest at the start. Gives what the record below becomes.
fn begin(node: &mut Node, low: Option<usize>, work: Work, number: u32) -> Due {
    let gives = || low.expect("a node with something to give");
    match work {
        Work::Put(y) => {
            if let Some(free) = node.places.iter().position(|p| p.is_none()) {
                node.places[free] = Some(y);
                return Due::Nothing;
            }
            let high = node.high();
            let met = node.places[high].expect("a flagged place");
            let (stays, goes) = if y.rank < met.rank { (y, met) } else { (met, y) };
            let side = (node.counts[1] < node.counts[0]) as usize;
            node.places[high] = Some(stays);
            node.counts[side] += 1;
            Due::Put { node: 2 * number + side as u32, y: goes }
        }
        Work::Take => {
            let place = gives();
            node.places[place] = None;
            match node.counts {
                [0, 0] => Due::Nothing,
                _ => Due::Fill { node: number, place: place as u32 },
            }
        }
        Work::Swap(x) => {
            let place = gives();
            node.places[place] = Some(x);
            match node.counts {
                [0, 0] => Due::Nothing,
                _ => Due::Swap { node: number, place: place as u32, x },
            }
        }
    }
}

/// What a request comes to at the root: its answer, and the root's work.
fn rule(shape: Shape, root: &Node, ask: Ask) -> Result<(Element, Option<Work>), No> {
    let lowest = || root.low().and_then(|j| root.places[j]).ok_or(No::Empty);
    match ask {
        Ask::Idle => Ok((Element::default(), None)),
        Ask::Push(x) | Ask::Replace(x) if x.tag == 0 => Err(No::NoTag),
        Ask::Push(_) if root.held() == shape.room(shape.levels) => Err(No::Full),
        Ask::Push(x) => Ok((Element::default(), Some(Work::Put(x)))),
        Ask::Pop => Ok((lowest()?, Some(Work::Take))),
        Ask::Replace(x) => Ok((lowest()?, Some(Work::Swap(x)))),
    }
}

/// One cycle on store and records. Refused 5, 6 or 7 it runs as an idle one; refused 2 nothing moves.
fn cycle(shape: Shape, store: &mut [u32], records: &mut [Record], ask: Ask) -> Result<Element, No> {
    let start = Start { shape, store };
    let dues: Vec<Due> = records.iter().map(due).collect();
    // an idle cycle does not read the root
    let asked = match ask {
        Ask::Idle => Ok((Element::default(), None)),
        _ => rule(shape, &start.node(0, 0, cause::ROOT)?, ask),
    };
    let mut choices = Vec::new();
    for (upper, due) in dues.iter().enumerate() {
        choices.push(start.settle(*due, upper as u32)?);
    }
    let mut writes: Vec<(usize, Node)> = Vec::new();
    let mut loaded = vec![Due::Nothing; records.len()];
    let mut work = asked.ok().and_then(|(_, work)| work.map(|work| (work, 0)));
    for level in 0..shape.levels {
        let below = level as usize;
        // A, the gap of the cycle before
        if let Some((Some((side, lifted)), due)) = choices.get(below).map(|c| (c.lifted, dues[below])) {
            let (node, place) = match due {
                Due::Fill { node, place } | Due::Swap { node, place, .. } => (node, place as usize),
                _ => unreachable!("only a node that waits is filled"),
            };
            let mut waiting = start.node(level, node, cause::WAITING)?;
            waiting.places[place] = Some(lifted);
            if let Due::Fill { .. } = due {
                waiting.counts[side] -= 1;
            }
            writes.push((start.number(level, node), waiting));
        }
        // B, the work
        if let Some((work, node)) = work {
            let number = start.number(level, node);
            let before = start.node(level, node, cause::CHILD)?;
            let filled = writes.last().filter(|(at, _)| *at == number).map(|(_, node)| node.clone());
            let mut now = filled.unwrap_or_else(|| before.clone());
            let due = begin(&mut now, before.low(), work, node);
            if let Some(below) = loaded.get_mut(below) {
                *below = due;
            }
            writes.push((number, now));
        }
        work = choices.get(below).and_then(|c| c.work);
    }
    for (number, node) in writes {
        shape.write(store, number, &node);
    }
    for (to, due) in records.iter_mut().zip(loaded) {
        *to = record(due);
    }
    asked.map(|(answer, _)| answer)
}

/// What the boundary asks of a call's numbers and slices: the shape, and how many records it has.
fn lent(store: &[u32], places: u32, levels: u32, records: usize) -> Result<Shape, No> {
    let shape = Shape::new(places, levels, store.len()).ok_or(No::BadShape(shape_cause::NUMBERS))?;
    if records < levels as usize - 1 {
        return Err(No::BadShape(shape_cause::RECORDS));
    }
    Ok(shape)
}

/// The records of the shape; a kind above 3 is none.
fn pending(levels: u32, records: &mut [Record]) -> Result<&mut [Record], No> {
    let own = &mut records[..levels as usize - 1];
    if own.iter().any(|r| r[0] > 3) {
        return Err(No::BadShape(shape_cause::KIND));
    }
    Ok(own)
}

/// Reads no record: only their number matters.
pub fn clear(store: &mut [u32], places: u32, levels: u32, records: &mut [Record]) -> Result<(), No> {
    let shape = lent(store, places, levels, records.len())?;
    store[..shape.words()].fill(0);
    records[..levels as usize - 1].fill([0; 6]);
    Ok(())
}

#[allow(clippy::too_many_arguments)]
pub fn cycled(
    store: &mut [u32],
    places: u32,
    levels: u32,
    records: &mut [Record],
    request: u32,
    x: Element,
    out: &mut [u32],
) -> Result<(), No> {
    if out.len() < 3 {
        return Err(No::BadShape(shape_cause::OUT));
    }
    let ask = match request {
        0 => Ok(Ask::Idle),
        1 => Ok(Ask::Push(x)),
        2 => Ok(Ask::Pop),
        3 => Ok(Ask::Replace(x)),
        _ => Err(No::BadShape(shape_cause::REQUEST)),
    };
    let answer = ask.and_then(|ask| {
        let shape = lent(store, places, levels, records.len())?;
        cycle(shape, store, pending(levels, records)?, ask)
    });
    let e = answer.unwrap_or_default();
    out[..3].copy_from_slice(&[e.rank, e.tag, e.length]);
    answer.map(|_| ())
}

/// Idle cycles until nothing is pending or the budget is spent; refused 2 the cycles already run, and work left.
pub fn drain(
    store: &mut [u32],
    places: u32,
    levels: u32,
    records: &mut [Record],
    budget: u32,
    out: &mut [u32],
) -> Result<(), No> {
    if out.len() < 2 {
        return Err(No::BadShape(shape_cause::OUT));
    }
    out[..2].fill(0);
    let shape = lent(store, places, levels, records.len())?;
    let records = pending(levels, records)?;
    while records.iter().any(|r| r[0] != 0) {
        out[1] = 1;
        if out[0] == budget {
            return Ok(());
        }
        cycle(shape, store, records, Ask::Idle)?;
        out[0] += 1;
    }
    out[1] = 0;
    Ok(())
}

/// The root alone, in the middle of any work too.
pub fn held(store: &[u32], places: u32, levels: u32, out: &mut [u32]) -> Result<(), No> {
    if out.is_empty() {
        return Err(No::BadShape(shape_cause::OUT));
    }
    let count = lent(store, places, levels, usize::MAX)
        .and_then(|shape| Start { shape, store }.node(0, 0, cause::ROOT))
        .map(|root| root.held() as u32);
    out[0] = count.unwrap_or(0);
    count.map(|_| ())
}

/// What is held in the middle of any work: the elements in all places, and those that pending puts carry.
pub fn in_flight(store: &[u32], places: u32, levels: u32, records: &[Record]) -> Vec<Element> {
    let shape = Shape::new(places, levels, store.len()).expect("a good shape");
    let node = 2 + 4 * shape.places;
    let words = store[..shape.words()].chunks(node).flat_map(|node| node[2..].chunks(4));
    let mut all: Vec<Element> = words.filter(|w| w[3] != 0).map(|w| element(w[0], w[1], w[2])).collect();
    all.extend(records[..levels as usize - 1].iter().filter(|r| r[0] == 1).map(|r| element(r[3], r[4], r[5])));
    all
}

/// Whether a store keeps the rules of the cluster heap worked one at a time: counts are true, nothing lies below a node that is not full,
/// and no element is higher in rank than one below it.
pub fn at_rest(store: &[u32], places: u32, levels: u32) -> bool {
    let shape = Shape::new(places, levels, store.len()).expect("a good shape");
    // how many lie under a node, itself included, and the lowest rank there
    fn whole(shape: Shape, store: &[u32], number: usize, below: u32) -> Option<(u64, u32)> {
        let node = shape.read(store, number, below, 0).ok()?;
        let (mut held, mut lowest) = (node.places.iter().flatten().count() as u64, u32::MAX);
        let highest = node.places.iter().flatten().map(|e| e.rank).max();
        for side in 0..2 {
            if below == 0 {
                break;
            }
            let (count, low) = whole(shape, store, 2 * number + 1 + side, below - 1)?;
            if count != u64::from(node.counts[side]) || count > 0 && highest > Some(low) {
                return None;
            }
            held += count;
            lowest = lowest.min(low);
        }
        Some((held, node.places.iter().flatten().map(|e| e.rank).fold(lowest, u32::min)))
    }
    whole(shape, store, 0, levels - 1).is_some()
}

#[cfg(test)]
mod tests {
    use super::*;

    struct Machine([u32; 30], [Record; 1]);

    impl Machine {
        fn ask(&mut self, request: u32, rank: u32, tag: u32) -> (u32, [u32; 3]) {
            let mut out = [9; 3];
            let number = cycled(&mut self.0, 2, 2, &mut self.1, request, element(rank, tag, 0), &mut out);
            (number.map_or_else(No::number, |()| 0), out)
        }
        /// Counts and places of the root, and the children's first ranks.
        fn root(&self) -> ([u32; 2], [u32; 2], [u32; 2]) {
            let s = &self.0;
            ([s[0], s[1]], [s[2], s[6]], [s[12], s[22]])
        }
        fn pushed() -> Machine {
            let mut m = Machine([7; 30], [[9; 6]]);
            clear(&mut m.0, 2, 2, &mut m.1).unwrap();
            for rank in [5, 3, 8, 1] {
                assert_eq!(m.ask(1, rank, 10 * rank), (0, [0; 3]));
            }
            let mut out = [9; 2];
            drain(&mut m.0, 2, 2, &mut m.1, 9, &mut out).unwrap();
            assert_eq!((out, m.root()), ([1, 0], ([1, 1], [1, 3], [8, 5])));
            m
        }
    }

    /// The rules' own table: a pop, and a push in the cycle after it.
    #[test]
    fn worked() {
        let mut m = Machine::pushed();
        assert_eq!(m.ask(2, 0, 0), (0, [1, 10, 0]));
        assert_eq!((m.root(), m.1[0]), (([1, 1], [0, 3], [8, 5]), [2, 0, 0, 0, 0, 0]));
        assert_eq!(m.ask(1, 4, 40), (0, [0; 3]));
        assert_eq!((m.root(), m.1[0]), (([1, 1], [4, 3], [8, 0]), [1, 1, 0, 5, 50, 0]));
        assert_eq!(m.ask(0, 0, 0), (0, [0; 3]));
        assert_eq!((m.root(), m.1[0]), (([1, 1], [4, 3], [8, 5]), [0; 6]));
    }

    /// A replace leaves the newcomer on trial for a cycle, and pops follow each other without a pause.
    #[test]
    fn trials_and_pops() {
        let mut m = Machine::pushed();
        assert_eq!(m.ask(3, 6, 7), (0, [1, 10, 0]));
        assert_eq!((m.root(), m.1[0]), (([1, 1], [6, 3], [8, 5]), [3, 0, 0, 6, 7, 0]));
        assert_eq!(m.ask(0, 0, 0), (0, [0; 3]));
        assert_eq!((m.root(), m.1[0]), (([1, 1], [5, 3], [8, 6]), [0; 6]));
        let ranks = [0; 5].map(|_| m.ask(2, 0, 0));
        assert_eq!(ranks.map(|(number, out)| (number, out[0])), [(0, 3), (0, 5), (0, 6), (0, 8), (6, 0)]);
    }
}
