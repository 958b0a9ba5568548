//! The same tree worked by clock cycles: a store, a pending record for each level from 2, a mark.

use crate::tree::{self, cause, Node, Shape, Slot, Writes};
use crate::{shape_cause, Causes, Element, No};

/// A pending record. One of nothing has the four numbers behind its kind as they were handed in: no step reads them, and where the
/// record is not loaded they stand.
#[derive(Clone, Copy, PartialEq, Eq, Debug)]
pub enum Work {
    Nothing([u32; 4]),
    Put { node: u32, x: Element },
    Take { node: u32 },
    Swap { node: u32, x: Element },
}

/// Nothing, as it is written: numbers that a kind doesn't use are 0.
pub const NOTHING: Work = Work::Nothing([0; 4]);

impl Work {
    pub fn is_nothing(self) -> bool {
        matches!(self, Work::Nothing(_))
    }
}

/// What a cycle is asked for.
#[derive(Clone, Copy, PartialEq, Eq, Debug)]
pub enum Request {
    Idle,
    Push(Element),
    Pop,
    Replace(Element),
}

/// What a drain reports.
#[derive(Clone, Copy, PartialEq, Eq, Debug)]
pub struct Drained {
    pub refused: Option<No>,
    pub cycles: u32,
    pub work_left: bool,
}

/// What one level does in one cycle: the words of its own level, and the next level's record.
struct Step {
    gives: Element,
    writes: Writes,
    loads: Work,
}

/// The places that a step's own node and the node below it are counted under.
#[derive(Clone, Copy)]
struct Places {
    own: u32,
    under: u32,
}

const ASKED: Places = Places { own: cause::ROOT, under: cause::BELOW };
const PENDING_PUT: Places = Places { own: cause::PUT, under: cause::PUT };
const PENDING_TAKE: Places = Places { own: cause::TAKE, under: cause::UNDER_TAKE };
const PENDING_SWAP: Places = Places { own: cause::SWAP, under: cause::UNDER_SWAP };

fn lowest_below(shape: Shape, store: &[u32], level: u64, node: u64, at: Places) -> Result<Element, Causes> {
    let n = Node::read(shape, store, level, node).map_err(|c| cause::at(at.under, c))?;
    match n.lowest() {
        Some(j) => Ok(n.slots()[j].element()),
        None => Err(cause::at(at.under, cause::EMPTY)),
    }
}

fn put_step(shape: Shape, store: &[u32], level: u64, node: u64, x: Element, at: Places) -> Result<Step, Causes> {
    let n = Node::read(shape, store, level, node).map_err(|c| cause::at(at.own, c))?;
    let mut writes = Writes::new();
    if let Some(j) = n.first_empty() {
        writes.slot(shape, level, node, j, Slot::holding(x, 1));
        return Ok(Step { gives: Element::default(), writes, loads: NOTHING });
    }
    if level > 1 && n.every_count_at_limit() {
        return Err(cause::at(at.own, cause::FULL));
    }
    let j = n.smallest_count();
    let s = n.slots()[j];
    let (stays, left_over) = if x.rank < s.rank { (x, s.element()) } else { (s.element(), x) };
    writes.slot(shape, level, node, j, Slot::holding(stays, s.count + 1));
    let below = (node * shape.order + j as u64) as u32;
    Ok(Step { gives: Element::default(), writes, loads: Work::Put { node: below, x: left_over } })
}

fn take_step(shape: Shape, store: &[u32], level: u64, node: u64, at: Places) -> Result<Step, Causes> {
    let n = Node::read(shape, store, level, node).map_err(|c| cause::at(at.own, c))?;
    let j = match n.lowest() {
        Some(j) => j,
        None => return Err(cause::at(at.own, cause::EMPTY)),
    };
    let s = n.slots()[j];
    let mut writes = Writes::new();
    let count = s.count - 1;
    if count == 0 {
        writes.slot(shape, level, node, j, Slot::default());
        return Ok(Step { gives: s.element(), writes, loads: NOTHING });
    }
    let below = node * shape.order + j as u64;
    let lowest = lowest_below(shape, store, level + 1, below, at)?;
    writes.slot(shape, level, node, j, Slot::holding(lowest, count));
    Ok(Step { gives: s.element(), writes, loads: Work::Take { node: below as u32 } })
}

fn swap_step(shape: Shape, store: &[u32], level: u64, node: u64, x: Element, at: Places) -> Result<Step, Causes> {
    let n = Node::read(shape, store, level, node).map_err(|c| cause::at(at.own, c))?;
    let j = match n.lowest() {
        Some(j) => j,
        None => return Err(cause::at(at.own, cause::EMPTY)),
    };
    let s = n.slots()[j];
    let mut writes = Writes::new();
    if s.count == 1 {
        writes.slot(shape, level, node, j, Slot::holding(x, s.count));
        return Ok(Step { gives: s.element(), writes, loads: NOTHING });
    }
    let below = node * shape.order + j as u64;
    let lowest = lowest_below(shape, store, level + 1, below, at)?;
    if lowest.rank < x.rank {
        writes.slot(shape, level, node, j, Slot::holding(lowest, s.count));
        Ok(Step { gives: s.element(), writes, loads: Work::Swap { node: below as u32, x } })
    } else {
        writes.slot(shape, level, node, j, Slot::holding(x, s.count));
        Ok(Step { gives: s.element(), writes, loads: NOTHING })
    }
}

/// The step that a level's pending record asks for.
fn pending_step(shape: Shape, store: &[u32], level: u64, work: Work) -> Result<Step, Causes> {
    let lacks = |node: u32| node as u64 >= shape.nodes(level);
    match work {
        Work::Nothing(_) => Ok(Step { gives: Element::default(), writes: Writes::new(), loads: NOTHING }),
        Work::Put { node, x } => {
            if lacks(node) {
                return Err(cause::at(cause::PUT, cause::RANGE));
            }
            put_step(shape, store, level, node as u64, x, PENDING_PUT)
        }
        Work::Take { node } => {
            if lacks(node) {
                return Err(cause::at(cause::TAKE, cause::RANGE));
            }
            take_step(shape, store, level, node as u64, PENDING_TAKE)
        }
        Work::Swap { node, x } => {
            if lacks(node) {
                return Err(cause::at(cause::SWAP, cause::RANGE));
            }
            swap_step(shape, store, level, node as u64, x, PENDING_SWAP)
        }
    }
}

/// The asked operation's root step, with its refusals 2, 3, 7, and then 5 or 6, in this order. An
/// idle cycle reads no root.
fn root_step(shape: Shape, store: &[u32], mark: bool, request: Request) -> Result<Step, No> {
    let damaged = No::Damaged;
    match request {
        Request::Idle => Ok(Step { gives: Element::default(), writes: Writes::new(), loads: NOTHING }),
        Request::Push(x) => {
            let n = tree::root(shape, store)?;
            if x.tag == 0 {
                return Err(No::NoTag);
            }
            if n.held() == shape.capacity() {
                return Err(No::Full);
            }
            put_step(shape, store, 1, 0, x, ASKED).map_err(damaged)
        }
        Request::Pop => {
            let n = tree::root(shape, store)?;
            if mark {
                return Err(No::TooSoon);
            }
            if n.held() == 0 {
                return Err(No::Empty);
            }
            take_step(shape, store, 1, 0, ASKED).map_err(damaged)
        }
        Request::Replace(x) => {
            let n = tree::root(shape, store)?;
            if mark {
                return Err(No::TooSoon);
            }
            if x.tag == 0 {
                return Err(No::NoTag);
            }
            if n.held() == 0 {
                return Err(No::Empty);
            }
            swap_step(shape, store, 1, 0, x, ASKED).map_err(damaged)
        }
    }
}

fn shape_of(store: &[u32], order: u32, levels: u32, records: usize) -> Result<Shape, No> {
    let shape = tree::shape(store, order, levels)?;
    if (records as u64) < shape.levels - 1 {
        return Err(No::BadShape(shape_cause::RECORDS));
    }
    Ok(shape)
}

/// The store all zero, none pending, the mark off. Records past the last level are left alone.
pub fn clear(store: &mut [u32], order: u32, levels: u32, pending: &mut [Work], mark: &mut bool) -> Result<(), No> {
    let shape = shape_of(store, order, levels, pending.len())?;
    tree::clear(store, order, levels)?;
    for record in &mut pending[..(shape.levels - 1) as usize] {
        *record = NOTHING;
    }
    *mark = false;
    Ok(())
}

/// One cycle. `pending[k]` is the record of level k + 2.
pub fn cycle(
    store: &mut [u32],
    order: u32,
    levels: u32,
    pending: &mut [Work],
    mark: &mut bool,
    request: Request,
) -> Result<Element, No> {
    let shape = shape_of(store, order, levels, pending.len())?;

    // Every level reads what stood at the cycle's start; damage met by any of them is the cycle's.
    let mut broken: Causes = 0;
    let mut steps = Vec::new();
    for level in 2..=shape.levels {
        match pending_step(shape, store, level, pending[(level - 2) as usize]) {
            Ok(step) => steps.push(step),
            Err(causes) => broken |= causes,
        }
    }
    let asked = root_step(shape, store, *mark, request);
    if let Err(No::Damaged(causes)) = asked {
        broken |= causes;
    }
    if broken != 0 {
        return Err(No::Damaged(broken));
    }

    // From here on the cycle runs: as asked, or as an idle one where the operation is refused.
    let mut loaded = vec![NOTHING; shape.levels as usize + 1];
    let mut writes = Writes::new();
    for (k, step) in steps.into_iter().enumerate() {
        // the step of level k + 2 loads the record of level k + 3
        loaded[k + 1] = step.loads;
        writes.append(step.writes);
    }
    let answer = match asked {
        Ok(step) => {
            loaded[0] = step.loads;
            writes.append(step.writes);
            Ok(step.gives)
        }
        Err(no) => Err(no),
    };
    writes.done(store);
    for (record, load) in pending[..(shape.levels - 1) as usize].iter_mut().zip(loaded) {
        // a level with nothing to do changes no word: its record stands, unless the level above loads it
        if !(record.is_nothing() && load.is_nothing()) {
            *record = load;
        }
    }
    *mark = request != Request::Idle && answer.is_ok();
    answer
}

/// Whether any level's record is something other than nothing.
pub fn any_pending(shape: Shape, pending: &[Work]) -> bool {
    pending[..(shape.levels - 1) as usize].iter().any(|w| !w.is_nothing())
}

/// Idle cycles until nothing is pending or the budget is spent.
pub fn drain(
    store: &mut [u32],
    order: u32,
    levels: u32,
    pending: &mut [Work],
    mark: &mut bool,
    budget: u32,
) -> Drained {
    let shape = match shape_of(store, order, levels, pending.len()) {
        Ok(shape) => shape,
        Err(no) => return Drained { refused: Some(no), cycles: 0, work_left: false },
    };
    let mut cycles = 0;
    while any_pending(shape, pending) && cycles < budget {
        if let Err(no) = cycle(store, order, levels, pending, mark, Request::Idle) {
            return Drained { refused: Some(no), cycles, work_left: true };
        }
        cycles += 1;
    }
    Drained { refused: None, cycles, work_left: any_pending(shape, pending) }
}

/// Reads the root alone, no record.
pub fn held(store: &[u32], order: u32, levels: u32) -> Result<u32, No> {
    tree::held(store, order, levels)
}
