//! The calls as the C library offers them: slices of numbers in, a refusal number out.
//!
//! What is the boundary's own, and not the paper's, stands here and nowhere else: which faults it
//! has (`faults`), what a refusal leaves in `out` (`tell`), and how a record is read and
//! written (`read_record`, `write_back`).

use crate::call::{Call, Op, Record, Slices};
use crate::clocked::{self, Request, Work, NOTHING};
use crate::tree::{self, Shape};
use crate::{bucket, element, shape_cause, Causes, Element, No};

/// The words of an answer: rank, tag, length.
pub const OUT: usize = 3;

/// The words of a drain's answer: the cycles run, and whether work is left.
const DRAIN_OUT: usize = 2;

/// A record as the boundary reads it. Numbers that the kind doesn't use decide nothing.
fn read_record(&[kind, node, rank, tag, length]: &Record) -> Work {
    let x = element(rank, tag, length);
    match kind {
        1 => Work::Put { node, x },
        2 => Work::Take { node },
        3 => Work::Swap { node, x },
        _ => Work::Nothing([node, rank, tag, length]),
    }
}

/// The records of levels 2 to L as the call leaves them. Called after a clear, after a cycle that ran
/// (as asked or as an idle one) and after a drain of at least one cycle; numbers that a kind doesn't
/// use are written 0, but a record of nothing that was never loaded has its own. Nothing is written
/// where no cycle ran.
fn write_back(records: &mut [Record], pending: &[Work]) {
    for (record, work) in records.iter_mut().zip(pending) {
        *record = match *work {
            Work::Nothing([node, rank, tag, length]) => [0, node, rank, tag, length],
            Work::Put { node, x } => [1, node, x.rank, x.tag, x.length],
            Work::Take { node } => [2, node, 0, 0, 0],
            Work::Swap { node, x } => [3, node, x.rank, x.tag, x.length],
        };
    }
}

/// The boundary's own faults of a clocked call. Records are looked at where order and levels are
/// good: only then is it known how many there are.
fn faults(order: u32, levels: u32, records: &[Record], mark: &[u32], request: u32) -> Causes {
    let mut c = 0;
    if request > 3 {
        c |= shape_cause::REQUEST;
    }
    if mark.is_empty() {
        c |= shape_cause::MARK_SHORT;
    } else if mark[0] > 1 {
        c |= shape_cause::MARK_WORD;
    }
    if let Some(shape) = Shape::new(order, levels) {
        let need = shape.levels as usize - 1;
        if records.len() < need {
            c |= shape_cause::RECORDS;
        } else if records[..need].iter().any(|r| r[0] > 3) {
            c |= shape_cause::KIND;
        }
    }
    c
}

/// The fault of an `out` that has less than the `need` words of an answer.
fn out_fault(out: &[u32], need: usize) -> Causes {
    if out.len() < need {
        shape_cause::OUT
    } else {
        0
    }
}

/// What a call leaves in `out`: the words of its answer, zeros on a refusal. An `out` that is too short is not touched.
fn tell<const NEED: usize>(result: Result<[u32; NEED], No>, out: &mut [u32]) -> Result<(), No> {
    if out.len() >= NEED {
        out[..NEED].copy_from_slice(&result.unwrap_or([0; NEED]));
    }
    result.map(|_| ())
}

fn answer(result: Result<Element, No>, out: &mut [u32]) -> Result<(), No> {
    tell::<OUT>(result.map(|x| [x.rank, x.tag, x.length]), out)
}

/// A call that answers an element: it is made where `out` has room for one.
pub fn told(out: &mut [u32], call: impl FnOnce() -> Result<Element, No>) -> Result<(), No> {
    let fault = out_fault(out, OUT);
    answer(if fault == 0 { call() } else { Err(No::BadShape(fault)) }, out)
}

/// A call that answers a count.
pub fn counted(out: &mut [u32], call: impl FnOnce() -> Result<u32, No>) -> Result<(), No> {
    let fault = out_fault(out, 1);
    let result = if fault == 0 { call() } else { Err(No::BadShape(fault)) };
    tell(result.map(|n| [n]), out)
}

/// A call of the library.
pub fn call(k: &Call, s: Slices<'_>) -> Result<(), No> {
    let Slices { words, bits, records, mark, out } = s;
    let (order, levels, storeys, nodes) = (k.order, k.levels, k.storeys, k.nodes);
    let (rank, tag, length) = (k.rank, k.tag, k.length);
    match k.op {
        Op::TreeClear => tree_clear(words, order, levels),
        Op::TreePush => tree_push(words, order, levels, rank, tag, length),
        Op::TreePop => tree_pop(words, order, levels, out),
        Op::TreeReplace => tree_replace(words, order, levels, rank, tag, length, out),
        Op::TreeHeld => tree_held(words, order, levels, out),
        Op::BucketClear => bucket_clear(bits, words, storeys, nodes),
        Op::BucketPush => bucket_push(bits, words, storeys, nodes, rank, tag, length),
        Op::BucketPop => bucket_pop(bits, words, storeys, nodes, out),
        Op::BucketReplace => bucket_replace(bits, words, storeys, nodes, rank, tag, length, out),
        Op::BucketHeld => bucket_held(bits, words, storeys, nodes, out),
        Op::ClockedClear => clocked_clear(words, order, levels, records, mark),
        Op::CycleIdle | Op::CyclePush | Op::CyclePop | Op::CycleReplace | Op::CycleOther => {
            clocked_cycle(words, order, levels, records, mark, k.request, rank, tag, length, out)
        }
        Op::ClockedDrain => clocked_drain(words, order, levels, records, mark, k.budget, out),
        Op::ClockedHeld => clocked_held(words, order, levels, out),
    }
}

pub fn tree_clear(store: &mut [u32], order: u32, levels: u32) -> Result<(), No> {
    tree::clear(store, order, levels)
}

pub fn tree_push(store: &mut [u32], order: u32, levels: u32, rank: u32, tag: u32, length: u32) -> Result<(), No> {
    tree::push(store, order, levels, element(rank, tag, length))
}

pub fn tree_pop(store: &mut [u32], order: u32, levels: u32, out: &mut [u32]) -> Result<(), No> {
    told(out, || tree::pop(store, order, levels))
}

pub fn tree_replace(
    store: &mut [u32],
    order: u32,
    levels: u32,
    rank: u32,
    tag: u32,
    length: u32,
    out: &mut [u32],
) -> Result<(), No> {
    told(out, || tree::replace(store, order, levels, element(rank, tag, length)))
}

pub fn tree_held(store: &[u32], order: u32, levels: u32, out: &mut [u32]) -> Result<(), No> {
    counted(out, || tree::held(store, order, levels))
}

pub fn bucket_clear(bits: &mut [u64], words: &mut [u32], storeys: u32, nodes: u32) -> Result<(), No> {
    bucket::clear(bits, words, storeys, nodes)
}

pub fn bucket_push(
    bits: &mut [u64],
    words: &mut [u32],
    storeys: u32,
    nodes: u32,
    rank: u32,
    tag: u32,
    length: u32,
) -> Result<(), No> {
    bucket::push(bits, words, storeys, nodes, element(rank, tag, length))
}

pub fn bucket_pop(bits: &mut [u64], words: &mut [u32], storeys: u32, nodes: u32, out: &mut [u32]) -> Result<(), No> {
    told(out, || bucket::pop(bits, words, storeys, nodes))
}

pub fn bucket_replace(
    bits: &mut [u64],
    words: &mut [u32],
    storeys: u32,
    nodes: u32,
    rank: u32,
    tag: u32,
    length: u32,
    out: &mut [u32],
) -> Result<(), No> {
    told(out, || bucket::replace(bits, words, storeys, nodes, element(rank, tag, length)))
}

pub fn bucket_held(bits: &[u64], words: &[u32], storeys: u32, nodes: u32, out: &mut [u32]) -> Result<(), No> {
    counted(out, || bucket::held(bits, words, storeys, nodes))
}

/// Clear reads neither the records nor the mark's word: only their lengths matter.
pub fn clocked_clear(
    store: &mut [u32],
    order: u32,
    levels: u32,
    records: &mut [Record],
    mark: &mut [u32],
) -> Result<(), No> {
    let c = faults(order, levels, records, mark, 0) & (shape_cause::MARK_SHORT | shape_cause::RECORDS);
    let shape = tree::shape(store, order, levels);
    if c != 0 {
        return Err(No::BadShape(c | causes(shape.err())));
    }
    let shape = shape?;
    let mut pending = vec![NOTHING; shape.levels as usize - 1];
    let mut on = false;
    clocked::clear(store, order, levels, &mut pending, &mut on)?;
    write_back(records, &pending);
    mark[0] = on as u32;
    Ok(())
}

fn causes(no: Option<No>) -> Causes {
    match no {
        Some(No::BadShape(c)) => c,
        _ => 0,
    }
}

/// The records of levels 2 to L.
fn pending(levels: u32, records: &[Record]) -> Vec<Work> {
    records[..levels as usize - 1].iter().map(read_record).collect()
}

#[allow(clippy::too_many_arguments)]
pub fn clocked_cycle(
    store: &mut [u32],
    order: u32,
    levels: u32,
    records: &mut [Record],
    mark: &mut [u32],
    request: u32,
    rank: u32,
    tag: u32,
    length: u32,
    out: &mut [u32],
) -> Result<(), No> {
    let shape = tree::shape(store, order, levels);
    let c = faults(order, levels, records, mark, request) | out_fault(out, OUT) | causes(shape.err());
    if c != 0 {
        return answer(Err(No::BadShape(c)), out);
    }
    let asked = match request {
        0 => Request::Idle,
        1 => Request::Push(element(rank, tag, length)),
        2 => Request::Pop,
        _ => Request::Replace(element(rank, tag, length)),
    };
    let mut work = pending(levels, records);
    let mut on = mark[0] == 1;
    let result = clocked::cycle(store, order, levels, &mut work, &mut on, asked);
    let ran = !matches!(result, Err(No::BadShape(_)) | Err(No::Damaged(_)));
    if ran {
        write_back(records, &work);
        mark[0] = on as u32;
    }
    answer(result, out)
}

pub fn clocked_drain(
    store: &mut [u32],
    order: u32,
    levels: u32,
    records: &mut [Record],
    mark: &mut [u32],
    budget: u32,
    out: &mut [u32],
) -> Result<(), No> {
    let shape = tree::shape(store, order, levels);
    let c = faults(order, levels, records, mark, 0) | out_fault(out, DRAIN_OUT) | causes(shape.err());
    if c != 0 {
        return tell::<DRAIN_OUT>(Err(No::BadShape(c)), out);
    }
    let mut work = pending(levels, records);
    let mut on = mark[0] == 1;
    let drained = clocked::drain(store, order, levels, &mut work, &mut on, budget);
    if drained.cycles > 0 {
        write_back(records, &work);
        mark[0] = on as u32;
    }
    tell::<DRAIN_OUT>(Ok([drained.cycles, drained.work_left as u32]), out)?;
    drained.refused.map_or(Ok(()), Err)
}

pub fn clocked_held(store: &[u32], order: u32, levels: u32, out: &mut [u32]) -> Result<(), No> {
    counted(out, || clocked::held(store, order, levels))
}
