//! The tree, the bucket queue and the clocked tree at the desk: one kind of call and one kind of side for the three.

use crate::desk::{as_structs, first, Guard, Same, Subject, GUARD};
use card_host::calls;
use models::call::{Call, Op, Record, Slices, NAMES};
use models::{boundary, No};

/// The three queues.
pub struct Trees;

impl Subject for Trees {
    type Store = Side;
    type Call = Call;
    const CALLS: &'static [&'static str] = &NAMES;

    fn kind(k: &Call) -> usize {
        k.op as usize
    }

    fn out(k: &Call) -> usize {
        k.out
    }

    fn library(k: &Call, side: &mut Side, out: &mut [u32]) -> u32 {
        let Slices { words, bits, records, mark, out } = side.slices(k, out);
        let (order, levels, storeys, nodes) = (k.order, k.levels, k.storeys, k.nodes);
        let (rank, tag, length) = (k.rank, k.tag, k.length);
        match k.op {
            Op::TreeClear => calls::tree_clear(words, order, levels),
            Op::TreePush => calls::tree_push(words, order, levels, rank, tag, length),
            Op::TreePop => calls::tree_pop(words, order, levels, out),
            Op::TreeReplace => calls::tree_replace(words, order, levels, rank, tag, length, out),
            Op::TreeHeld => calls::tree_held(words, order, levels, out),
            Op::BucketClear => calls::bucket_clear(bits, words, storeys, nodes),
            Op::BucketPush => calls::bucket_push(bits, words, storeys, nodes, rank, tag, length),
            Op::BucketPop => calls::bucket_pop(bits, words, storeys, nodes, out),
            Op::BucketReplace => calls::bucket_replace(bits, words, storeys, nodes, rank, tag, length, out),
            Op::BucketHeld => calls::bucket_held(bits, words, storeys, nodes, out),
            Op::ClockedClear => {
                as_structs(records, |records| calls::clocked_clear(words, order, levels, records, mark))
            }
            Op::CycleIdle | Op::CyclePush | Op::CyclePop | Op::CycleReplace | Op::CycleOther => {
                as_structs(records, |records| {
                    calls::clocked_cycle(words, order, levels, records, mark, k.request, rank, tag, length, out)
                })
            }
            Op::ClockedDrain => {
                as_structs(records, |records| calls::clocked_drain(words, order, levels, records, mark, k.budget, out))
            }
            Op::ClockedHeld => calls::clocked_held(words, order, levels, out),
        }
    }

    fn model(k: &Call, side: &mut Side, out: &mut [u32]) -> Result<(), No> {
        boundary::call(k, side.slices(k, out))
    }
}

/// All the words that one side's calls are made on. A call is given the first so many of each.
#[derive(Clone, Debug)]
pub struct Side {
    pub words: Vec<u32>,
    pub bits: Vec<u64>,
    pub records: Vec<Record>,
    pub mark: Vec<u32>,
}

impl Side {
    pub fn new(words: usize, bits: usize, records: usize) -> Side {
        Side {
            words: vec![u32::GUARD; words + GUARD],
            bits: vec![u64::GUARD; bits + GUARD],
            records: vec![Record::GUARD; records + GUARD],
            mark: vec![0, u32::GUARD],
        }
    }

    /// Every word as in the other.
    pub fn copy_from(&mut self, other: &Side) {
        copy(&mut self.words, &other.words);
        copy(&mut self.bits, &other.bits);
        copy(&mut self.records, &other.records);
        copy(&mut self.mark, &other.mark);
    }

    /// What a call is lent: the first so many words of each.
    fn slices<'a>(&'a mut self, k: &Call, out: &'a mut [u32]) -> Slices<'a> {
        Slices {
            words: &mut self.words[..k.words],
            bits: &mut self.bits[..k.bits],
            records: &mut self.records[..k.records],
            mark: &mut self.mark[..k.mark],
            out,
        }
    }
}

impl Same for Side {
    fn difference(&self, model: &Side) -> Option<String> {
        let words = first("store word", &self.words, &model.words);
        let bits = || first("word of bits", &self.bits, &model.bits);
        let records = || first("record", &self.records, &model.records);
        words.or_else(bits).or_else(records).or_else(|| first("mark word", &self.mark, &model.mark))
    }
}

/// Copies in small pieces: an emulator is slow with the one long move that a large copy becomes.
fn copy<T: Copy + Default>(to: &mut Vec<T>, from: &[T]) {
    to.resize(from.len(), T::default());
    for (to, from) in to.chunks_mut(128).zip(from.chunks(128)) {
        to.copy_from_slice(from);
    }
}
