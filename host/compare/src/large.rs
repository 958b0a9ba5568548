//! Large trees: filled to the brim and worked there, so that every level has its part. The answers of each call are compared; the words
//! of so large a store after the last call of a stretch, and after every call at the brim.

use crate::harness::Harness;
use crate::side::Side;
use models::boundary::OUT;
use models::call::{Call, Op};
use models::rng::Rng;
use models::tree::{Shape, SLOT};
use models::{boundary, element, Element};

/// How many calls at the brim are compared word for word.
const CLOSE: u64 = 40;

/// How many more are made there, compared by their answers.
const MORE: u64 = 1000;

fn any(rng: &mut Rng) -> Element {
    let ranks = rng.pick(&[3, 1 << 10, 1 << 31]);
    element(rng.below(ranks) as u32, 1 + rng.below(1 << 20) as u32, rng.word())
}

/// One history of the one-at-a-time tree: up to the brim, calls there, and down to nothing by rising ranks.
pub fn tree(h: &mut Harness, rng: &mut Rng, order: u32, levels: u32) {
    let capacity = Shape::new(order, levels).unwrap().capacity();
    let words = SLOT * capacity as usize + rng.below(4) as usize;
    let ask = |op| Call::tree(op, order, levels, words);
    h.set(&Side::new(words, 0, 0));
    if h.call(&ask(Op::TreeClear)) != Some(0) {
        return h.fail(format!("clear of order {order}, levels {levels} was refused"));
    }
    for n in 0..capacity {
        let x = any(rng);
        if h.answers(&ask(Op::TreePush).with(x.rank, x.tag, x.length)) != Some(0) {
            return h.fail(format!("order {order}, levels {levels}: push {n} was refused"));
        }
    }
    if h.call(&ask(Op::TreePush).with(5, 50, 500)) != Some(5) {
        return h.fail(format!("order {order}, levels {levels}: a push into a full tree was not refused 5"));
    }
    for n in 0..CLOSE + MORE {
        let x = any(rng);
        let k =
            ask(rng.pick(&[Op::TreePush, Op::TreePop, Op::TreeReplace, Op::TreeReplace])).with(x.rank, x.tag, x.length);
        if if n < CLOSE { h.call(&k) } else { h.answers(&k) }.is_none() {
            return;
        }
    }
    if h.call(&ask(Op::TreeHeld)).is_none() {
        return;
    }
    let held = h.out()[0];
    let mut last = 0;
    for n in 0..held {
        if h.answers(&ask(Op::TreePop)) != Some(0) || h.answer().rank < last {
            return h.fail(format!("order {order}, levels {levels}: pop {n} of {held} is not the lowest that is left"));
        }
        last = h.answer().rank;
    }
    if h.call(&ask(Op::TreePop)) != Some(6) || h.desk.model.words[..SLOT * capacity as usize].iter().any(|w| *w != 0) {
        h.fail(format!("order {order}, levels {levels}: something is left of an emptied tree"));
    }
}

/// The clocked tree beside the one-at-a-time model: its words and its mark.
struct Beside {
    order: u32,
    levels: u32,
    words: Vec<u32>,
    mark: bool,
}

impl Beside {
    /// What a request is answered, and its number.
    fn asked(&mut self, request: u32, x: Element) -> (u32, Element) {
        let (words, order, levels, mut out) = (&mut self.words, self.order, self.levels, [0; OUT]);
        let number = if request >= 2 && self.mark {
            3
        } else {
            let result = match request {
                0 => Ok(()),
                1 => boundary::tree_push(words, order, levels, x.rank, x.tag, x.length),
                2 => boundary::tree_pop(words, order, levels, &mut out),
                _ => boundary::tree_replace(words, order, levels, x.rank, x.tag, x.length, &mut out),
            };
            result.err().map_or(0, |no| no.number())
        };
        self.mark = request != 0 && number == 0;
        (number, element(out[0], out[1], out[2]))
    }
}

/// One history of the clocked tree: pushes without a pause, so that every level has work, up to the brim, and requests of every kind there.
pub fn clocked(h: &mut Harness, rng: &mut Rng, order: u32, levels: u32) {
    let capacity = Shape::new(order, levels).unwrap().capacity();
    let need = SLOT * capacity as usize;
    let (words, records) = (need + rng.below(4) as usize, levels as usize - 1 + rng.below(3) as usize);
    let machine = |op| Call::machine(op, order, levels, words, records);
    let mut alone = Beside { order, levels, words: vec![0; need], mark: false };
    h.set(&Side::new(words, 0, records));
    if h.call(&machine(Op::ClockedClear)) != Some(0) {
        return h.fail(format!("clear of order {order}, levels {levels} was refused"));
    }
    for n in 0..capacity + CLOSE + MORE {
        let x = any(rng);
        let request = if n < capacity { 1 } else { rng.below(4) as u32 };
        let k = Call::cycle(request, order, levels, words, records).with(x.rank, x.tag, x.length);
        let close = capacity <= n && n < capacity + CLOSE;
        let number = match if close { h.call(&k) } else { h.answers(&k) } {
            Some(number) => number,
            None => return,
        };
        let (answer, expected) = ((number, h.answer()), alone.asked(request, x));
        if answer != expected {
            return h.fail(format!(
                "order {order}, levels {levels}, cycle {n}, request {request} {x:?}: {answer:?}; one at a time {expected:?}"
            ));
        }
    }
    if h.call(&machine(Op::ClockedDrain).budget(levels)) != Some(0) || h.out()[1] != 0 {
        return h.fail(format!("order {order}, levels {levels}: the last drain left work"));
    }
    if h.desk.model.words[..need] != alone.words[..] {
        h.fail(format!("order {order}, levels {levels}: drained, yet not the store of one at a time"));
    }
}
