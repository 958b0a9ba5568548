//! Random histories from cleared stores: library against model word for word, and the model's
//! answers against the plain sorted list.

use crate::harness::Harness;
use crate::side::Side;
use models::boundary::OUT;
use models::call::{Call, Op};
use models::flight::Flight;
use models::list::SortedList;
use models::rng::Rng;
use models::tree::{Shape, SLOT};
use models::{boundary, bucket, element, Element};

/// Numbers that a history draws ranks or tags from.
#[derive(Clone, Copy)]
pub enum Draw {
    Below(u32),
    Any,
    High,
    Rising,
}

fn draw(rng: &mut Rng, how: Draw, n: u64) -> u32 {
    match how {
        Draw::Below(k) => rng.below(k as u64) as u32,
        Draw::Any => rng.word(),
        Draw::High => u32::MAX - rng.below(3) as u32,
        Draw::Rising => n as u32,
    }
}

fn draw_ranks(rng: &mut Rng) -> Draw {
    rng.pick(&[
        Draw::Below(1),
        Draw::Below(2),
        Draw::Below(4),
        Draw::Below(16),
        Draw::Below(1000),
        Draw::Any,
        Draw::Any,
        Draw::High,
        Draw::Rising,
    ])
}

fn draw_tags(rng: &mut Rng) -> Draw {
    rng.pick(&[Draw::Rising, Draw::Rising, Draw::Below(3), Draw::Any])
}

/// A tag; now and then 0, which is none.
fn draw_tag(rng: &mut Rng, how: Draw, n: u64) -> u32 {
    if rng.once_in(25) {
        return 0;
    }
    draw(rng, how, n).max(1)
}

/// A length; now and then 0 or the highest.
fn draw_length(rng: &mut Rng) -> u32 {
    match rng.below(8) {
        0 => 0,
        1 => u32::MAX,
        2 => rng.word(),
        _ => 1 + rng.below(9216) as u32,
    }
}

/// How often push, pop and replace are asked for, out of a hundred; the rest is held.
fn mood(rng: &mut Rng) -> (u64, u64, u64) {
    rng.pick(&[(90, 5, 4), (60, 25, 12), (34, 33, 30), (20, 60, 17), (4, 90, 4), (10, 10, 78), (96, 1, 1), (1, 96, 1)])
}

/// Every shape that is taken.
pub fn shapes() -> Vec<(u32, u32)> {
    let mut all = Vec::new();
    for order in [2, 4, 8] {
        let mut levels = 1;
        while Shape::new(order, levels).is_some() {
            all.push((order, levels));
            levels += 1;
        }
    }
    all
}

/// Shapes up to so many slots are compared word for word after every call; larger ones have parts of their own.
pub const SMALLER: u64 = 5460;

pub fn larger() -> Vec<(u32, u32)> {
    shapes().into_iter().filter(|&(o, l)| Shape::new(o, l).unwrap().capacity() > SMALLER).collect()
}

/// Shapes with at most so many slots.
pub fn shapes_up_to(slots: u64) -> Vec<(u32, u32)> {
    shapes().into_iter().filter(|&(o, l)| Shape::new(o, l).unwrap().capacity() <= slots).collect()
}

/// The answer of a tree's call, held to the plain list. The tree's order within a rank is its own:
/// the rank must be the list's, and the element must be one that is held, its tag and its length too.
fn held_to_list(
    list: &mut SortedList,
    op: Op,
    x: Element,
    capacity: u64,
    number: u32,
    answer: Element,
    out0: u32,
) -> Result<(), String> {
    let none = element(0, 0, 0);
    match op {
        Op::TreePush | Op::TreeReplace if x.tag == 0 => {
            // a push has no words for an answer
            if number != 7 || (op == Op::TreeReplace && answer != none) {
                return Err(format!("{} with tag 0 answered {number}, {answer:?}", op.name()));
            }
        }
        Op::TreePush => {
            let full = list.held() as u64 == capacity;
            if number != if full { 5 } else { 0 } {
                return Err(format!("push with {} held answered {number}", list.held()));
            }
            if !full {
                list.push(x);
            }
        }
        Op::TreePop => match list.lowest() {
            None => {
                if (number, answer) != (6, none) {
                    return Err(format!("pop with nothing held answered {number}, {answer:?}"));
                }
            }
            Some(rank) => {
                if number != 0 || answer.rank != rank || !list.take_out(answer) {
                    return Err(format!("pop answered {number}, {answer:?}; the list's lowest rank is {rank}"));
                }
            }
        },
        // a pop and then a push
        Op::TreeReplace => match list.lowest() {
            None => {
                if (number, answer) != (6, none) {
                    return Err(format!("replace with nothing held answered {number}, {answer:?}"));
                }
            }
            Some(rank) => {
                if number != 0 || answer.rank != rank || !list.take_out(answer) {
                    return Err(format!("replace answered {number}, {answer:?}; the list's lowest rank is {rank}"));
                }
                list.push(x);
            }
        },
        _ => {
            if (number, out0) != (0, list.held() as u32) {
                return Err(format!("held answered {number}, {out0}; the list holds {}", list.held()));
            }
        }
    }
    Ok(())
}

/// One history of the one-at-a-time tree.
pub fn tree(h: &mut Harness, rng: &mut Rng, order: u32, levels: u32, calls: u64, fill: bool) {
    let capacity = Shape::new(order, levels).unwrap().capacity();
    let need = SLOT * capacity as usize;
    let words = need + rng.below(4) as usize;
    let side = Side::new(words, 0, 0);
    h.set(&side);
    let (ranks, tags) = (draw_ranks(rng), draw_tags(rng));
    let mut list = SortedList::new();
    if h.call(&Call::tree(Op::TreeClear, order, levels, words)) != Some(0) {
        return h.fail(format!("clear of order {order}, levels {levels} was refused"));
    }
    let mut weights = mood(rng);
    for n in 0..calls {
        if rng.below(2 * capacity + 10) < 4 {
            weights = mood(rng);
        }
        if fill {
            // up to the brim, round the replaces there, and down to nothing
            let third = n * 3 / calls;
            weights = [(99, 0, 0), (30, 2, 66), (0, 99, 0)][third as usize];
        }
        let (push, pop, replace) = weights;
        let at = rng.below(100);
        let op = if at < push {
            Op::TreePush
        } else if at < push + pop {
            Op::TreePop
        } else if at < push + pop + replace {
            Op::TreeReplace
        } else {
            Op::TreeHeld
        };
        let x = element(draw(rng, ranks, n), draw_tag(rng, tags, n), draw_length(rng));
        let number = match h.call(&Call::tree(op, order, levels, words).with(x.rank, x.tag, x.length)) {
            Some(number) => number,
            None => return,
        };
        if let Err(what) = held_to_list(&mut list, op, x, capacity, number, h.answer(), h.out()[0]) {
            return h.fail(format!("order {order}, levels {levels}, call {n} of a history: {what}"));
        }
    }
    // what is left comes out in order, and nothing else
    let mut left = calls < 5000;
    while left {
        let number = match h.call(&Call::tree(Op::TreePop, order, levels, words)) {
            Some(number) => number,
            None => return,
        };
        let none = element(0, 0, 0);
        if let Err(what) = held_to_list(&mut list, Op::TreePop, none, capacity, number, h.answer(), h.out()[0]) {
            return h.fail(format!("order {order}, levels {levels}, emptying: {what}"));
        }
        left = number != 6;
    }
}

/// The ranks that a history of a bucket queue draws from: a few, those at the edges of words, one for each word, or any.
fn bucket_ranks(rng: &mut Rng, storeys: u32) -> Vec<u32> {
    let ranks = bucket::ranks(storeys) as u64;
    let few = match rng.below(6) {
        0 => 1,
        1 => 4,
        2 => return (0..64).collect(),
        3 => {
            let last = ranks as u32 - 1;
            return vec![
                0,
                63,
                64,
                127,
                128,
                4031,
                4032,
                4094,
                4095,
                last / 2,
                last / 2 + 1,
                last - 64,
                last - 63,
                last,
            ];
        }
        4 => return (0..64).map(|g| (ranks / 64) as u32 * g + 5).collect(),
        _ => 4096,
    };
    (0..few).map(|_| rng.below(ranks) as u32).collect()
}

/// One history of the bucket queue: exact elements.
pub fn bucket(h: &mut Harness, rng: &mut Rng, storeys: u32, nodes: u32, calls: u64, fill: bool) {
    let need = bucket::words(storeys, nodes as u64) as usize;
    let (bits, words) = (bucket::bits(storeys) + rng.below(3) as usize, need + rng.below(4) as usize);
    let ranks = bucket::ranks(storeys) as u32;
    let side = Side::new(words, bits, 0);
    h.set(&side);
    let pool = bucket_ranks(rng, storeys);
    let tags = draw_tags(rng);
    let mut list = SortedList::new();
    if h.call(&Call::bucket(Op::BucketClear, storeys, nodes, bits, words)) != Some(0) {
        return h.fail(format!("clear with {storeys} storeys and N = {nodes} was refused"));
    }
    let mut weights = mood(rng);
    let none = element(0, 0, 0);
    for n in 0..calls {
        if rng.below(2 * nodes as u64 + 10) < 4 {
            weights = mood(rng);
        }
        if fill {
            let third = n * 3 / calls;
            weights = [(99, 0, 0), (30, 2, 66), (0, 99, 0)][third as usize];
        }
        let (push, pop, replace) = weights;
        let mut x = element(rng.pick(&pool), draw_tag(rng, tags, n), draw_length(rng));
        if rng.once_in(50) {
            x.rank = rng.pick(&[ranks, ranks + 1, 2 * ranks - 1, 1 << 20, u32::MAX]);
        }
        // what refuses the newcomer, whatever is held
        let barred = if x.rank >= ranks {
            4
        } else if x.tag == 0 {
            7
        } else {
            0
        };
        let at = rng.below(100);
        let (op, expected) = if at < push {
            let number = if barred != 0 {
                barred
            } else if list.held() == nodes as usize {
                5
            } else {
                list.push(x);
                0
            };
            (Op::BucketPush, (number, none))
        } else if at < push + pop {
            (Op::BucketPop, list.pop().map_or((6, none), |e| (0, e)))
        } else if at < push + pop + replace {
            let expected = if barred != 0 {
                (barred, none)
            } else if let Some(e) = list.pop() {
                list.push(x);
                (0, e)
            } else {
                (6, none)
            };
            (Op::BucketReplace, expected)
        } else {
            (Op::BucketHeld, (0, element(list.held() as u32, 0, 0)))
        };
        let number = match h.call(&Call::bucket(op, storeys, nodes, bits, words).with(x.rank, x.tag, x.length)) {
            Some(number) => number,
            None => return,
        };
        let got = match op {
            Op::BucketPush => none,
            Op::BucketHeld => element(h.out()[0], 0, 0),
            _ => h.answer(),
        };
        if (number, got) != expected {
            return h.fail(format!(
                "storeys {storeys}, N = {nodes}, call {n} of a history, {} {x:?}: {number}, {got:?}; the list says {expected:?}",
                op.name()
            ));
        }
    }
}

/// One history of the clocked tree, beside the one-at-a-time model on the same list. After every cycle
/// and drain nothing is lost in flight.
pub fn clocked(h: &mut Harness, rng: &mut Rng, order: u32, levels: u32, calls: u64) {
    let capacity = Shape::new(order, levels).unwrap().capacity();
    let need = SLOT * capacity as usize;
    let words = need + rng.below(4) as usize;
    let records = levels as usize - 1 + rng.below(3) as usize;
    let side = Side::new(words, 0, records);
    h.set(&side);
    let (ranks, tags) = (draw_ranks(rng), draw_tags(rng));
    if h.call(&Call::machine(Op::ClockedClear, order, levels, words, records)) != Some(0) {
        return h.fail(format!("clear of order {order}, levels {levels} was refused"));
    }
    let mut alone = vec![0; need];
    let mut list = SortedList::new();
    let mut flight = Flight::new(order, levels);
    // the mark by its rule: was the last cycle's operation answered without refusal?
    let mut mark = false;
    let mut weights = mood(rng);
    let mut idles = rng.below(60);
    for n in 0..calls {
        if rng.below(2 * capacity + 10) < 4 {
            weights = mood(rng);
            idles = rng.below(60);
        }
        let (push, pop, replace) = weights;
        let x = element(draw(rng, ranks, n), draw_tag(rng, tags, n), draw_length(rng));
        if rng.once_in(25) {
            // a drain: with a small budget, or to the end and then the stores are equal
            let budget = rng.pick(&[0, 1, 2, 3, levels, u32::MAX]);
            let k = Call::machine(Op::ClockedDrain, order, levels, words, records).budget(budget);
            if h.call(&k) != Some(0) {
                return h.fail(format!("order {order}, levels {levels}: a drain was refused"));
            }
            let (cycles, left) = (h.out()[0], h.out()[1]);
            if cycles > budget || cycles > levels - 1 || (left == 1 && cycles != budget) {
                return h.fail(format!("a drain with budget {budget} ran {cycles} cycles, left {left}"));
            }
            if cycles > 0 {
                mark = false;
            }
            if let Err(what) = flight.check(&h.desk.library.words, &h.desk.library.records) {
                return h.fail(format!("order {order}, levels {levels}, call {n}, a drain: {what}"));
            }
            if left == 0 && h.desk.model.words[..need] != alone[..] {
                return h.fail(format!(
                    "order {order}, levels {levels}, call {n}: drained, yet not the store of one at a time"
                ));
            }
            continue;
        }
        if rng.once_in(25) {
            let number = match h.call(&Call::tree(Op::ClockedHeld, order, levels, words)) {
                Some(number) => number,
                None => return,
            };
            if (number, h.out()[0]) != (0, list.held() as u32) {
                return h.fail(format!("held answered {}; the list holds {}", h.out()[0], list.held()));
            }
            continue;
        }
        let at = rng.below(100);
        let request = if rng.below(100) < idles {
            0
        } else if at < push {
            1
        } else if at < push + pop {
            2
        } else if at < push + pop + replace {
            3
        } else {
            0
        };
        let number = match h.call(&Call::cycle(request, order, levels, words, records).with(x.rank, x.tag, x.length)) {
            Some(number) => number,
            None => return,
        };
        let answer = h.answer();
        let mut out = [0; OUT];
        let expected = if request >= 2 && mark {
            3
        } else {
            let (op, result) = match request {
                0 => (Op::CycleIdle, Ok(())),
                1 => (Op::TreePush, boundary::tree_push(&mut alone, order, levels, x.rank, x.tag, x.length)),
                2 => (Op::TreePop, boundary::tree_pop(&mut alone, order, levels, &mut out)),
                _ => (
                    Op::TreeReplace,
                    boundary::tree_replace(&mut alone, order, levels, x.rank, x.tag, x.length, &mut out),
                ),
            };
            let expected = result.err().map_or(0, |no| no.number());
            if op != Op::CycleIdle {
                let given = element(out[0], out[1], out[2]);
                if let Err(what) = held_to_list(&mut list, op, x, capacity, expected, given, 0) {
                    return h.fail(format!("order {order}, levels {levels}, one at a time: {what}"));
                }
            }
            expected
        };
        if (number, answer) != (expected, element(out[0], out[1], out[2])) {
            return h.fail(format!(
                "order {order}, levels {levels}, cycle {n}, request {request} {x:?}: {number}, {answer:?}; one at a time {expected}, {out:?}"
            ));
        }
        if number == 0 && (request == 1 || request == 3) {
            flight.accepted(x);
        }
        if number == 0 && request >= 2 {
            flight.answered_out(answer);
        }
        if let Err(what) = flight.check(&h.desk.library.words, &h.desk.library.records) {
            return h.fail(format!("order {order}, levels {levels}, cycle {n}, request {request} {x:?}: {what}"));
        }
        mark = request != 0 && number == 0;
        if h.desk.model.mark[0] != mark as u32 {
            return h.fail(format!("the mark is {}, by its rule {mark}", h.desk.model.mark[0]));
        }
    }
    let k = Call::machine(Op::ClockedDrain, order, levels, words, records).budget(levels);
    if h.call(&k) != Some(0) || h.out()[1] != 0 {
        return h.fail(format!("order {order}, levels {levels}: the last drain left work"));
    }
    if h.desk.model.words[..need] != alone[..] {
        h.fail(format!("order {order}, levels {levels}: drained, yet not the store of one at a time"));
    }
}
