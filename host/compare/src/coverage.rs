//! What must have been met: each refusal that a call can give, each clause that can make it
//! damaged, alone, and each cause of refusal 1, alone. A call that gave anything else fails too.

use crate::harness::{Harness, EVENTS};
use models::bucket::cause as b;
use models::call::{Op, OPS};
use models::tree::cause as t;
use models::{shape_cause as s, Causes};

/// The numbers that a call can answer.
fn numbers(op: Op) -> &'static [u32] {
    match op {
        Op::TreeClear | Op::BucketClear | Op::ClockedClear => &[0, 1],
        Op::TreePush | Op::CyclePush => &[0, 1, 2, 5, 7],
        Op::TreePop | Op::BucketPop => &[0, 1, 2, 6],
        Op::TreeReplace => &[0, 1, 2, 6, 7],
        Op::BucketPush => &[0, 1, 2, 4, 5, 7],
        Op::BucketReplace => &[0, 1, 2, 4, 6, 7],
        Op::CyclePop => &[0, 1, 2, 3, 6],
        Op::CycleReplace => &[0, 1, 2, 3, 6, 7],
        Op::CycleOther => &[1],
        Op::TreeHeld | Op::BucketHeld | Op::CycleIdle | Op::ClockedDrain | Op::ClockedHeld => &[0, 1, 2],
    }
}

/// The causes of refusal 1 that a call can have.
fn shapes(op: Op) -> Causes {
    let tree = s::NUMBERS | s::STORE;
    match op {
        Op::TreeClear | Op::TreePush => tree,
        Op::TreePop | Op::TreeReplace | Op::TreeHeld | Op::ClockedHeld => tree | s::OUT,
        Op::BucketClear | Op::BucketPush => tree | s::BITS,
        Op::BucketPop | Op::BucketReplace | Op::BucketHeld => tree | s::BITS | s::OUT,
        Op::ClockedClear => tree | s::MARK_SHORT | s::RECORDS,
        Op::CycleIdle | Op::CyclePush | Op::CyclePop | Op::CycleReplace | Op::ClockedDrain => {
            tree | s::OUT | s::MARK_SHORT | s::MARK_WORD | s::RECORDS | s::KIND
        }
        Op::CycleOther => s::REQUEST,
    }
}

const SLOT: Causes = t::COUNT | t::RANK | t::TAG | t::LENGTH;

/// The clauses that can make a call damaged by themselves.
fn alone(op: Op) -> Causes {
    let root = t::at(t::ROOT, SLOT);
    let below = t::at(t::BELOW, SLOT | t::EMPTY);
    let deeper = t::at(t::DEEPER, SLOT | t::EMPTY);
    let pending = t::at(t::PUT, SLOT | t::FULL | t::RANGE)
        | t::at(t::TAKE, SLOT | t::EMPTY | t::RANGE)
        | t::at(t::SWAP, SLOT | t::EMPTY | t::RANGE)
        | t::at(t::UNDER_TAKE, SLOT | t::EMPTY)
        | t::at(t::UNDER_SWAP, SLOT | t::EMPTY);
    let whole = b::HELD | b::FREE | b::FREE_NONE | b::FREE_SOME | b::TOP_NONE | b::TOP_SOME;
    let links = b::HEAD_ALONE
        | b::TAIL_ALONE
        | b::BIT_ALONE
        | b::GROUP_SET
        | b::MIDDLE_SET
        | b::HEAD_LINK
        | b::TAIL_LINK
        | b::TAIL_NEXT
        | b::TAIL_NEXT_LINK;
    let pop = links | b::HEAD_NEXT_LINK | b::CHAIN_CUT;
    let push = links | b::GROUP_UNSET | b::MIDDLE_UNSET | b::TAKEN_TAIL;
    match op {
        Op::TreeHeld | Op::ClockedHeld => root,
        Op::TreePush => root | t::at(t::BELOW, SLOT | t::FULL) | t::at(t::DEEPER, SLOT | t::FULL),
        Op::TreePop | Op::TreeReplace => root | below | deeper,
        Op::CycleIdle | Op::ClockedDrain => pending,
        Op::CyclePush => root | pending,
        Op::CyclePop | Op::CycleReplace => root | below | pending,
        Op::BucketHeld => whole,
        Op::BucketPush => whole | push | b::TAKEN_NEXT_LINK | b::TAKEN_LAST | b::TAKEN_NOT_LAST,
        Op::BucketPop => whole | pop,
        Op::BucketReplace => whole | pop | (push | b::TOP_NONE | b::TOP_SOME) << b::SECOND,
        _ => 0,
    }
}

/// The clauses that can be met, but never alone: a head that is the tail and goes on is also a
/// tail that goes on.
fn never_alone(op: Op) -> Causes {
    match op {
        Op::BucketPop | Op::BucketReplace => b::CHAIN_LONG,
        _ => 0,
    }
}

fn clause(op: Op, bit: u32) -> String {
    if op.is_bucket() {
        b::name(bit)
    } else {
        t::name(bit)
    }
}

/// Prints the counts and gives what was missed.
pub fn check(h: &Harness, verbose: bool) -> Vec<String> {
    let (mut missed, rows) = (Vec::new(), &h.tally.rows);
    println!("  calls by refusal number:         0        1        2        3        4        5        6        7");
    for (i, &op) in OPS.iter().enumerate() {
        let row: Vec<String> = rows[i].numbers[..8].iter().map(|n| format!("{n:8}")).collect();
        println!("  {:24} {}", op.name(), row.join(" "));
        for number in 0..13u32 {
            let seen = rows[i].numbers[number as usize];
            let can = numbers(op).contains(&number);
            if can && seen == 0 {
                missed.push(format!("{} never answered {number}", op.name()));
            }
            if !can && seen != 0 {
                missed.push(format!("{} answered {number}, which it cannot", op.name()));
            }
        }
        for bit in 0..9 {
            if shapes(op) >> bit & 1 == 1 && rows[i].shapes[bit] == 0 {
                missed.push(format!("{} was never refused 1 by this alone: {}", op.name(), s::NAMES[bit]));
            }
        }
        for bit in 0..64 {
            let (sole, any) = (rows[i].alone[bit], rows[i].met[bit]);
            if alone(op) >> bit & 1 == 1 && sole == 0 {
                missed.push(format!("{} was never damaged by this alone: {}", op.name(), clause(op, bit as u32)));
            }
            if never_alone(op) >> bit & 1 == 1 && any == 0 {
                missed.push(format!("{} never met this: {}", op.name(), clause(op, bit as u32)));
            }
            if (alone(op) | never_alone(op)) >> bit & 1 == 0 && any != 0 {
                missed.push(format!("{} cannot be damaged by this: {}", op.name(), clause(op, bit as u32)));
            }
        }
    }
    let mut least = u64::MAX;
    let mut clauses = 0;
    if verbose {
        println!("  damaged by one clause alone:");
    }
    for (i, &op) in OPS.iter().enumerate() {
        for bit in 0..64 {
            if alone(op) >> bit & 1 == 1 {
                clauses += 1;
                least = least.min(rows[i].alone[bit]);
                if verbose {
                    println!("  {:16} {:8} {}", op.name(), rows[i].alone[bit], clause(op, bit as u32));
                }
            }
        }
    }
    println!("  {clauses} pairs of a call and a clause that alone makes it damaged, each met at least {least} times");
    if verbose {
        println!("  refused 1 by one cause alone:");
    }
    let (mut causes, mut least) = (0, u64::MAX);
    for (i, &op) in OPS.iter().enumerate() {
        for bit in 0..9 {
            if shapes(op) >> bit & 1 == 1 {
                causes += 1;
                least = least.min(rows[i].shapes[bit]);
                if verbose {
                    println!("  {:16} {:8} {}", op.name(), rows[i].shapes[bit], s::NAMES[bit]);
                }
            }
        }
    }
    println!("  {causes} pairs of a call and a cause that alone makes it refuse 1, each met at least {least} times");
    for (event, name) in EVENTS {
        let seen = h.events[event as usize];
        println!("  {seen:8} {name}");
        if seen == 0 {
            missed.push(format!("never met: {name}"));
        }
    }
    missed
}
