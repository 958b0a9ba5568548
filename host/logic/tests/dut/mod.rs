//! A user's logic as a test bench would see it: a clocked tree written from the rules alone, with a fault that can be planted, that
//! prints what it does in the form of a dump.

#![allow(dead_code)]

use std::fmt::Write;

#[derive(Clone, Copy, PartialEq, Eq, Debug)]
pub enum Fault {
    None,
    /// Rank and tag change places on the way in.
    Exchanged,
    /// A pop is let in just after a push.
    PopTooSoon,
    /// What a take lifts is removed below in the same cycle.
    LiftRemovedEarly,
    /// Among equal counts the rightmost is chosen.
    Rightmost,
    /// Among equal ranks the leftmost is chosen, whatever the tags.
    TagIgnored,
    /// A put goes to the greatest count.
    GreatestCount,
    /// A put exchanges on equal rank.
    PutOnEqual,
    /// A take leaves the count.
    CountStays,
    /// An emptied slot keeps its length.
    LengthStays,
    /// A push on a full tree is dropped without a word.
    FullUnsaid,
    /// A record names the node beside the right one.
    WrongNode,
    /// The mark stays on after a refusal.
    MarkStays,
    /// A replace puts its element in first.
    PushThenPop,
    /// A pop of an empty tree is no refusal.
    EmptyUnsaid,
    /// A swap lifts on equal rank.
    LiftOnEqual,
    /// Tag 0 is taken in.
    NoTagTaken,
    /// A record stays when its work is done.
    RecordStays,
    /// The tag is unknown.
    Unknown,
}

type Slot = [u32; 4];

/// What a step leaves: the slot that it writes, the next level's record, and what it gives.
struct Step {
    write: Option<(u32, u32, u32, Slot)>,
    loads: [u32; 5],
    gives: [u32; 3],
}

const NONE: Step = Step { write: None, loads: [0; 5], gives: [0; 3] };

pub struct Dut {
    order: u32,
    levels: u32,
    slots: Vec<Vec<Slot>>,
    records: Vec<[u32; 5]>,
    mark: bool,
    cycle: u64,
    fault: Fault,
}

impl Dut {
    pub fn new(order: u32, levels: u32, fault: Fault) -> Dut {
        let slots = (1..=levels).map(|k| vec![[0; 4]; order.pow(k) as usize]).collect();
        Dut { order, levels, slots, records: vec![[0; 5]; levels as usize - 1], mark: false, cycle: 0, fault }
    }

    fn node(&self, level: u32, node: u32) -> &[Slot] {
        let at = (node * self.order) as usize;
        &self.slots[level as usize - 1][at..at + self.order as usize]
    }

    fn lowest(&self, level: u32, node: u32) -> Option<u32> {
        let by = |s: &Slot| if self.fault == Fault::TagIgnored { (s[0], 0) } else { (s[0], s[1]) };
        let node = self.node(level, node);
        (0..self.order).filter(|j| node[*j as usize][3] != 0).min_by_key(|j| (by(&node[*j as usize]), *j))
    }

    fn below(&self, node: u32, slot: u32) -> u32 {
        let right = node * self.order + slot;
        if self.fault == Fault::WrongNode {
            right ^ 1
        } else {
            right
        }
    }

    fn put(&self, level: u32, node: u32, x: [u32; 3]) -> Step {
        let slots = self.node(level, node);
        if let Some(j) = (0..self.order).find(|j| slots[*j as usize][3] == 0) {
            return Step { write: Some((level, node, j, [x[0], x[1], x[2], 1])), ..NONE };
        }
        let counts = |j: &u32| slots[*j as usize][3];
        let j = match self.fault {
            Fault::Rightmost => (0..self.order).rev().min_by_key(counts).unwrap(),
            Fault::GreatestCount => (0..self.order).rev().max_by_key(counts).unwrap(),
            _ => (0..self.order).min_by_key(counts).unwrap(),
        };
        let s = slots[j as usize];
        let own = [s[0], s[1], s[2]];
        let lower = x[0] < s[0] || (self.fault == Fault::PutOnEqual && x[0] == s[0]);
        let (stays, goes) = if lower { (x, own) } else { (own, x) };
        let loads = [1, self.below(node, j), goes[0], goes[1], goes[2]];
        Step { write: Some((level, node, j, [stays[0], stays[1], stays[2], s[3] + 1])), loads, gives: [0; 3] }
    }

    fn take(&self, level: u32, node: u32) -> Step {
        let j = self.lowest(level, node).unwrap();
        let s = self.node(level, node)[j as usize];
        let gives = [s[0], s[1], s[2]];
        let count = if self.fault == Fault::CountStays { s[3] } else { s[3] - 1 };
        if s[3] == 1 {
            let length = if self.fault == Fault::LengthStays { s[2] } else { 0 };
            return Step { write: Some((level, node, j, [0, 0, length, 0])), loads: [0; 5], gives };
        }
        let below = self.below(node, j);
        let lifted = self.node(level + 1, below)[self.lowest(level + 1, below).unwrap() as usize];
        let loads = [2, below, 0, 0, 0];
        Step { write: Some((level, node, j, [lifted[0], lifted[1], lifted[2], count])), loads, gives }
    }

    fn swap(&self, level: u32, node: u32, x: [u32; 3]) -> Step {
        let j = self.lowest(level, node).unwrap();
        let s = self.node(level, node)[j as usize];
        let gives = [s[0], s[1], s[2]];
        let stays = Step { write: Some((level, node, j, [x[0], x[1], x[2], s[3]])), loads: [0; 5], gives };
        if s[3] == 1 {
            return stays;
        }
        let below = self.below(node, j);
        let lifted = self.node(level + 1, below)[self.lowest(level + 1, below).unwrap() as usize];
        if lifted[0] < x[0] || (self.fault == Fault::LiftOnEqual && lifted[0] == x[0]) {
            let loads = [3, below, x[0], x[1], x[2]];
            return Step { write: Some((level, node, j, [lifted[0], lifted[1], lifted[2], s[3]])), loads, gives };
        }
        stays
    }

    /// What a request comes to at the root, and its number.
    fn root(&self, words: &[&str]) -> (u32, Step) {
        let held: u32 = self.node(1, 0).iter().map(|s| s[3]).sum();
        let capacity: u32 = (1..=self.levels).map(|k| self.order.pow(k)).sum();
        let mut x = [0; 3];
        for (n, word) in x.iter_mut().zip(words.iter().skip(1)) {
            *n = word.parse().unwrap();
        }
        if self.fault == Fault::Exchanged {
            x.swap(0, 1);
        }
        let soon = self.mark && self.fault != Fault::PopTooSoon;
        let untagged = x[1] == 0 && self.fault != Fault::NoTagTaken;
        match words[0] {
            "push" if untagged => (7, NONE),
            "push" if held == capacity => (if self.fault == Fault::FullUnsaid { 0 } else { 5 }, NONE),
            "push" => (0, self.put(1, 0, x)),
            "pop" | "replace" if soon => (3, NONE),
            "replace" if untagged => (7, NONE),
            "pop" | "replace" if held == 0 => (if self.fault == Fault::EmptyUnsaid { 0 } else { 6 }, NONE),
            "pop" => (0, self.take(1, 0)),
            "replace" => {
                let lowest = self.node(1, 0)[self.lowest(1, 0).unwrap() as usize];
                if self.fault == Fault::PushThenPop && x[0] < lowest[0] {
                    return (0, Step { gives: x, ..NONE });
                }
                (0, self.swap(1, 0, x))
            }
            _ => (0, NONE),
        }
    }

    /// One cycle, and its lines.
    pub fn run(&mut self, request: &str) -> String {
        let words: Vec<&str> = request.split(' ').collect();
        self.cycle += 1;
        let (number, root) = self.root(&words);
        let mut steps = vec![root];
        for level in 2..=self.levels {
            let [kind, node, rank, tag, length] = self.records[level as usize - 2];
            steps.push(match kind {
                1 => self.put(level, node, [rank, tag, length]),
                2 => self.take(level, node),
                3 => self.swap(level, node, [rank, tag, length]),
                _ => NONE,
            });
        }
        let mut text = format!("cycle {} {request}\n", self.cycle);
        let [rank, tag, length] = steps[0].gives;
        if (number, rank, tag, length) != (0, 0, 0, 0) {
            writeln!(text, "answer {number} {rank} {tag} {length}").unwrap();
        }
        let early = self.fault == Fault::LiftRemovedEarly;
        for (i, step) in steps.iter().enumerate() {
            if let Some((level, node, slot, words)) = step.write {
                self.slots[level as usize - 1][(node * self.order + slot) as usize] = words;
                let tag = if self.fault == Fault::Unknown { String::from("x") } else { words[1].to_string() };
                writeln!(text, "slot {level} {node} {slot} {} {tag} {} {}", words[0], words[2], words[3]).unwrap();
            }
            let done = self.fault == Fault::RecordStays && i + 1 < steps.len() && self.records[i][0] != 0;
            if i + 1 < steps.len() && !(done && step.loads == [0; 5]) {
                self.records[i] = step.loads;
                let [kind, node, rank, tag, length] = step.loads;
                writeln!(text, "record {} {kind} {node} {rank} {tag} {length}", i + 2).unwrap();
            }
            if early && step.loads[0] == 2 {
                let node = step.loads[1];
                let j = self.lowest(i as u32 + 2, node).unwrap();
                self.slots[i + 1][(node * self.order + j) as usize] = [0; 4];
                writeln!(text, "slot {} {node} {j} 0 0 0 0", i + 2).unwrap();
            }
        }
        self.mark = (number == 0 && words[0] != "idle") || (self.fault == Fault::MarkStays && self.mark);
        writeln!(text, "mark {}", self.mark as u32).unwrap();
        let held: u32 = self.node(1, 0).iter().map(|s| s[3]).sum();
        writeln!(text, "held {held}").unwrap();
        text
    }
}

/// The dump of a trace's text by logic with this fault; idle cycles until nothing is pending behind it.
pub fn dump(text: &str, fault: Fault) -> String {
    let mut lines = text.lines().filter(|l| !l.starts_with("version"));
    let shape: Vec<u32> = lines.next().unwrap().split(' ').filter_map(|w| w.parse().ok()).collect();
    let mut dut = Dut::new(shape[0], shape[1], fault);
    let mut dump = String::from("dump 1\n");
    for line in lines {
        dump += &dut.run(line);
    }
    while dut.records.iter().any(|r| r[0] != 0) && fault == Fault::None {
        dump += &dut.run("idle");
    }
    dump
}
