//! A clocked queue of the library, watched: what each cycle answered, wrote and left pending.

use card_host::{ClockedHeap, ClockedLinesQueue, ClockedTree, Element, Length, Rank, Refusal, Request, Tag};
use trace_text::Op;

/// How a clocked queue's store and records read: what a waveform, a page and a dump call things.
pub struct Form {
    /// What it is.
    pub name: &'static str,
    /// What a node is called.
    pub node: &'static str,
    /// The names of a slot's words.
    pub slot: &'static [&'static str],
    /// The names of a node's own words, which stand behind its slots as one more; none where it has no such words.
    pub own: &'static [&'static str],
    /// The first level with a pending record; every one behind it has one too.
    pub first: u32,
    /// The names of a pending record's numbers: the kind, the node, and then what it carries.
    pub record: &'static [&'static str],
    /// The names of the kinds.
    pub kinds: [&'static str; 4],
    /// The numbers that a record of each kind uses, the kind itself among them.
    pub used: [&'static [usize]; 4],
    /// Whether the node that a record of each kind names is of the level above the record's.
    pub above: [bool; 4],
    /// Whether it has a mark.
    pub marked: bool,
}

/// The multi-way tree.
pub static TREE: Form = Form {
    name: "clocked tree",
    node: "node",
    slot: &["rank", "tag", "length", "count"],
    own: &[],
    first: 2,
    record: &["kind", "node", "rank", "tag", "length"],
    kinds: ["nothing", "put", "take", "swap"],
    used: [&[0], &[0, 1, 2, 3, 4], &[0, 1], &[0, 1, 2, 3, 4]],
    above: [false; 4],
    marked: true,
};

/// The cluster heap: a place is a slot, and a node has two counts of its own, of what lies below it to the left and to the right.
pub static HEAP: Form = Form {
    name: "clocked cluster heap",
    node: "node",
    slot: &["rank", "tag", "length", "mark"],
    own: &["left", "right"],
    first: 2,
    record: &["kind", "node", "place", "rank", "tag", "length"],
    kinds: ["nothing", "put", "fill", "swap"],
    used: [&[0], &[0, 1, 3, 4, 5], &[0, 1, 2], &[0, 1, 2, 3, 4, 5]],
    above: [false, false, true, true],
    marked: false,
};

/// Lines: a line is a node of the one level and its place a slot; its count is its own word. The one record is that of level 1.
pub static LINES: Form = Form {
    name: "clocked lines",
    node: "line",
    slot: &["rank", "tag", "length"],
    own: &["count"],
    first: 1,
    record: &["kind", "line", "rank", "tag", "length"],
    kinds: ["nothing", "push", "pop", "replace"],
    used: [&[0], &[0, 1, 2, 3, 4], &[0, 1], &[0, 1, 2, 3, 4]],
    above: [false; 4],
    marked: false,
};

impl Form {
    /// The names of the words of a slot of a node with so many.
    pub fn fields(&self, order: u32, slot: u32) -> &'static [&'static str] {
        if slot < order || self.own.is_empty() {
            self.slot
        } else {
            self.own
        }
    }

    /// How many slots a node of so many has, with its own words as one more where it has any.
    pub fn slots(&self, order: u32) -> u32 {
        order + !self.own.is_empty() as u32
    }
}

/// The numbers of a pending record, zeros behind those that the form has.
pub type Numbers = [u32; 6];

/// A slot that a cycle wrote: where it stands, and its words before and after.
#[derive(Clone, Copy, PartialEq, Eq, Debug)]
pub struct Write {
    /// The level, from 1.
    pub level: u32,
    /// The node of the level, from 0.
    pub node: u32,
    /// The slot of the node, from 0.
    pub slot: u32,
    /// Its words at the cycle's start.
    pub old: [u32; 4],
    /// Its words at the cycle's end.
    pub new: [u32; 4],
}

/// What a cycle answered: the paper's number, 0 where nothing is refused, and the element that came out, zeros where none did.
#[derive(Clone, Copy, PartialEq, Eq, Debug, Default)]
pub struct Answer {
    /// 0, or the refusal's number.
    pub number: u32,
    /// Rank, tag and length.
    pub out: [u32; 3],
}

impl Answer {
    /// The answer in a word or two, as the trace program writes it.
    pub fn said(self, op: Op) -> String {
        match (Refusal::of(self.number), op) {
            (Some(refusal), _) => refusal.name().to_string(),
            (None, Op::Idle) => String::from("idle"),
            (None, Op::Push(_)) => String::from("pushed"),
            (None, _) => format!("out {} {} {}", self.out[0], self.out[1], self.out[2]),
        }
    }
}

/// One cycle, as it was seen from outside.
#[derive(Clone, PartialEq, Eq, Debug)]
pub struct Cycle {
    /// Its number, from 1.
    pub number: u64,
    /// What was asked.
    pub op: Op,
    /// What was answered.
    pub answer: Answer,
    /// The slots that have other words than before, level by level: of a level at most as many as [`Machine::writes`] says.
    pub writes: Vec<Write>,
}

/// The request as a line of a trace's text, always with lengths.
pub fn asked(op: Op) -> String {
    match op {
        Op::Idle | Op::Pop => op.name().to_string(),
        Op::Push(x) | Op::Replace(x) => format!("{} {} {} {}", op.name(), x[0], x[1], x[2]),
    }
}

/// The queue of the library that is watched.
enum Queue {
    Tree(ClockedTree),
    Heap(ClockedHeap),
    Lines(ClockedLinesQueue),
}

/// A clocked queue from its clearing on.
pub struct Machine {
    order: u32,
    levels: u32,
    queue: Queue,
    /// The slots of the nodes that the coming cycle may write, as they stand at its start.
    before: Vec<([u32; 3], [u32; 4])>,
    cycle: Cycle,
}

impl Machine {
    /// A cleared tree of this shape.
    pub fn tree(order: u32, levels: u32) -> Result<Machine, Refusal> {
        Ok(Machine::new(order, levels, Queue::Tree(ClockedTree::new(order, levels)?)))
    }

    /// A cleared cluster heap of this shape.
    pub fn heap(places: u32, levels: u32) -> Result<Machine, Refusal> {
        Ok(Machine::new(places, levels, Queue::Heap(ClockedHeap::new(places, levels)?)))
    }

    /// Cleared lines of this shape.
    pub fn lines(kind: u32, lines: u32, places: u32) -> Result<Machine, Refusal> {
        Ok(Machine::new(places, 1, Queue::Lines(ClockedLinesQueue::new(kind, lines, places)?)))
    }

    fn new(order: u32, levels: u32, queue: Queue) -> Machine {
        let cycle = Cycle { number: 0, op: Op::Idle, answer: Answer::default(), writes: Vec::new() };
        Machine { order, levels, queue, before: Vec::new(), cycle }
    }

    /// How it reads.
    pub fn form(&self) -> &'static Form {
        match self.queue {
            Queue::Tree(_) => &TREE,
            Queue::Heap(_) => &HEAP,
            Queue::Lines(_) => &LINES,
        }
    }

    /// What it is and of which shape.
    pub fn title(&self) -> String {
        let (name, order, levels) = (self.form().name, self.order, self.levels);
        match &self.queue {
            Queue::Tree(_) => format!("{name}, order {order}, levels {levels}"),
            Queue::Heap(_) => format!("{name}, places {order}, levels {levels}"),
            Queue::Lines(lines) => format!("{name}, kind {}, lines {}, places {order}", lines.kind(), lines.lines()),
        }
    }

    /// How many slots one level writes in a cycle at most. Of lines those of the line that is sorted and one count; of kind 1, where a
    /// replace may be over two lines, twice as many.
    pub fn writes(&self) -> usize {
        match &self.queue {
            Queue::Tree(_) => 1,
            Queue::Heap(_) => 4,
            Queue::Lines(lines) if lines.kind() == 1 => 2 * (self.order as usize + 1),
            Queue::Lines(_) => self.order as usize + 1,
        }
    }

    /// The levels with a pending record.
    pub fn recorded(&self) -> std::ops::RangeInclusive<u32> {
        self.form().first..=self.levels
    }

    /// The slots of a node.
    pub fn order(&self) -> u32 {
        self.order
    }

    /// The levels.
    pub fn levels(&self) -> u32 {
        self.levels
    }

    /// How many nodes stand under a node.
    pub fn fan(&self) -> u32 {
        match self.queue {
            Queue::Tree(_) => self.order,
            Queue::Heap(_) => 2,
            Queue::Lines(_) => 0,
        }
    }

    /// How many nodes a level has.
    pub fn nodes(&self, level: u32) -> u32 {
        match &self.queue {
            Queue::Lines(lines) => lines.lines(),
            _ => self.fan().pow(level - 1),
        }
    }

    /// A slot's words; a heap's node has its two counts behind its places, a line its count.
    pub fn slot(&self, level: u32, node: u32, slot: u32) -> [u32; 4] {
        let above: u32 = (1..level).map(|k| self.nodes(k)).sum();
        let (at, words) = match &self.queue {
            Queue::Tree(tree) => (4 * ((above + node) * self.order + slot), tree.words()),
            Queue::Heap(heap) => {
                let at = (above + node) * (4 * self.order + 2);
                if slot == self.order {
                    return [heap.words()[at as usize], heap.words()[at as usize + 1], 0, 0];
                }
                (at + 2 + 4 * slot, heap.words())
            }
            Queue::Lines(lines) => {
                let (words, at) = (lines.words(), (lines.lines() + 3 * (node * self.order + slot)) as usize);
                return match slot == self.order {
                    true => [words[node as usize], 0, 0, 0],
                    false => [words[at], words[at + 1], words[at + 2], 0],
                };
            }
        };
        let at = at as usize;
        [words[at], words[at + 1], words[at + 2], words[at + 3]]
    }

    /// The numbers of a level's pending record, which must be one of those that have one.
    pub fn record(&self, level: u32) -> Numbers {
        match &self.queue {
            Queue::Tree(tree) => {
                let [kind, node, rank, tag, length]: [u32; 5] = tree.records()[level as usize - 2].into();
                [kind, node, rank, tag, length, 0]
            }
            Queue::Heap(heap) => heap.records()[level as usize - 2].into(),
            Queue::Lines(lines) => {
                let [kind, line, rank, tag, length]: [u32; 5] = lines.record()[0].into();
                [kind, line, rank, tag, length, 0]
            }
        }
    }

    /// What is pending for a level, in words, and the level and node that the record names; none where nothing is.
    pub fn due(&self, level: u32) -> Option<(String, u32, u32)> {
        let (form, r) = (self.form(), self.record(level));
        let kind = r[0] as usize;
        if kind == 0 {
            return None;
        }
        let carried = form.used[kind].iter().filter(|i| **i > 1).map(|i| format!("{} {}", form.record[*i], r[*i]));
        let carried: Vec<String> = carried.collect();
        let comma = if carried.is_empty() { "" } else { " " };
        let at = if form.above[kind] { level - 1 } else { level };
        Some((format!("{}{comma}{}", form.kinds[kind], carried.join(", ")), at, r[1]))
    }

    /// Whether anything is pending.
    pub fn pending(&self) -> bool {
        self.recorded().any(|level| self.record(level)[0] != 0)
    }

    /// The mark; a queue without one has it off.
    pub fn mark(&self) -> bool {
        match &self.queue {
            Queue::Tree(tree) => tree.mark(),
            Queue::Heap(_) | Queue::Lines(_) => false,
        }
    }

    /// How many elements are held.
    pub fn held(&self) -> u32 {
        let held = match &self.queue {
            Queue::Tree(tree) => tree.held(),
            Queue::Heap(heap) => heap.held(),
            Queue::Lines(lines) => lines.held(),
        };
        held.expect("a machine that only cycles wrote is sound")
    }

    /// The last cycle that was run.
    pub fn last(&self) -> &Cycle {
        &self.cycle
    }

    /// Runs one cycle and shows what it did.
    pub fn run(&mut self, op: Op) -> &Cycle {
        self.note_before();
        let x = |x: [u32; 3]| Element::new(Rank(x[0]), Tag(x[1]), Length(x[2]));
        let request = match op {
            Op::Idle => Request::Idle,
            Op::Push(e) => Request::Push(x(e)),
            Op::Pop => Request::Pop,
            Op::Replace(e) => Request::Replace(x(e)),
        };
        let answer = match &mut self.queue {
            Queue::Tree(tree) => tree.cycle(request),
            Queue::Heap(heap) => heap.cycle(request),
            Queue::Lines(lines) => lines.cycle(request),
        };
        self.cycle.number += 1;
        self.cycle.op = op;
        self.cycle.answer = match answer {
            Ok(e) => Answer { number: 0, out: [e.rank.0, e.tag.0, e.length.0] },
            Err(refusal) => Answer { number: refusal.number(), out: [0; 3] },
        };
        let mut writes = std::mem::take(&mut self.cycle.writes);
        writes.clear();
        for ([level, node, slot], old) in &self.before {
            let new = self.slot(*level, *node, *slot);
            if new != *old {
                writes.push(Write { level: *level, node: *node, slot: *slot, old: *old, new });
            }
        }
        self.cycle.writes = writes;
        &self.cycle
    }

    /// Keeps the words of every node that the coming cycle may write: the root, and those that the pending records name. In a tree that
    /// is the node of the record's own level. In a heap it is the node of a put; of a fill or swap the node above, which waits, and either
    /// of its children, one of which gives. Of lines it is the record's line and where its x goes; and every count, by the request.
    fn note_before(&mut self) {
        let mut before = std::mem::take(&mut self.before);
        before.clear();
        if let Queue::Lines(lines) = &self.queue {
            let record = lines.record()[0];
            let goal = if lines.kind() == 1 { record.rank / (65_536 / lines.lines()) } else { record.node };
            for line in 0..lines.lines() {
                let worked = record.kind != 0 && (line == record.node || record.kind == 3 && line == goal);
                let places = if worked { 0..=self.order } else { self.order..=self.order };
                before.extend(places.map(|place| ([1, line, place], self.slot(1, line, place))));
            }
            self.before = before;
            return;
        }
        self.note(&mut before, 1, 0);
        for level in 2..=self.levels {
            let [kind, node, ..] = self.record(level);
            if kind == 0 {
                continue;
            }
            if self.form().above[kind as usize] {
                self.note(&mut before, level - 1, node);
                self.note(&mut before, level, 2 * node);
                self.note(&mut before, level, 2 * node + 1);
            } else {
                self.note(&mut before, level, node);
            }
        }
        self.before = before;
    }

    /// Keeps the words of one node, once.
    fn note(&self, before: &mut Vec<([u32; 3], [u32; 4])>, level: u32, node: u32) {
        if !before.iter().any(|([l, n, _], _)| (*l, *n) == (level, node)) {
            let slots = self.form().slots(self.order);
            before.extend((0..slots).map(|slot| ([level, node, slot], self.slot(level, node, slot))));
        }
    }
}
