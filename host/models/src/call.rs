//! A call of the library as data: which call, its numbers, and how much of each slice it is lent.

/// The kinds of calls that are counted apart.
#[derive(Clone, Copy, PartialEq, Eq, PartialOrd, Ord, Debug)]
pub enum Op {
    TreeClear,
    TreePush,
    TreePop,
    TreeReplace,
    TreeHeld,
    BucketClear,
    BucketPush,
    BucketPop,
    BucketReplace,
    BucketHeld,
    ClockedClear,
    CycleIdle,
    CyclePush,
    CyclePop,
    CycleReplace,
    CycleOther,
    ClockedDrain,
    ClockedHeld,
}

pub const OPS: [Op; 18] = [
    Op::TreeClear,
    Op::TreePush,
    Op::TreePop,
    Op::TreeReplace,
    Op::TreeHeld,
    Op::BucketClear,
    Op::BucketPush,
    Op::BucketPop,
    Op::BucketReplace,
    Op::BucketHeld,
    Op::ClockedClear,
    Op::CycleIdle,
    Op::CyclePush,
    Op::CyclePop,
    Op::CycleReplace,
    Op::CycleOther,
    Op::ClockedDrain,
    Op::ClockedHeld,
];

/// Their names.
pub const NAMES: [&str; 18] = [
    "tree clear",
    "tree push",
    "tree pop",
    "tree replace",
    "tree held",
    "bucket clear",
    "bucket push",
    "bucket pop",
    "bucket replace",
    "bucket held",
    "clocked clear",
    "cycle idle",
    "cycle push",
    "cycle pop",
    "cycle replace",
    "cycle other",
    "clocked drain",
    "clocked held",
];

impl Op {
    pub fn name(self) -> &'static str {
        NAMES[self as usize]
    }
    pub fn is_bucket(self) -> bool {
        Op::BucketClear <= self && self <= Op::BucketHeld
    }
    pub fn is_cycle(self) -> bool {
        Op::CycleIdle <= self && self <= Op::CycleOther
    }
    /// Whether the call takes records and a mark.
    pub fn is_machine(self) -> bool {
        Op::ClockedClear <= self && self <= Op::ClockedDrain
    }
    pub fn cycle(request: u32) -> Op {
        match request {
            0 => Op::CycleIdle,
            1 => Op::CyclePush,
            2 => Op::CyclePop,
            3 => Op::CycleReplace,
            _ => Op::CycleOther,
        }
    }
}

/// One call: its numbers, and how long each slice is that it is given.
#[derive(Clone, Debug)]
pub struct Call {
    pub op: Op,
    pub order: u32,
    pub levels: u32,
    pub storeys: u32,
    pub nodes: u32,
    pub rank: u32,
    pub tag: u32,
    pub length: u32,
    pub request: u32,
    pub budget: u32,
    pub words: usize,
    pub bits: usize,
    pub records: usize,
    pub mark: usize,
    pub out: usize,
}

impl Call {
    pub fn tree(op: Op, order: u32, levels: u32, words: usize) -> Call {
        Call {
            op,
            order,
            levels,
            storeys: 0,
            nodes: 0,
            rank: 0,
            tag: 0,
            length: 0,
            request: 0,
            budget: 0,
            words,
            bits: 0,
            records: 0,
            mark: 0,
            out: 3,
        }
    }
    pub fn bucket(op: Op, storeys: u32, nodes: u32, bits: usize, words: usize) -> Call {
        let mut call = Call::tree(op, 0, 0, words);
        call.storeys = storeys;
        call.nodes = nodes;
        call.bits = bits;
        call
    }
    pub fn cycle(request: u32, order: u32, levels: u32, words: usize, records: usize) -> Call {
        let mut call = Call::tree(Op::cycle(request), order, levels, words);
        call.request = request;
        call.records = records;
        call.mark = 1;
        call
    }
    pub fn machine(op: Op, order: u32, levels: u32, words: usize, records: usize) -> Call {
        let mut call = Call::tree(op, order, levels, words);
        call.records = records;
        call.mark = 1;
        call
    }
    pub fn with(mut self, rank: u32, tag: u32, length: u32) -> Call {
        self.rank = rank;
        self.tag = tag;
        self.length = length;
        self
    }
    pub fn budget(mut self, budget: u32) -> Call {
        self.budget = budget;
        self
    }

    /// The call in words.
    pub fn text(&self) -> String {
        let mut s = format!("{}(", self.op.name());
        if self.op.is_bucket() {
            let (storeys, nodes) = (self.storeys, self.nodes);
            s += &format!("storeys {storeys}, nodes {nodes}, bits of {}, words of {}", self.bits, self.words);
        } else {
            s += &format!("order {}, levels {}, store of {}", self.order, self.levels, self.words);
        }
        if self.op.is_machine() {
            s += &format!(", records of {}, mark of {}", self.records, self.mark);
        }
        if self.op == Op::CycleOther {
            s += &format!(", request {}", self.request);
        }
        if self.op == Op::ClockedDrain {
            s += &format!(", budget {}", self.budget);
        }
        s + &format!(", rank {}, tag {}, length {}, out of {})", self.rank, self.tag, self.length, self.out)
    }
}

/// A pending record as numbers: kind, node, rank, tag, length.
pub type Record = [u32; 5];

/// The slices that a call is lent.
pub struct Slices<'a> {
    /// A tree's store, or a bucket queue's words of 32 bits.
    pub words: &'a mut [u32],
    pub bits: &'a mut [u64],
    pub records: &'a mut [Record],
    pub mark: &'a mut [u32],
    pub out: &'a mut [u32],
}
