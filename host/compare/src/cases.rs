//! The paper's ten cases, its worked trace and its known mistakes, each as one check.

use crate::desk::{Who, STALE};
use crate::side::{Side, Trees};
use models::call::{Call, Op};
use models::tree::SLOT;

type Done = Result<(), String>;

fn same<T: PartialEq + std::fmt::Debug>(what: &str, got: T, expected: T) -> Done {
    if got == expected {
        return Ok(());
    }
    Err(format!("{what}: {got:?}, the paper says {expected:?}"))
}

/// A call's number, and its `out`.
fn made(who: Who, call: &Call, side: &mut Side) -> (u32, [u32; 4]) {
    let mut out = STALE;
    (who.call::<Trees>(call, side, &mut out[..call.out]), out)
}

/// A queue of one of the three kinds, on words that are not 0 before it is cleared.
struct Queue {
    who: Who,
    /// Shape and lengths; each call is made from it.
    call: Call,
    side: Side,
}

/// A call's number, and its answer's rank and tag, or the two words of a drain's. The cases have length 0; `lengths` has others.
type Told = (u32, u32, u32);

/// A call's number, and its answer's rank, tag and length.
type Whole = (u32, u32, u32, u32);

impl Queue {
    fn cleared(who: Who, call: Call) -> Result<Queue, String> {
        let side = Side::new(call.words, call.bits, call.records);
        let mut queue = Queue { who, call, side };
        let clear = queue.call.clone();
        same("clear", made(who, &clear, &mut queue.side).0, 0)?;
        Ok(queue)
    }
    fn tree(who: Who, order: u32, levels: u32, slots: usize) -> Result<Queue, String> {
        Queue::cleared(who, Call::tree(Op::TreeClear, order, levels, SLOT * slots))
    }
    fn machine(who: Who, order: u32, levels: u32, slots: usize) -> Result<Queue, String> {
        let records = levels as usize - 1;
        Queue::cleared(who, Call::machine(Op::ClockedClear, order, levels, SLOT * slots, records))
    }
    fn bucket(who: Who, nodes: u32) -> Result<Queue, String> {
        Queue::cleared(who, Call::bucket(Op::BucketClear, 2, nodes, 65, 8192 + 3 * nodes as usize + 2))
    }
    fn deep_bucket(who: Who, nodes: u32) -> Result<Queue, String> {
        Queue::cleared(who, Call::bucket(Op::BucketClear, 3, nodes, 4161, 524_288 + 3 * nodes as usize + 2))
    }
    /// Store A: cleared, then push 5/50, 3/30, 8/80, 1/10.
    fn a(who: Who) -> Result<Queue, String> {
        let mut queue = Queue::tree(who, 2, 2, 6)?;
        for (rank, tag) in [(5, 50), (3, 30), (8, 80), (1, 10)] {
            same("push", queue.number(Op::TreePush, rank, tag), 0)?;
        }
        Ok(queue)
    }

    fn whole(&mut self, op: Op, request: u32, rank: u32, tag: u32, length: u32) -> Whole {
        let call = Call { op, request, rank, tag, length, ..self.call.clone() };
        let (number, out) = made(self.who, &call, &mut self.side);
        (number, out[0], out[1], out[2])
    }
    fn ask(&mut self, op: Op, request: u32, rank: u32, tag: u32) -> Told {
        let (number, first, second, _) = self.whole(op, request, rank, tag, 0);
        (number, first, second)
    }
    fn number(&mut self, op: Op, rank: u32, tag: u32) -> u32 {
        self.ask(op, 0, rank, tag).0
    }
    fn pop(&mut self) -> Told {
        match self.call.op {
            Op::TreeClear => self.ask(Op::TreePop, 0, 0, 0),
            Op::BucketClear => self.ask(Op::BucketPop, 0, 0, 0),
            _ => self.ask(Op::CyclePop, 2, 0, 0),
        }
    }
    fn push(&mut self, rank: u32, tag: u32) -> Told {
        self.ask(Op::CyclePush, 1, rank, tag)
    }
    fn idle(&mut self) -> Told {
        self.ask(Op::CycleIdle, 0, 0, 0)
    }
    fn drain(&mut self, budget: u32) -> Told {
        self.call.budget = budget;
        self.ask(Op::ClockedDrain, 0, 0, 0)
    }

    fn words(&self) -> Vec<u32> {
        self.side.words[..self.call.words].to_vec()
    }
    fn records(&self) -> Vec<u32> {
        self.side.records[..self.call.records].concat()
    }
}

const A: [u32; 24] = [5, 50, 0, 2, 1, 10, 0, 2, 8, 80, 0, 1, 0, 0, 0, 0, 3, 30, 0, 1, 0, 0, 0, 0];

fn case_1(c: Who) -> Done {
    same("A", Queue::a(c)?.words(), A.to_vec())
}

fn case_2(c: Who) -> Done {
    let mut t = Queue::a(c)?;
    let got: Vec<_> = (0..5).map(|_| t.pop()).collect();
    same("pops", got, vec![(0, 1, 10), (0, 3, 30), (0, 5, 50), (0, 8, 80), (6, 0, 0)])?;
    same("store", t.words(), vec![0; 24])
}

fn case_3(c: Who) -> Done {
    let mut t = Queue::a(c)?;
    same("replace 0/7", t.ask(Op::TreeReplace, 0, 0, 7), (0, 1, 10))?;
    let mut after = A.to_vec();
    after[4..8].copy_from_slice(&[0, 7, 0, 2]);
    same("store", t.words(), after)
}

fn case_4(c: Who) -> Done {
    let mut t = Queue::a(c)?;
    same("replace 1/7", t.ask(Op::TreeReplace, 0, 1, 7), (0, 1, 10))?;
    let mut after = A.to_vec();
    after[4..8].copy_from_slice(&[1, 7, 0, 2]);
    same("store", t.words(), after)
}

fn case_5(c: Who) -> Done {
    let mut t = Queue::a(c)?;
    same("replace 4/7", t.ask(Op::TreeReplace, 0, 4, 7), (0, 1, 10))?;
    let mut after = A.to_vec();
    after[4..8].copy_from_slice(&[3, 30, 0, 2]);
    after[16..20].copy_from_slice(&[4, 7, 0, 1]);
    same("store", t.words(), after)
}

fn case_6(c: Who) -> Done {
    let mut m = Queue::machine(c, 2, 2, 6)?;
    for (rank, tag) in [(5, 50), (3, 30), (8, 80), (1, 10)] {
        same("push", m.push(rank, tag), (0, 0, 0))?;
    }
    same("drain", m.drain(100), (0, 1, 0))?;
    same("A", m.words(), A.to_vec())?;
    same("pop", m.pop(), (0, 1, 10))?;
    same("slot 1", m.words()[4..8].to_vec(), vec![3, 30, 0, 1])?;
    same("node 1", m.words()[16..24].to_vec(), vec![3, 30, 0, 1, 0, 0, 0, 0])?;
    same("record", m.records(), vec![2, 1, 0, 0, 0])?;
    same("idle", m.idle(), (0, 0, 0))?;
    same("node 1", m.words()[16..24].to_vec(), vec![0; 8])?;
    same("record", m.records(), vec![0; 5])
}

fn case_7(c: Who) -> Done {
    let mut t = Queue::tree(c, 2, 2, 6)?;
    let got: Vec<u32> = (1..=7).map(|i| t.number(Op::TreePush, 10 - i, i)).collect();
    same("pushes", got, vec![0, 0, 0, 0, 0, 0, 5])
}

fn case_8(c: Who) -> Done {
    let mut q = Queue::bucket(c, 3)?;
    same("nodes", q.words()[8192..].to_vec(), vec![0, 0, 2, 0, 0, 3, 0, 0, 0, 1, 0])?;
    for (rank, tag, number) in [(7, 1, 0), (7, 2, 0), (4095, 3, 0), (0, 4, 5), (4096, 4, 4)] {
        same("push", q.number(Op::BucketPush, rank, tag), number)?;
    }
    for answer in [(0, 7, 1), (0, 7, 2), (0, 4095, 3), (6, 0, 0)] {
        same("pop", q.pop(), answer)?;
    }
    Ok(())
}

/// Case 8 at three storeys: the last rank is 262,143.
fn case_8_deep(c: Who) -> Done {
    let mut q = Queue::deep_bucket(c, 3)?;
    same("nodes", q.words()[524_288..].to_vec(), vec![0, 0, 2, 0, 0, 3, 0, 0, 0, 1, 0])?;
    for (rank, tag, number) in [(7, 1, 0), (7, 2, 0), (262_143, 3, 0), (0, 4, 5), (262_144, 4, 4)] {
        same("push", q.number(Op::BucketPush, rank, tag), number)?;
    }
    let bits = |q: &Queue| [q.side.bits[0], q.side.bits[1], q.side.bits[64], q.side.bits[65], q.side.bits[4160]];
    same("bits: top, middle, lowest", bits(&q), [1 | 1 << 63, 1, 1 << 63, 1 << 7, 1 << 63])?;
    for answer in [(0, 7, 1), (0, 7, 2), (0, 262_143, 3), (6, 0, 0)] {
        same("pop", q.pop(), answer)?;
    }
    same("bits of an empty queue", bits(&q), [0; 5])
}

fn case_9(c: Who) -> Done {
    // one that holds the largest of the refused shapes: the capacity refuses it, not the slice
    let mut side = Side::new(SLOT * 349_524, 65, 0);
    for (order, levels, slots, number) in [
        (4, 8, 87_380, 0),
        (4, 9, 349_524, 1),
        (2, 15, 65_534, 0),
        (2, 16, 131_070, 1),
        (8, 5, 37_448, 0),
        (8, 6, 299_592, 1),
        (3, 1, 3, 1),
        (3, 2, 12, 1),
        (2, 0, 0, 1),
        (4, 0, 0, 1),
    ] {
        let clear = |words| Call::tree(Op::TreeClear, order, levels, words);
        same("clear", made(c, &clear(SLOT * slots), &mut side).0, number)?;
        if number == 0 {
            same("clear of a short store", made(c, &clear(SLOT * slots - 1), &mut side).0, 1)?;
        }
    }
    same("N = 0", made(c, &Call::bucket(Op::BucketClear, 2, 0, 65, 8194), &mut side).0, 1)
}

fn case_10(c: Who) -> Done {
    let mut m = Queue::machine(c, 2, 2, 6)?;
    same("push", m.push(5, 50), (0, 0, 0))?;
    same("idle", m.idle(), (0, 0, 0))?;
    same("pop", m.pop(), (0, 5, 50))?;
    let mut m = Queue::machine(c, 2, 3, 14)?;
    same("push", m.push(5, 50), (0, 0, 0))?;
    same("idle", m.idle(), (0, 0, 0))?;
    same("pop", m.pop(), (0, 5, 50))?;
    same("push", m.push(6, 60), (0, 0, 0))?;
    same("push", m.push(7, 70), (0, 0, 0))?;
    let mut m = Queue::machine(c, 2, 2, 6)?;
    same("pop", m.pop(), (6, 0, 0))?;
    same("pop", m.pop(), (6, 0, 0))?;
    same("push", m.push(5, 50), (0, 0, 0))?;
    same("pop", m.pop(), (3, 0, 0))?;
    same("pop", m.pop(), (0, 5, 50))
}

/// Push 1, 9, 2 into order 2: the 2 is still on its way and node 0 is empty.
fn on_its_way(c: Who) -> Done {
    let mut m = Queue::machine(c, 2, 2, 6)?;
    for rank in [1, 9, 2] {
        same("push", m.push(rank, 10 * rank), (0, 0, 0))?;
    }
    same("node 0", m.words()[8..16].to_vec(), vec![0; 8])?;
    same("record", m.records(), vec![1, 0, 2, 20, 0])?;
    same("pop", m.pop(), (3, 0, 0))?;
    same("node 0", m.words()[8..16].to_vec(), vec![2, 20, 0, 1, 0, 0, 0, 0])?;
    same("pop", m.pop(), (0, 1, 10))
}

/// First in, first out within a bucket; freed room is used at once.
fn in_turn(c: Who) -> Done {
    let mut q = Queue::bucket(c, 2)?;
    same("push", q.number(Op::BucketPush, 7, 1), 0)?;
    same("push", q.number(Op::BucketPush, 7, 2), 0)?;
    same("replace on a full queue", q.ask(Op::BucketReplace, 0, 7, 3), (0, 7, 1))?;
    same("pop", q.pop(), (0, 7, 2))?;
    let words = q.words();
    same("free link and held", (words[8198], words[8199]), (2, 1))?;
    same("freed node", words[8195..8198].to_vec(), vec![0; 3])
}

/// A replace is a pop and then a push: a lower newcomer goes into its own bucket, an empty queue refuses.
fn pop_then_push(c: Who) -> Done {
    let mut q = Queue::bucket(c, 2)?;
    same("replace on an empty queue", q.ask(Op::BucketReplace, 0, 7, 1), (6, 0, 0))?;
    same("push", q.number(Op::BucketPush, 7, 1), 0)?;
    same("replace by a lower rank", q.ask(Op::BucketReplace, 0, 3, 2), (0, 7, 1))?;
    let words = q.words();
    same("heads of 3 and 7", (words[3], words[7]), (1, 0))?;
    same("pop", q.pop(), (0, 3, 2))?;
    same("replace on an emptied queue", q.ask(Op::BucketReplace, 0, 3, 3), (6, 0, 0))
}

/// Equal ranks are not exchanged in a put, and the leftmost smallest count is chosen.
fn ties(c: Who) -> Done {
    let mut t = Queue::tree(c, 2, 2, 6)?;
    for tag in 1..=4 {
        same("push", t.number(Op::TreePush, 5, tag), 0)?;
    }
    same("store", t.words(), vec![5, 1, 0, 2, 5, 2, 0, 2, 5, 3, 0, 1, 0, 0, 0, 0, 5, 4, 0, 1, 0, 0, 0, 0])?;
    same("pop", t.pop(), (0, 5, 1))?;
    same("store", t.words(), vec![5, 3, 0, 1, 5, 2, 0, 2, 0, 0, 0, 0, 0, 0, 0, 0, 5, 4, 0, 1, 0, 0, 0, 0])
}

/// A replace with nothing held is refused and runs as an idle cycle, so that a pop just after it is not too soon; and a lower
/// newcomer is taken in, not answered.
fn empty_machine(c: Who) -> Done {
    let mut t = Queue::tree(c, 2, 2, 6)?;
    same("replace on an empty tree", t.ask(Op::TreeReplace, 0, 5, 50), (6, 0, 0))?;
    same("store", t.words(), vec![0; 24])?;
    let mut m = Queue::machine(c, 2, 2, 6)?;
    same("replace on an empty machine", m.ask(Op::CycleReplace, 3, 5, 50), (6, 0, 0))?;
    same("pop", m.pop(), (6, 0, 0))?;
    same("push", m.push(1, 10), (0, 0, 0))?;
    same("replace too soon", m.ask(Op::CycleReplace, 3, 0, 7), (3, 0, 0))?;
    same("replace by a lower rank", m.ask(Op::CycleReplace, 3, 0, 7), (0, 1, 10))?;
    same("idle", m.idle(), (0, 0, 0))?;
    same("pop", m.pop(), (0, 0, 7))
}

/// Tag 0 is refused 7 in every queue, and the store stands: after 4 in the bucket queue, after 3 on the clock, before 5 and 6.
fn untagged(c: Who) -> Done {
    let mut t = Queue::tree(c, 2, 2, 6)?;
    same("push 5/0", t.number(Op::TreePush, 5, 0), 7)?;
    same("replace 5/0", t.ask(Op::TreeReplace, 0, 5, 0), (7, 0, 0))?;
    same("store", t.words(), vec![0; 24])?;
    same("push 0/1", t.number(Op::TreePush, 0, 1), 0)?;
    same("replace 0/0", t.ask(Op::TreeReplace, 0, 0, 0), (7, 0, 0))?;
    same("pop", t.pop(), (0, 0, 1))?;
    let mut q = Queue::bucket(c, 1)?;
    same("push 4096/0", q.number(Op::BucketPush, 4096, 0), 4)?;
    same("push 7/0", q.number(Op::BucketPush, 7, 0), 7)?;
    same("replace 7/0", q.ask(Op::BucketReplace, 0, 7, 0), (7, 0, 0))?;
    same("push 0/1", q.number(Op::BucketPush, 0, 1), 0)?;
    same("push 7/0 on a full queue", q.number(Op::BucketPush, 7, 0), 7)?;
    same("pop", q.pop(), (0, 0, 1))?;
    let mut m = Queue::machine(c, 2, 2, 6)?;
    same("push 5/0", m.push(5, 0), (7, 0, 0))?;
    same("pop", m.pop(), (6, 0, 0))?;
    same("push", m.push(5, 50), (0, 0, 0))?;
    same("replace too soon", m.ask(Op::CycleReplace, 3, 1, 0), (3, 0, 0))?;
    same("replace 1/0", m.ask(Op::CycleReplace, 3, 1, 0), (7, 0, 0))?;
    same("push 1/0", m.push(1, 0), (7, 0, 0))?;
    same("pop", m.pop(), (0, 5, 50))
}

/// Equal ranks in one node leave by lower tag; in different nodes in no promised order.
fn lower_tag(c: Who) -> Done {
    let mut t = Queue::tree(c, 2, 2, 6)?;
    for tag in [9, 3] {
        same("push", t.number(Op::TreePush, 5, tag), 0)?;
    }
    same("pop of 5/9 and 5/3", t.pop(), (0, 5, 3))?;
    let mut t = Queue::tree(c, 2, 2, 6)?;
    for tag in [9, 8, 1] {
        same("push", t.number(Op::TreePush, 5, tag), 0)?;
    }
    for tag in [8, 9, 1] {
        same("pop with 5/1 a level deeper", t.pop(), (0, 5, tag))?;
    }
    let mut m = Queue::machine(c, 2, 2, 6)?;
    for tag in [9, 3] {
        same("push", m.push(5, tag), (0, 0, 0))?;
    }
    same("pop just after a push", m.pop(), (3, 0, 0))?;
    same("pop by a cycle", m.pop(), (0, 5, 3))
}

/// The highest rank with the highest tag is no empty slot, also where an empty one stands to its left.
fn highest(c: Who) -> Done {
    for order in [2, 4, 8] {
        let mut t = Queue::tree(c, order, 1, order as usize)?;
        for x in [1, u32::MAX] {
            same("push", t.number(Op::TreePush, x, x), 0)?;
        }
        same("pop", t.pop(), (0, 1, 1))?;
        same("pop of the highest", t.pop(), (0, u32::MAX, u32::MAX))?;
        same("pop of nothing", t.pop(), (6, 0, 0))?;
    }
    Ok(())
}

/// The length travels with its element through push, replace and pop of each queue: in slots, nodes and records, and in every answer.
fn lengths(c: Who) -> Done {
    let a = [(5, 50, 500), (3, 30, 300), (8, 80, 800), (1, 10, 100)];
    let pushed = vec![5, 50, 500, 2, 1, 10, 100, 2, 8, 80, 800, 1, 0, 0, 0, 0, 3, 30, 300, 1, 0, 0, 0, 0];
    let swapped = vec![5, 50, 500, 2, 3, 30, 300, 2, 8, 80, 800, 1, 0, 0, 0, 0, 4, 7, 70, 1, 0, 0, 0, 0];
    let popped = vec![5, 50, 500, 2, 4, 7, 70, 1, 8, 80, 800, 1, 0, 0, 0, 0, 0, 0, 0, 0, 0, 0, 0, 0];
    let mut t = Queue::tree(c, 2, 2, 6)?;
    for (rank, tag, length) in a {
        same("push", t.whole(Op::TreePush, 0, rank, tag, length).0, 0)?;
    }
    same("store", t.words(), pushed.clone())?;
    same("replace 4/7/70", t.whole(Op::TreeReplace, 0, 4, 7, 70), (0, 1, 10, 100))?;
    same("store", t.words(), swapped.clone())?;
    same("pop", t.whole(Op::TreePop, 0, 0, 0, 0), (0, 3, 30, 300))?;
    same("store", t.words(), popped.clone())?;
    let mut m = Queue::machine(c, 2, 2, 6)?;
    for (rank, tag, length) in a {
        same("push", m.whole(Op::CyclePush, 1, rank, tag, length), (0, 0, 0, 0))?;
    }
    same("a put on its way", m.records(), vec![1, 1, 3, 30, 300])?;
    same("idle", m.whole(Op::CycleIdle, 0, 0, 0, 0), (0, 0, 0, 0))?;
    same("store", m.words(), pushed)?;
    same("replace 4/7/70", m.whole(Op::CycleReplace, 3, 4, 7, 70), (0, 1, 10, 100))?;
    same("a swap on its way", m.records(), vec![3, 1, 4, 7, 70])?;
    same("pop too soon", m.whole(Op::CyclePop, 2, 0, 0, 0), (3, 0, 0, 0))?;
    same("store", m.words(), swapped)?;
    same("pop", m.whole(Op::CyclePop, 2, 0, 0, 0), (0, 3, 30, 300))?;
    same("a take on its way", m.records(), vec![2, 1, 0, 0, 0])?;
    same("idle", m.whole(Op::CycleIdle, 0, 0, 0, 0), (0, 0, 0, 0))?;
    same("store", m.words(), popped)?;
    let mut q = Queue::bucket(c, 2)?;
    same("push 7/1/64", q.whole(Op::BucketPush, 0, 7, 1, 64).0, 0)?;
    same("push 7/2/1500", q.whole(Op::BucketPush, 0, 7, 2, 1500).0, 0)?;
    same("nodes", q.words()[8192..8198].to_vec(), vec![1, 64, 2, 2, 1500, 0])?;
    same("replace 3/3/max", q.whole(Op::BucketReplace, 0, 3, 3, u32::MAX), (0, 7, 1, 64))?;
    same("nodes", q.words()[8192..8198].to_vec(), vec![3, u32::MAX, 0, 2, 1500, 0])?;
    same("pop", q.whole(Op::BucketPop, 0, 0, 0, 0), (0, 3, 3, u32::MAX))?;
    same("nodes", q.words()[8192..8198].to_vec(), vec![0, 0, 0, 2, 1500, 0])?;
    same("pop", q.whole(Op::BucketPop, 0, 0, 0, 0), (0, 7, 2, 1500))?;
    same("pop of nothing", q.whole(Op::BucketPop, 0, 0, 0, 0), (6, 0, 0, 0))
}

/// The worked trace, by cycles.
fn worked(c: Who) -> Done {
    let mut m = Queue::machine(c, 2, 2, 6)?;
    same("push", m.push(5, 50), (0, 0, 0))?;
    same("pop", m.pop(), (3, 0, 0))?;
    same("pop", m.pop(), (0, 5, 50))?;
    same("pop", m.pop(), (3, 0, 0))?;
    same("drain", m.drain(100), (0, 0, 0))
}

/// Every case with its name.
pub fn all(c: Who) -> Vec<(&'static str, Done)> {
    vec![
        ("case 1: the words of store A", case_1(c)),
        ("case 2: A popped", case_2(c)),
        ("case 3: A, replace 0/7", case_3(c)),
        ("case 4: A, replace 1/7", case_4(c)),
        ("case 5: A, replace 4/7", case_5(c)),
        ("case 6: A clocked, drained, pop", case_6(c)),
        ("case 7: six pushes and a seventh", case_7(c)),
        ("case 8: bucket, N = 3", case_8(c)),
        ("case 8 at three storeys", case_8_deep(c)),
        ("case 9: shapes at the edge", case_9(c)),
        ("case 10: what is too soon", case_10(c)),
        ("push 1, 9, 2: still on its way", on_its_way(c)),
        ("first in, first out in a bucket", in_turn(c)),
        ("a bucket's replace: a pop and then a push", pop_then_push(c)),
        ("equal ranks in a tree", ties(c)),
        ("a tree's replace, empty and by a lower rank", empty_machine(c)),
        ("tag 0 in every queue", untagged(c)),
        ("equal ranks in a node: the lower tag", lower_tag(c)),
        ("the highest rank and tag", highest(c)),
        ("lengths in every queue", lengths(c)),
        ("the worked trace by cycles", worked(c)),
    ]
}

/// The worked trace through the model of the trace program.
pub fn trace() -> Done {
    let mut input = b"PFT\x01\x00\x02\x02".to_vec();
    for (code, rank, tag) in [(1u8, 5u32, 50u32), (2, 0, 0), (2, 0, 0), (2, 0, 0)] {
        input.push(code);
        input.extend_from_slice(&rank.to_le_bytes());
        input.extend_from_slice(&tag.to_le_bytes());
    }
    let written = String::from_utf8(models::trace::play(&input)).unwrap();
    let paper = "1 pushed\n2 too soon\n3 out 5 50\n4 too soon\nheld 0 drained 0\n";
    same("the worked trace", written.as_str(), paper)
}
