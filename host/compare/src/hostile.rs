//! Hostile calls: stores that are slightly damaged or all garbage, records, marks and requests
//! that are wrong, shapes and lengths outside the rules.

use crate::harness::Harness;
use crate::histories::{larger, shapes_up_to, SMALLER};
use crate::side::Side;
use models::boundary::OUT;
use models::call::{Call, Op, Record};
use models::rng::Rng;
use models::tree::{Node, Shape, SLOT};
use models::{boundary, bucket};

const ORDERS: [u32; 15] = [0, 1, 3, 5, 6, 7, 9, 16, 32, 64, 0x8000_0000, 0x8000_0002, u32::MAX, u32::MAX - 1, 12];
const LEVELS: [u32; 12] = [0, 16, 17, 20, 31, 32, 33, 63, 0x4000_0000, 0x8000_0000, 0x8000_0001, u32::MAX];

const STOREYS: [u32; 10] = [0, 1, 4, 5, 8, 63, 64, 0x8000_0000, 0x8000_0002, u32::MAX];

/// A small shape that is taken, more often the smallest ones.
fn small(rng: &mut Rng) -> (u32, u32) {
    if rng.once_in(200) {
        return rng.pick(&shapes_up_to(600));
    }
    rng.pick(&[
        (2, 1),
        (2, 2),
        (2, 2),
        (2, 3),
        (2, 3),
        (2, 3),
        (2, 4),
        (2, 4),
        (2, 5),
        (4, 1),
        (4, 2),
        (4, 2),
        (4, 3),
        (4, 3),
        (8, 1),
        (8, 2),
        (8, 2),
    ])
}

fn rank(rng: &mut Rng) -> u32 {
    match rng.below(12) {
        0 => 0,
        1 => u32::MAX,
        2 => rng.word(),
        _ => rng.below(9) as u32,
    }
}

/// A tag; now and then 0, which is none.
fn tag(rng: &mut Rng) -> u32 {
    if rng.once_in(16) {
        0
    } else {
        rng.word()
    }
}

/// A length; half of them 0.
fn length(rng: &mut Rng) -> u32 {
    if rng.once_in(2) {
        0
    } else {
        rng.word()
    }
}

/// A sound store of the one-at-a-time tree, filled to any degree.
fn sound_tree(rng: &mut Rng, order: u32, levels: u32) -> Vec<u32> {
    let shape = Shape::new(order, levels).unwrap();
    let (capacity, mut store, mut out) = (shape.capacity(), vec![0; shape.words()], [0; OUT]);
    let fill = match rng.below(6) {
        0 => capacity,
        1 => 0,
        _ => rng.below(capacity + 1),
    };
    let high = rng.pick(&[3, 10, 1000]);
    for _ in 0..fill {
        let (rank, tag) = (1 + rng.below(high) as u32, 1 + rng.below(99) as u32);
        let _ = boundary::tree_push(&mut store, order, levels, rank, tag, length(rng));
    }
    for _ in 0..rng.below(6) {
        match rng.below(3) {
            0 => {
                let _ = boundary::tree_push(&mut store, order, levels, rank(rng), rank(rng), length(rng));
            }
            1 => {
                let _ = boundary::tree_pop(&mut store, order, levels, &mut out);
            }
            _ => {
                let _ = boundary::tree_replace(&mut store, order, levels, rank(rng), rank(rng), length(rng), &mut out);
            }
        }
    }
    store
}

/// Any slots, most of which would pass a node's test by themselves.
fn garbage_tree(rng: &mut Rng, order: u32, levels: u32) -> Vec<u32> {
    let shape = Shape::new(order, levels).unwrap();
    let mut store = vec![0; shape.words()];
    let wild = rng.pick(&[0, 8, 40, 200]);
    let empty = rng.pick(&[2, 4, 20]);
    for level in 1..=shape.levels {
        let limit = 1 + shape.room_below(level);
        for node in 0..shape.nodes(level) {
            for slot in 0..shape.order {
                let w = shape.word(level, node, slot);
                if rng.once_in(empty) {
                    continue;
                }
                store[w] = rank(rng);
                store[w + 1] = rank(rng);
                store[w + 2] = length(rng);
                store[w + COUNT] = 1 + rng.below(limit) as u32;
                if wild != 0 && rng.once_in(wild) {
                    store[w + rng.below(SLOT as u64) as usize] =
                        rng.pick(&[0, limit as u32, limit as u32 + 1, u32::MAX, 1]);
                }
            }
        }
    }
    store
}

/// Where a slot's count stands, behind rank, tag and length.
const COUNT: usize = SLOT - 1;

/// The nodes that the next operations are going to read: from this node down, by the lowest ranks
/// or by the smallest counts.
fn chain(shape: Shape, store: &[u32], mut level: u64, mut node: u64, by_rank: bool, into: &mut Vec<(u64, u64)>) {
    while level <= shape.levels && node < shape.nodes(level) {
        into.push((level, node));
        let slot = match Node::read(shape, store, level, node) {
            Err(_) => return,
            Ok(n) if by_rank => match n.lowest() {
                Some(j) if n.slots()[j].count > 1 => j,
                _ => return,
            },
            Ok(n) if n.first_empty().is_none() => n.smallest_count(),
            _ => return,
        };
        node = node * shape.order + slot as u64;
        level += 1;
    }
}

/// The nodes that an operation or a pending record reaches.
fn reached(order: u32, levels: u32, store: &[u32], records: &[Record]) -> Vec<(u64, u64)> {
    let shape = Shape::new(order, levels).unwrap();
    let mut nodes = Vec::new();
    chain(shape, store, 1, 0, true, &mut nodes);
    chain(shape, store, 1, 0, false, &mut nodes);
    for (i, r) in records.iter().enumerate() {
        if r[0] != 0 && r[0] <= 3 {
            // twice, since a record's node is met only while the record stands
            let level = i as u64 + 2;
            chain(shape, store, level, r[1] as u64, r[0] != 1, &mut nodes);
            chain(shape, store, level, r[1] as u64, r[0] != 1, &mut nodes);
        }
    }
    nodes
}

/// Spoils one word, or one slot or node where a single word shows nothing.
fn spoil_tree(rng: &mut Rng, order: u32, levels: u32, store: &mut [u32], reached: &[(u64, u64)]) {
    let shape = Shape::new(order, levels).unwrap();
    let (level, node) = if rng.once_in(4) {
        // a level first, so that the few nodes near the root are met as often as the many below
        let level = 1 + rng.below(shape.levels.min(4));
        (level, rng.below(shape.nodes(level)))
    } else {
        rng.pick(reached)
    };
    let mut slot = rng.below(shape.order);
    if rng.once_in(3) {
        if let Some(empty) = (0..shape.order).find(|&j| store[shape.word(level, node, j) + COUNT] == 0) {
            slot = empty;
            if rng.once_in(2) {
                let w = shape.word(level, node, slot);
                store[w + rng.below(COUNT as u64) as usize] = 1 + rng.below(9) as u32;
                return;
            }
        }
    }
    let w = shape.word(level, node, slot);
    let limit = 1 + shape.room_below(level) as u32;
    match rng.below(17) {
        0 | 1 => store[w] = rank(rng),
        2 => store[w + 1] = rank(rng),
        3 => store[w + COUNT] = 0,
        4 => store[w + COUNT] = store[w + COUNT].wrapping_add(1),
        5 => store[w + COUNT] = store[w + COUNT].wrapping_sub(1),
        6 => store[w + COUNT] = limit,
        7 => store[w + COUNT] = limit + 1,
        8 => store[w + COUNT] = rng.pick(&[1, 2, u32::MAX, 0x8000_0000, limit.wrapping_mul(2)]),
        9 => {
            // an element in an empty slot, or none in an occupied one
            if store[w + COUNT] == 0 {
                store[w + rng.below(COUNT as u64) as usize] = 1 + rank(rng) % 7;
            } else {
                let keep = rng.below(SLOT as u64) as usize;
                for i in 0..SLOT {
                    if i != keep || keep == COUNT {
                        store[w + i] = 0;
                    }
                }
            }
        }
        10 | 11 => {
            // a whole node empty
            for j in 0..shape.order {
                let w = shape.word(level, node, j);
                store[w..w + SLOT].fill(0);
            }
        }
        12 => {
            // a whole node at its limit
            for j in 0..shape.order {
                let w = shape.word(level, node, j);
                store[w + COUNT] = limit;
            }
        }
        13 => {
            store[w] = rank(rng);
            store[w + 1] = rank(rng);
            store[w + 2] = length(rng);
            store[w + COUNT] = 1 + rng.below(limit as u64) as u32;
        }
        14 => {
            let other = SLOT * rng.below(shape.capacity()) as usize;
            for i in 0..SLOT {
                store.swap(w + i, other + i);
            }
        }
        15 => store[w + 2] = length(rng),
        _ => {
            let at = rng.below(store.len() as u64) as usize;
            store[at] ^= 1 << rng.below(32);
        }
    }
}

fn spoilt_tree(rng: &mut Rng, order: u32, levels: u32, base: &[u32], records: &[Record]) -> Vec<u32> {
    let mut store = base.to_vec();
    let reached = reached(order, levels, base, records);
    let times = rng.pick(&[0, 1, 1, 1, 1, 1, 1, 2, 2, 3]);
    for _ in 0..times {
        spoil_tree(rng, order, levels, &mut store, &reached);
    }
    store
}

/// Turns some calls into ones with wrong numbers or lengths.
fn misshape(rng: &mut Rng, k: &mut Call, need: usize) {
    match rng.below(6) {
        0 => k.order = rng.pick(&ORDERS),
        1 => k.levels = rng.pick(&LEVELS),
        2 => k.words = rng.pick(&[need - 1, need - 1, 0, need / 2, 2]),
        3 => k.out = rng.below(OUT as u64) as usize,
        4 => k.order = rng.pick(&[2, 4, 8]),
        _ => k.levels = rng.below(7) as u32,
    }
}

fn lay(side: &mut Side, rng: &mut Rng, store: &[u32], longer: usize) {
    side.words.clear();
    side.words.extend_from_slice(store);
    for _ in 0..longer + crate::desk::GUARD {
        side.words.push(rng.word());
    }
}

/// Hostile calls of the one-at-a-time tree.
pub fn tree(h: &mut Harness, rng: &mut Rng, calls: u64) {
    let until = h.tally.calls + calls;
    let mut side = Side::new(0, 0, 0);
    while h.tally.calls < until {
        let (order, levels) = small(rng);
        let garbage = rng.once_in(4);
        let base = if garbage { garbage_tree(rng, order, levels) } else { sound_tree(rng, order, levels) };
        for _ in 0..24 {
            let store = spoilt_tree(rng, order, levels, &base, &[]);
            let longer = rng.below(3) as usize;
            lay(&mut side, rng, &store, longer);
            h.set(&side);
            for _ in 0..1 + rng.below(3) {
                let op = match rng.below(40) {
                    0 => Op::TreeClear,
                    1..=3 => Op::TreeHeld,
                    4..=15 => Op::TreePush,
                    16..=27 => Op::TreePop,
                    _ => Op::TreeReplace,
                };
                let mut k = Call::tree(op, order, levels, store.len() + longer).with(rank(rng), tag(rng), length(rng));
                k.out = if op == Op::TreeHeld { 1 } else { OUT } + rng.below(2) as usize;
                if rng.once_in(12) {
                    misshape(rng, &mut k, store.len());
                }
                if h.call(&k).is_none() {
                    return;
                }
            }
        }
    }
}

/// A machine in the middle of a history: a store, records and a mark.
fn sound_machine(rng: &mut Rng, order: u32, levels: u32) -> (Vec<u32>, Vec<Record>, Vec<u32>) {
    let mut store = sound_tree(rng, order, levels);
    let mut records = vec![[0; 5]; levels as usize - 1];
    let (mut mark, mut out) = ([0], [0; OUT]);
    for _ in 0..rng.below(2 * levels as u64 + 4) {
        let request = rng.pick(&[0, 1, 1, 1, 2, 2, 3, 3]);
        let _ = boundary::clocked_cycle(
            &mut store,
            order,
            levels,
            &mut records,
            &mut mark,
            request,
            rank(rng),
            rng.word(),
            length(rng),
            &mut out,
        );
    }
    (store, records, mark.to_vec())
}

fn node_number(rng: &mut Rng, shape: Shape, level: u64) -> u32 {
    let nodes = shape.nodes(level) as u32;
    match rng.below(12) {
        0 => nodes,
        1 => rng.pick(&[nodes + 1, u32::MAX, 0x8000_0000, nodes * 2, 0x5555_5556]),
        _ => rng.below(nodes as u64) as u32,
    }
}

fn spoil_records(rng: &mut Rng, order: u32, levels: u32, store: &[u32], records: &mut [Record]) {
    if levels < 2 {
        return;
    }
    let shape = Shape::new(order, levels).unwrap();
    let level = 2 + rng.below(shape.levels - 1);
    let record = &mut records[level as usize - 2];
    match rng.below(15) {
        10..=13 => {
            // work that could well be pending here: on a node that the store's own chains reach
            let by_rank = !rng.once_in(3);
            let mut nodes = Vec::new();
            chain(shape, store, 1, 0, by_rank, &mut nodes);
            let (level, node) = rng.pick(&nodes);
            if level >= 2 {
                let kind = if by_rank { 2 + rng.below(2) as u32 } else { 1 };
                records[level as usize - 2] = [kind, node as u32, rank(rng), rank(rng), length(rng)];
            }
        }
        0 => record[0] = rng.below(4) as u32,
        1 => record[1] = node_number(rng, shape, level),
        2 => record[2] = rank(rng),
        3 => record[3] = rank(rng),
        9 => record[4] = length(rng),
        4 => record[1] = shape.nodes(level) as u32,
        5 if rng.once_in(4) => record[0] = rng.pick(&[4, 5, 255, 256, 257, 0x1_0000, u32::MAX]),
        // nothing, with numbers that no call may look at: 1 and 0 among them
        14 => *record = [0, rng.pick(&[0, 1, 1, 2, u32::MAX]), rank(rng), rank(rng), length(rng)],
        _ => *record = [1 + rng.below(3) as u32, node_number(rng, shape, level), rank(rng), rank(rng), length(rng)],
    }
}

/// Hostile calls of the clocked tree.
pub fn clocked(h: &mut Harness, rng: &mut Rng, calls: u64) {
    let until = h.tally.calls + calls;
    let mut side = Side::new(0, 0, 0);
    while h.tally.calls < until {
        let (order, levels) = small(rng);
        let (base, records, mark) = match rng.below(5) {
            0 => (garbage_tree(rng, order, levels), vec![[0; 5]; levels as usize - 1], vec![rng.below(2) as u32]),
            _ => sound_machine(rng, order, levels),
        };
        for _ in 0..24 {
            let mut spoilt = records.clone();
            for _ in 0..rng.pick(&[0, 0, 0, 1, 1, 1, 2, 3, 6]) {
                spoil_records(rng, order, levels, &base, &mut spoilt);
            }
            let store = if rng.once_in(3) { base.clone() } else { spoilt_tree(rng, order, levels, &base, &spoilt) };
            let longer = rng.below(3) as usize;
            lay(&mut side, rng, &store, longer);
            side.records.clear();
            side.records.extend_from_slice(&spoilt);
            // behind the records of this shape stand others, which no call may look at
            let further = rng.pick(&[0, 0, 1, 2, 9]);
            for _ in 0..further + crate::desk::GUARD {
                side.records.push([(); 5].map(|()| rng.word()));
            }
            side.mark = vec![mark[0], rng.word()];
            match rng.below(24) {
                0..=3 => side.mark[0] = 0,
                4..=7 => side.mark[0] = 1,
                8 => side.mark[0] = rng.pick(&[2, 3, 256, 0x1_0000, u32::MAX]),
                _ => {}
            }
            h.set(&side);
            for _ in 0..1 + rng.below(4) {
                let (words, records) = (store.len() + longer, records.len() + further);
                let mut k = match rng.below(40) {
                    0 => Call::machine(Op::ClockedClear, order, levels, words, records),
                    1 => Call::tree(Op::ClockedHeld, order, levels, words),
                    2..=10 => {
                        let budget = rng.pick(&[0, 1, 1, 2, 3, levels, levels, 100, u32::MAX]);
                        Call::machine(Op::ClockedDrain, order, levels, words, records).budget(budget)
                    }
                    11 => {
                        let request = rng.pick(&[4, 5, 256, 257, 0x1_0001, u32::MAX]);
                        Call::cycle(request, order, levels, words, records)
                    }
                    _ => Call::cycle(rng.below(4) as u32, order, levels, words, records),
                };
                k = k.with(rank(rng), tag(rng), length(rng));
                k.out = rng.below(2) as usize
                    + match k.op {
                        Op::ClockedHeld => 1,
                        Op::ClockedDrain => 2,
                        _ => OUT,
                    };
                if k.op.is_machine() {
                    k.mark = 1 + rng.below(2) as usize;
                }
                if rng.once_in(10) {
                    misshape(rng, &mut k, store.len());
                }
                if k.op.is_machine() && rng.once_in(20) {
                    match rng.below(3) {
                        0 => k.mark = 0,
                        1 if levels > 1 => k.records = levels as usize - 2,
                        _ => k.records = 0,
                    }
                }
                if h.call(&k).is_none() {
                    return;
                }
            }
        }
    }
}

/// A bucket queue's store under attack: its depth, its N, and the few ranks in use.
struct Target {
    storeys: u32,
    nodes: u32,
    ranks: Vec<u32>,
}

impl Target {
    fn head(&self, rank: u32) -> usize {
        rank as usize
    }
    fn tail(&self, rank: u32) -> usize {
        bucket::ranks(self.storeys) + rank as usize
    }
    fn tag(&self, node: u32) -> usize {
        2 * bucket::ranks(self.storeys) + 3 * node as usize
    }
    fn next(&self, node: u32) -> usize {
        self.tag(node) + 2
    }
    fn free(&self) -> usize {
        self.tag(self.nodes)
    }
    fn held(&self) -> usize {
        self.free() + 1
    }
    /// The word and the bit over a rank, so many storeys up from the lowest.
    fn over(&self, rank: u32, up: u32) -> (usize, u32) {
        let bit = rank / 64u32.pow(up);
        let first = match self.storeys - 1 - up {
            0 => 0,
            1 => 1,
            _ => 65,
        };
        (first + bit as usize / 64, bit % 64)
    }

    fn link(&self, rng: &mut Rng) -> u32 {
        match rng.below(8) {
            0 | 1 => 0,
            2 => self.nodes + 1,
            3 => rng.pick(&[u32::MAX, 0x8000_0000, self.nodes * 2 + 1, 0x8000_0001]),
            _ => 1 + rng.below(self.nodes as u64) as u32,
        }
    }

    /// Spoils one word.
    fn spoil(&self, rng: &mut Rng, bits: &mut [u64], words: &mut [u32]) {
        let r = rng.pick(&self.ranks);
        let (own, bit) = self.over(r, 0);
        // a storey above the lowest, and a storey below the top
        let (above, bit_above) = self.over(r, 1 + rng.below(self.storeys as u64 - 1) as u32);
        let (below, _) = self.over(r, rng.below(self.storeys as u64 - 1) as u32);
        match rng.below(20) {
            0 => bits[above] ^= 1 << bit_above,
            1 => bits[0] = rng.pick(&[0, 1, u64::MAX, 1 << 63]),
            2 if rng.once_in(2) => bits[0] ^= 1 << rng.below(64),
            2 => bits[0] ^= 1 << self.over(r, self.storeys - 1).1,
            3 => bits[own] ^= 1 << bit,
            4 => bits[below] = 0,
            5 => bits[1 + rng.below(64) as usize] ^= 1 << rng.below(64),
            6 | 7 => words[self.head(r)] = self.link(rng),
            8 | 9 => words[self.tail(r)] = self.link(rng),
            10 | 11 => words[self.next(rng.below(self.nodes as u64) as u32)] = self.link(rng),
            12 => {
                // the next of this bucket's tail or head, or of the first free node
                let at = rng.pick(&[self.head(r), self.tail(r), self.tail(r), self.free(), self.free()]);
                let link = words[at];
                if link >= 1 && link <= self.nodes {
                    words[self.next(link - 1)] = self.link(rng);
                }
            }
            13 => words[self.free()] = self.link(rng),
            14 => words[self.free()] = words[self.tail(r)],
            15 => {
                let other = rng.pick(&self.ranks);
                words[self.tail(r)] = words[self.head(other)];
            }
            16 => words[self.held()] = rng.below(self.nodes as u64 + 2) as u32,
            17 => words[self.held()] = rng.pick(&[0, 1, self.nodes, self.nodes + 1, u32::MAX, self.nodes - 1]),
            18 => {
                // one emptied wholly but for one of the three that must agree
                let keep = rng.below(4);
                if keep != 0 {
                    words[self.head(r)] = 0;
                }
                if keep != 1 {
                    words[self.tail(r)] = 0;
                }
                if keep != 2 {
                    bits[own] &= !(1 << bit);
                }
            }
            // a tag or a length
            _ => words[self.tag(rng.below(self.nodes as u64) as u32) + rng.below(2) as usize] = rng.word(),
        }
    }

    /// Links, bits and counts at will, all small.
    fn scatter(&self, rng: &mut Rng, bits: &mut [u64], words: &mut [u32]) {
        for &r in &self.ranks {
            let some = rng.below(3);
            words[self.head(r)] = if some == 0 { 0 } else { self.link(rng) };
            words[self.tail(r)] = match some {
                0 => 0,
                1 => words[self.head(r)],
                _ => self.link(rng),
            };
            let mut below = some != 0;
            for up in 0..self.storeys {
                let (at, bit) = self.over(r, up);
                if below != rng.once_in(8) {
                    bits[at] |= 1 << bit;
                }
                below = bits[at] != 0;
            }
        }
        for node in 0..self.nodes {
            words[self.next(node)] = if rng.once_in(2) { 0 } else { self.link(rng) };
        }
        let held = rng.below(self.nodes as u64 + 1) as u32;
        words[self.held()] = if bits[0] == 0 { 0 } else { held };
        words[self.free()] = if words[self.held()] == self.nodes { 0 } else { 1 + rng.below(self.nodes as u64) as u32 };
    }
}

/// A few ranks of a bucket queue: in one word, in words side by side, first and last, in one group and another.
fn bucket_ranks(rng: &mut Rng, storeys: u32) -> Vec<u32> {
    let ranks = bucket::ranks(storeys) as u32;
    let group = ranks / 64;
    match rng.below(7) {
        0 => vec![0, 1, 2],
        1 => vec![63, 64],
        2 => vec![0, ranks - 1],
        3 => vec![ranks - 64, ranks - 1, 31],
        4 => vec![5, 64 * 7 + 5, 64 * 7 + 6],
        5 => vec![5, group * 7 + 5, group * 7 + group - 1],
        _ => (0..3).map(|_| rng.below(ranks as u64) as u32).collect(),
    }
}

/// Hostile calls of the bucket queue.
pub fn bucket(h: &mut Harness, rng: &mut Rng, storeys: u32, calls: u64) {
    let until = h.tally.calls + calls;
    let (tower, last) = (bucket::bits(storeys), bucket::ranks(storeys) as u32 - 1);
    while h.tally.calls < until {
        let nodes = match rng.below(30) {
            0 => 1 + rng.below(300) as u32,
            1 => 4096,
            _ => 1 + rng.below(5) as u32,
        };
        let t = Target { storeys, nodes, ranks: bucket_ranks(rng, storeys) };
        let need = bucket::words(storeys, nodes as u64) as usize;
        let mut side = Side::new(need + 2, tower + 2, 0);
        side.bits[..tower].fill(0);
        side.words[..need].fill(0);
        if rng.once_in(4) {
            t.scatter(rng, &mut side.bits, &mut side.words);
        } else {
            let (b, w) = (&mut side.bits[..tower], &mut side.words[..need]);
            let _ = boundary::bucket_clear(b, w, storeys, nodes);
            let fill = match rng.below(5) {
                0 => nodes as u64,
                1 => (nodes - 1) as u64,
                _ => rng.below(nodes as u64 + 1),
            };
            for _ in 0..fill {
                let _ = boundary::bucket_push(b, w, storeys, nodes, rng.pick(&t.ranks), rng.word(), rng.word());
            }
            for _ in 0..rng.below(4) {
                let (rank, tag) = (rng.pick(&t.ranks), rng.word());
                let _ = boundary::bucket_replace(b, w, storeys, nodes, rank, tag, rng.word(), &mut [0; OUT]);
            }
            if rng.once_in(3) {
                let _ = boundary::bucket_pop(b, w, storeys, nodes, &mut [0; OUT]);
            }
        }
        let mut spoilt = side.clone();
        for _ in 0..16 {
            spoilt.copy_from(&side);
            for _ in 0..rng.pick(&[0, 1, 1, 1, 1, 1, 1, 1, 2, 2, 3]) {
                t.spoil(rng, &mut spoilt.bits, &mut spoilt.words);
            }
            h.set(&spoilt);
            for _ in 0..1 + rng.below(4) {
                let op = match rng.below(40) {
                    0 => Op::BucketClear,
                    1..=3 => Op::BucketHeld,
                    4..=14 => Op::BucketPush,
                    15..=25 => Op::BucketPop,
                    _ => Op::BucketReplace,
                };
                let (bits, words) = (tower + rng.below(3) as usize, need + rng.below(3) as usize);
                let mut k =
                    Call::bucket(op, storeys, nodes, bits, words).with(rng.pick(&t.ranks), tag(rng), rng.word());
                k.out = if op == Op::BucketHeld { 1 } else { OUT } + rng.below(2) as usize;
                match rng.below(60) {
                    0 | 1 => k.rank = rng.pick(&[last + 1, last + 2, 0x8_0000, u32::MAX]),
                    2 => k.nodes = rng.pick(&[0, 65537, 0x8000_0000, 0x8000_0001, u32::MAX]),
                    3 => k.words = rng.pick(&[need - 1, 0, 8193, 8192]),
                    4 => k.bits = rng.pick(&[tower - 1, 0, 1]),
                    5 => k.out = rng.below(OUT as u64) as usize,
                    6 => k.rank = rng.below(last as u64 + 1) as u32,
                    7 => k.storeys = rng.pick(&STOREYS),
                    _ => {}
                }
                if h.call(&k).is_none() {
                    return;
                }
            }
        }
    }
}

/// Every tree call of an order and levels, on lengths near the `need`ed one. False where something differs.
fn edge(h: &mut Harness, rng: &mut Rng, o: u32, l: u32, need: usize) -> bool {
    let taken = Shape::new(o, l).is_some();
    let records = if taken { l as usize - 1 } else { 14 };
    let lengths = if taken { vec![need - 1, need, need + 1, 0] } else { vec![need, 0] };
    for words in lengths {
        for op in [Op::TreeClear, Op::TreePush, Op::TreePop, Op::TreeReplace, Op::TreeHeld, Op::ClockedHeld] {
            let k = Call::tree(op, o, l, words).with(rng.word(), tag(rng), rng.word());
            let number = match h.call(&k) {
                Some(number) => number,
                None => return false,
            };
            if (number == 1) != (!taken || words < need) {
                h.fail(format!("{} answered {number}", k.text()));
                return false;
            }
        }
        for (records, mark) in [(records, 1), (records.saturating_sub(1), 1), (records + 3, 2), (records, 0)] {
            for request in 0..6 {
                let mut k = match request {
                    4 => Call::machine(Op::ClockedDrain, o, l, words, records).budget(rng.word()),
                    5 => Call::machine(Op::ClockedClear, o, l, words, records),
                    _ => Call::cycle(request, o, l, words, records).with(rng.word(), tag(rng), rng.word()),
                };
                k.mark = mark;
                if h.call(&k).is_none() {
                    return false;
                }
            }
        }
    }
    true
}

/// A cleared store of so many words, and two more.
fn cleared(words: usize) -> Side {
    let mut base = Side::new(words + 2, 67, 17);
    base.words[..words].fill(0);
    base.records.fill([0; 5]);
    base
}

/// Every order and number of levels near the rules' edges, every length near the one that is
/// needed, for every call.
pub fn edges(h: &mut Harness, rng: &mut Rng) {
    let most = SLOT * SMALLER as usize;
    let base = cleared(most);
    let mut orders = ORDERS.to_vec();
    orders.extend([2, 4, 8]);
    let mut levels = LEVELS.to_vec();
    levels.extend(1..=15);
    h.set(&base);
    for &o in &orders {
        for &l in &levels {
            let need = match Shape::new(o, l) {
                Some(shape) if shape.capacity() > SMALLER => continue,
                Some(shape) => shape.words(),
                None => most,
            };
            if !edge(h, rng, o, l, need) {
                return;
            }
            // nothing of this shape's work is left for the next one
            h.set(&base);
        }
    }
    // the larger shapes have stores of their own; so has one level more than each order takes, long enough: its capacity is refused
    for (o, l) in larger().into_iter().chain([(2, 16), (4, 9), (8, 6)]) {
        let need: usize = (1..=l).map(|k| SLOT * (o as usize).pow(k)).sum();
        h.set(&cleared(need));
        if !edge(h, rng, o, l, need) {
            return;
        }
    }
    let ops = [Op::BucketClear, Op::BucketPush, Op::BucketPop, Op::BucketReplace, Op::BucketHeld];
    for storeys in [2, 3] {
        let (most, tower) = (bucket::words(storeys, 65536) as usize, bucket::bits(storeys));
        let mut base = Side::new(most + 2, tower + 2, 0);
        base.bits[..tower].fill(0);
        base.words.fill(0);
        h.set(&base);
        // at three storeys a store is so long that a few of each must do
        let wide =
            [0, 1, 2, 3, 64, 4095, 4096, 4097, 65535, 65536, 65537, 0x7fff_ffff, 0x8000_0000, 0x8000_0001, u32::MAX];
        let nodes: &[u32] = if storeys == 2 { &wide } else { &[0, 1, 65535, 65536, 65537, u32::MAX] };
        for &n in nodes {
            let need = if n <= 65536 { bucket::words(storeys, n as u64) as usize } else { most };
            let lengths = [need, need - 1, need + 1, 0, 8194];
            for &words in &lengths[..if storeys == 2 { 5 } else { 2 }] {
                for bits in [tower, tower - 1, tower + 1, 0] {
                    for op in ops {
                        let rank = rng.below(bucket::ranks(storeys) as u64 + 4) as u32;
                        let k = Call::bucket(op, storeys, n, bits, words).with(rank, tag(rng), rng.word());
                        let number = match h.call(&k) {
                            Some(number) => number,
                            None => return,
                        };
                        let taken = (1..=65536).contains(&n) && words >= need && bits >= tower;
                        if (number == 1) == taken {
                            return h.fail(format!("{} answered {number}", k.text()));
                        }
                    }
                }
            }
        }
        // depths that there are not, on slices that are long enough for those that there are
        for other in STOREYS {
            for op in ops {
                let k = Call::bucket(op, other, 3, tower, most).with(7, 1, 64);
                if h.call(&k) != Some(1) {
                    return h.fail(format!("{} was not refused 1", k.text()));
                }
            }
        }
    }
}

/// Every store that can be put together from a few slots, links, records and marks, with every
/// call on each.
pub fn small_stores(h: &mut Harness, _: &mut Rng) {
    // order 2, one level: two slots
    let mut slots = Vec::new();
    for count in 0..3 {
        for rank in 0..3 {
            for tag in 0..2 {
                for length in 0..2 {
                    slots.push([rank, tag, length, count]);
                }
            }
        }
    }
    let mut side = Side::new(2 * SLOT, 0, 0);
    for a in &slots {
        for b in &slots {
            side.words[..SLOT].copy_from_slice(a);
            side.words[SLOT..2 * SLOT].copy_from_slice(b);
            for mark in 0..2 {
                side.mark[0] = mark;
                for (op, rank, tag) in [
                    (Op::TreePush, 1, 9),
                    (Op::TreePush, 1, 0),
                    (Op::TreePop, 0, 9),
                    (Op::TreeReplace, 0, 9),
                    (Op::TreeReplace, 1, 9),
                    (Op::TreeReplace, 2, 9),
                    (Op::TreeReplace, 1, 0),
                    (Op::TreeHeld, 0, 9),
                ] {
                    h.set(&side);
                    if h.call(&Call::tree(op, 2, 1, 2 * SLOT).with(rank, tag, 6)).is_none() {
                        return;
                    }
                }
                for (request, rank, tag) in
                    [(0, 0, 9), (1, 1, 9), (1, 1, 0), (2, 0, 9), (3, 0, 9), (3, 1, 9), (3, 2, 9), (3, 1, 0), (4, 0, 9)]
                {
                    h.set(&side);
                    if h.call(&Call::cycle(request, 2, 1, 2 * SLOT, 0).with(rank, tag, 6)).is_none() {
                        return;
                    }
                }
                h.set(&side);
                if h.call(&Call::machine(Op::ClockedDrain, 2, 1, 2 * SLOT, 0).budget(1)).is_none() {
                    return;
                }
            }
        }
    }

    // order 2, two levels: slots of the root and of node 0 from a few; node 1 is empty or holds one
    let root = [[0, 0, 0, 0], [1, 5, 51, 1], [1, 6, 61, 2], [2, 7, 71, 3], [2, 8, 81, 4], [1, 0, 0, 0]];
    let leaf = [[0, 0, 0, 0], [0, 1, 11, 1], [2, 2, 22, 1], [1, 3, 33, 2], [0, 0, 4, 0]];
    let mut side = Side::new(6 * SLOT, 0, 1);
    let mut records = vec![[0, 0, 0, 0, 0], [0, 9, 9, 9, 9]];
    for kind in 1..4 {
        for node in 0..3 {
            records.push([kind, node, 1, 8, 80]);
        }
    }
    for a in &root {
        for b in &root {
            for c in &leaf {
                for d in &leaf {
                    for e in &leaf[..2] {
                        side.words[..6 * SLOT].fill(0);
                        for (k, slot) in [a, b, c, d, e].iter().enumerate() {
                            side.words[SLOT * k..SLOT * (k + 1)].copy_from_slice(*slot);
                        }
                        for (op, rank, tag) in [
                            (Op::TreePush, 1, 9),
                            (Op::TreePush, 1, 0),
                            (Op::TreePop, 0, 9),
                            (Op::TreeReplace, 1, 9),
                            (Op::TreeReplace, 2, 9),
                            (Op::TreeReplace, 3, 9),
                            (Op::TreeReplace, 1, 0),
                        ] {
                            h.set(&side);
                            if h.call(&Call::tree(op, 2, 2, 6 * SLOT).with(rank, tag, 6)).is_none() {
                                return;
                            }
                        }
                        for record in &records {
                            side.records[0] = *record;
                            for mark in 0..2 {
                                side.mark[0] = mark;
                                for (request, rank, tag) in
                                    [(0, 0, 9), (1, 1, 9), (1, 1, 0), (2, 0, 9), (3, 2, 9), (3, 2, 0)]
                                {
                                    h.set(&side);
                                    if h.call(&Call::cycle(request, 2, 2, 6 * SLOT, 1).with(rank, tag, 6)).is_none() {
                                        return;
                                    }
                                }
                            }
                            for budget in 0..2 {
                                h.set(&side);
                                if h.call(&Call::machine(Op::ClockedDrain, 2, 2, 6 * SLOT, 1).budget(budget)).is_none()
                                {
                                    return;
                                }
                            }
                        }
                    }
                }
            }
        }
    }

    // a bucket queue of one node and one rank: every link, count and bit
    let t = Target { storeys: 2, nodes: 1, ranks: vec![65] };
    let need = bucket::words(2, 1) as usize;
    let mut side = Side::new(need, 65, 0);
    side.words[..need].fill(0);
    side.bits[..65].fill(0);
    for n in 0..3u32.pow(5) * 4 {
        let digit = |k: u32| n / 4 / 3u32.pow(k) % 3;
        side.words[t.head(65)] = digit(0);
        side.words[t.tail(65)] = digit(1);
        side.words[t.next(0)] = digit(2);
        side.words[t.free()] = digit(3);
        side.words[t.held()] = digit(4);
        side.words[8192] = 77;
        side.words[8193] = 770;
        side.bits[0] = if n & 1 == 1 { 2 } else { 0 };
        side.bits[2] = if n & 2 == 2 { 2 } else { 0 };
        for (op, rank, tag) in [
            (Op::BucketPush, 65, 9),
            (Op::BucketPush, 66, 9),
            (Op::BucketPush, 65, 0),
            (Op::BucketPush, 4096, 0),
            (Op::BucketPop, 0, 9),
            (Op::BucketReplace, 64, 9),
            (Op::BucketReplace, 65, 9),
            (Op::BucketReplace, 66, 9),
            (Op::BucketReplace, 4096, 9),
            (Op::BucketReplace, 65, 0),
            (Op::BucketHeld, 0, 9),
        ] {
            h.set(&side);
            if h.call(&Call::bucket(op, 2, 1, 65, need).with(rank, tag, 6)).is_none() {
                return;
            }
        }
    }
}

/// Three storeys: a few ranks held, each bit on the way to a few ranks turned, every call on each such store.
pub fn deep_bits(h: &mut Harness, _: &mut Rng) {
    // in one group, in another and the last of all; the second and third in words side by side
    let ranks = [5, 4096 * 7 + 5, 4096 * 7 + 70, 262_143];
    let t = Target { storeys: 3, nodes: 4, ranks: ranks.to_vec() };
    let (tower, need) = (bucket::bits(3), bucket::words(3, 4) as usize);
    for held in [&[0][..], &[1], &[0, 3], &[0, 1, 3]] {
        let mut side = Side::new(need, tower, 0);
        let (b, w) = (&mut side.bits[..tower], &mut side.words[..need]);
        let _ = boundary::bucket_clear(b, w, 3, 4);
        for &i in held {
            let _ = boundary::bucket_push(b, w, 3, 4, ranks[i], 9, 64 + i as u32);
        }
        // no bit turned, then each
        for turned in 0..=3 * ranks.len() {
            let mut spoilt = side.clone();
            if turned > 0 {
                let (at, bit) = t.over(ranks[(turned - 1) / 3], (turned - 1) as u32 % 3);
                spoilt.bits[at] ^= 1 << bit;
            }
            for (op, rank) in [
                (Op::BucketPop, 0),
                (Op::BucketPush, ranks[0]),
                (Op::BucketPush, ranks[1]),
                (Op::BucketPush, ranks[2]),
                (Op::BucketReplace, ranks[0]),
                (Op::BucketReplace, ranks[1]),
                (Op::BucketReplace, ranks[2]),
            ] {
                h.set(&spoilt);
                if h.call(&Call::bucket(op, 3, 4, tower, need).with(rank, 9, 1500)).is_none() {
                    return;
                }
            }
        }
    }
}
