//! The bucket queue on its two slices of words.

use crate::{shape_cause, Causes, Element, No};

/// What a bucket call can find broken.
pub mod cause {
    use crate::Causes;
    /// Held above N.
    pub const HELD: Causes = 1;
    /// Free link above N.
    pub const FREE: Causes = 2;
    /// Free link 0 and held not N.
    pub const FREE_NONE: Causes = 4;
    /// Held N and free link not 0.
    pub const FREE_SOME: Causes = 8;
    /// Top word 0 and held not 0.
    pub const TOP_NONE: Causes = 16;
    /// Held 0 and top word not 0.
    pub const TOP_SOME: Causes = 32;
    /// The head disagrees with the tail and the rank's bit on emptiness.
    pub const HEAD_ALONE: Causes = 64;
    /// The tail disagrees with the head and the rank's bit.
    pub const TAIL_ALONE: Causes = 128;
    /// The rank's bit disagrees with head and tail.
    pub const BIT_ALONE: Causes = 256;
    /// The group's bit set and its word 0.
    pub const GROUP_SET: Causes = 512;
    /// The group's bit not set and its word not 0.
    pub const GROUP_UNSET: Causes = 1024;
    /// Head link above N.
    pub const HEAD_LINK: Causes = 2048;
    /// Tail link above N.
    pub const TAIL_LINK: Causes = 4096;
    /// The tail's next is not 0, but no more than N.
    pub const TAIL_NEXT: Causes = 8192;
    /// The tail's next is above N.
    pub const TAIL_NEXT_LINK: Causes = 16384;
    /// On a pop: the head's next is above N.
    pub const HEAD_NEXT_LINK: Causes = 32768;
    /// On a pop: the head's next is 0 and the head is not the tail.
    pub const CHAIN_CUT: Causes = 65536;
    /// On a pop: the head is the tail and its next is not 0 (then the tail's next is not 0 too).
    pub const CHAIN_LONG: Causes = 1 << 17;
    /// On a push: the taken node is the tail.
    pub const TAKEN_TAIL: Causes = 1 << 18;
    /// On a push: the taken node's next is above N.
    pub const TAKEN_NEXT_LINK: Causes = 1 << 19;
    /// On a push: the taken node's next is 0 and held is not N − 1.
    pub const TAKEN_LAST: Causes = 1 << 20;
    /// On a push: held is N − 1 and the taken node's next is not 0.
    pub const TAKEN_NOT_LAST: Causes = 1 << 21;
    /// Of three storeys: the middle word's bit set and the middle word 0.
    pub const MIDDLE_SET: Causes = 1 << 22;
    /// Of three storeys: the middle word's bit not set and the middle word not 0.
    pub const MIDDLE_UNSET: Causes = 1 << 23;

    /// The causes that a replace meets in its push's tests stand this far to the left.
    pub const SECOND: u32 = 24;

    pub const NAMES: [&str; 24] = [
        "held above N",
        "free link above N",
        "free link 0, held not N",
        "held N, free link not 0",
        "top word 0, held not 0",
        "held 0, top word not 0",
        "head alone differs on emptiness",
        "tail alone differs on emptiness",
        "rank's bit alone differs on emptiness",
        "group's bit set, word 0",
        "group's bit not set, word not 0",
        "head link above N",
        "tail link above N",
        "tail's next not 0",
        "tail's next above N",
        "head's next above N",
        "head's next 0, head not tail",
        "head is tail, its next not 0",
        "taken node is the tail",
        "taken node's next above N",
        "taken node's next 0, held not N - 1",
        "held N - 1, taken node's next not 0",
        "middle word's bit set, word 0",
        "middle word's bit not set, word not 0",
    ];

    pub fn name(bit: u32) -> String {
        if bit < SECOND {
            NAMES[bit as usize].to_string()
        } else {
            format!("after the pop: {}", NAMES[(bit - SECOND) as usize])
        }
    }
}

/// The most nodes of a pool, at either depth.
pub const NODES: u32 = 65536;

/// The ranks: 64 groups of 64, with a third storey 64 times as many.
pub fn ranks(storeys: u32) -> usize {
    match storeys {
        2 => 64 * 64,
        _ => 64 * 64 * 64,
    }
}

/// Where the words of each storey begin, in the order top, middle, lowest. Of two storeys the second is the lowest.
const BEGINS: [usize; 3] = [0, 1, 1 + 64];

/// The 64-bit words: the top word, one for each of its bits, and with a third storey one for each bit of these.
pub fn bits(storeys: u32) -> usize {
    match storeys {
        2 => 1 + 64,
        _ => 1 + 64 + 64 * 64,
    }
}

/// The 32-bit words for N nodes: as many heads as ranks, as many tails, N nodes of tag, length and next, free, held.
pub fn words(storeys: u32, n: u64) -> u64 {
    2 * ranks(storeys) as u64 + 3 * n + 2
}

/// Where the words of a queue stand: of one that has the slices to itself, or of one of several ports.
#[derive(Clone, Copy)]
pub struct Places {
    pub storeys: u32,
    pub n: u32,
    /// The first of its words of 64 bits.
    pub bits: usize,
    /// The first of its heads; its tails stand behind them.
    pub heads: usize,
    pub nodes: usize,
    pub free: usize,
    pub held: usize,
}

impl Places {
    fn alone(storeys: u32, n: u32) -> Places {
        let nodes = 2 * ranks(storeys);
        let free = nodes + 3 * n as usize;
        Places { storeys, n, bits: 0, heads: 0, nodes, free, held: free + 1 }
    }
}

/// The lent store. Each change is noted, so that it can be taken back.
pub struct Pool<'a> {
    bits: &'a mut [u64],
    words: &'a mut [u32],
    at: Places,
    storeys: u32,
    n: u32,
    changed_bits: Vec<(usize, u64)>,
    changed_words: Vec<(usize, u32)>,
}

impl<'a> Pool<'a> {
    pub fn new(bits: &'a mut [u64], words: &'a mut [u32], at: Places) -> Pool<'a> {
        Pool { bits, words, at, storeys: at.storeys, n: at.n, changed_bits: Vec::new(), changed_words: Vec::new() }
    }

    pub fn slices(&self) -> (&[u64], &[u32]) {
        (self.bits, self.words)
    }

    fn set_bits(&mut self, at: usize, to: u64) {
        self.changed_bits.push((at, self.bits[at]));
        self.bits[at] = to;
    }
    fn set_word(&mut self, at: usize, to: u32) {
        self.changed_words.push((at, self.words[at]));
        self.words[at] = to;
    }
    /// Everything as it was.
    pub fn take_back(&mut self) {
        while let Some((at, was)) = self.changed_bits.pop() {
            self.bits[at] = was;
        }
        while let Some((at, was)) = self.changed_words.pop() {
            self.words[at] = was;
        }
    }

    // Where each word stands. A link is a node number plus one.
    fn head_at(&self, rank: u32) -> usize {
        self.at.heads + rank as usize
    }
    fn tail_at(&self, rank: u32) -> usize {
        self.at.heads + ranks(self.storeys) + rank as usize
    }
    fn tag_at(&self, link: u32) -> usize {
        self.at.nodes + 3 * (link as usize - 1)
    }
    fn length_at(&self, link: u32) -> usize {
        self.tag_at(link) + 1
    }
    fn next_at(&self, link: u32) -> usize {
        self.tag_at(link) + 2
    }
    fn free_at(&self) -> usize {
        self.at.free
    }
    fn held_at(&self) -> usize {
        self.at.held
    }

    fn head(&self, rank: u32) -> u32 {
        self.words[self.head_at(rank)]
    }
    fn tail(&self, rank: u32) -> u32 {
        self.words[self.tail_at(rank)]
    }
    fn tag(&self, link: u32) -> u32 {
        self.words[self.tag_at(link)]
    }
    fn length(&self, link: u32) -> u32 {
        self.words[self.length_at(link)]
    }
    fn next(&self, link: u32) -> u32 {
        self.words[self.next_at(link)]
    }
    fn free(&self) -> u32 {
        self.words[self.free_at()]
    }
    fn held(&self) -> u32 {
        self.words[self.held_at()]
    }
    fn top(&self) -> u64 {
        self.bits[self.at.bits]
    }

    // Storeys are counted from the top one, 0, to the lowest. A bit of the lowest stands for a rank, one of any other for a word
    // of the storey below.
    fn lowest_storey(&self) -> u32 {
        self.storeys - 1
    }
    /// The bit of a storey that stands over this rank: the place of its word, and its number there.
    fn bit_at(&self, storey: u32, rank: u32) -> (usize, u32) {
        let below = 64u32.pow(self.lowest_storey() - storey);
        let bit = rank / below;
        (self.at.bits + BEGINS[storey as usize] + bit as usize / 64, bit % 64)
    }
    fn bit(&self, storey: u32, rank: u32) -> bool {
        let (at, k) = self.bit_at(storey, rank);
        self.bits[at] >> k & 1 == 1
    }
    fn word(&self, storey: u32, rank: u32) -> u64 {
        self.bits[self.bit_at(storey, rank).0]
    }
    fn whole(&self) -> Causes {
        whole(self.top(), self.free(), self.held(), self.n)
    }
}

/// The tests that every call but clear makes.
fn whole(top: u64, free: u32, held: u32, n: u32) -> Causes {
    let mut c = pairs(top, free, held, held as u64, n);
    if held > n {
        c |= cause::HELD;
    }
    c
}

/// The free link, and the pairs of which one holds exactly if the other does: free link 0 and all nodes of the pool in use, top word 0
/// and nothing held.
pub fn pairs(top: u64, free: u32, held: u32, used: u64, n: u32) -> Causes {
    let mut c = 0;
    if free > n {
        c |= cause::FREE;
    }
    if free == 0 && used != n as u64 {
        c |= cause::FREE_NONE;
    }
    if free != 0 && used == n as u64 {
        c |= cause::FREE_SOME;
    }
    if top == 0 && held != 0 {
        c |= cause::TOP_NONE;
    }
    if top != 0 && held == 0 {
        c |= cause::TOP_SOME;
    }
    c
}

/// A bucket's tests that push and pop share.
fn bucket(p: &Pool, rank: u32) -> Causes {
    let mut c = 0;
    let (head, tail) = (p.head(rank), p.tail(rank));
    let (has_head, has_tail, has_bit) = (head != 0, tail != 0, p.bit(p.lowest_storey(), rank));
    if has_tail == has_bit && has_head != has_tail {
        c |= cause::HEAD_ALONE;
    }
    if has_head == has_bit && has_tail != has_head {
        c |= cause::TAIL_ALONE;
    }
    if has_head == has_tail && has_bit != has_head {
        c |= cause::BIT_ALONE;
    }
    // each word on the way up, and the bit above it
    for storey in 1..p.storeys {
        let lowest = storey == p.lowest_storey();
        let (set, unset) =
            if lowest { (cause::GROUP_SET, cause::GROUP_UNSET) } else { (cause::MIDDLE_SET, cause::MIDDLE_UNSET) };
        if p.bit(storey - 1, rank) && p.word(storey, rank) == 0 {
            c |= set;
        }
        if !p.bit(storey - 1, rank) && p.word(storey, rank) != 0 {
            c |= unset;
        }
    }
    if head > p.n {
        c |= cause::HEAD_LINK;
    }
    if tail > p.n {
        c |= cause::TAIL_LINK;
    }
    if tail != 0 && tail <= p.n {
        let next = p.next(tail);
        if next > p.n {
            c |= cause::TAIL_NEXT_LINK;
        } else if next != 0 {
            c |= cause::TAIL_NEXT;
        }
    }
    c
}

/// The lowest rank by the bits: the lowest set bit of the top word, then of the word that it stands for, and so on down.
/// A word that is 0 on the way is refused: the bit above it is set.
fn lowest(p: &Pool) -> Result<u32, Causes> {
    let mut at = 0;
    for storey in 0..p.storeys {
        let word = p.bits[p.at.bits + BEGINS[storey as usize] + at as usize];
        if word == 0 {
            return Err(if storey == p.lowest_storey() { cause::GROUP_SET } else { cause::MIDDLE_SET });
        }
        at = 64 * at + word.trailing_zeros();
    }
    Ok(at)
}

/// A pop's tests, with something held.
pub fn pop_tests(p: &Pool) -> Result<u32, Causes> {
    let rank = lowest(p)?;
    let mut c = bucket(p, rank);
    let (head, tail) = (p.head(rank), p.tail(rank));
    if head != 0 && head <= p.n {
        let next = p.next(head);
        if next > p.n {
            c |= cause::HEAD_NEXT_LINK;
        }
        if next == 0 && head != tail {
            c |= cause::CHAIN_CUT;
        }
        if next != 0 && head == tail {
            c |= cause::CHAIN_LONG;
        }
    }
    if c != 0 {
        return Err(c);
    }
    Ok(rank)
}

/// A push's tests on its bucket, with so many nodes of the pool in use, fewer than N.
pub fn push_tests(p: &Pool, rank: u32, used: u64) -> Result<(), Causes> {
    let mut c = bucket(p, rank);
    let taken = p.free();
    if taken == p.tail(rank) {
        c |= cause::TAKEN_TAIL;
    }
    let next = p.next(taken);
    if next > p.n {
        c |= cause::TAKEN_NEXT_LINK;
    }
    if next == 0 && used + 1 != p.n as u64 {
        c |= cause::TAKEN_LAST;
    }
    if next != 0 && used + 1 == p.n as u64 {
        c |= cause::TAKEN_NOT_LAST;
    }
    if c != 0 {
        return Err(c);
    }
    Ok(())
}

/// Takes the head of this rank: the lowest, tested.
pub fn pop_writes(p: &mut Pool, rank: u32) -> Element {
    let link = p.head(rank);
    let answer = Element { rank, tag: p.tag(link), length: p.length(link) };
    let next = p.next(link);
    let (head_at, tail_at) = (p.head_at(rank), p.tail_at(rank));
    p.set_word(head_at, next);
    if next == 0 {
        p.set_word(tail_at, 0);
        // the rank's bit, and each bit above as far as a word becomes 0
        for storey in (0..p.storeys).rev() {
            let (at, k) = p.bit_at(storey, rank);
            let word = p.bits[at] & !(1 << k);
            p.set_bits(at, word);
            if word != 0 {
                break;
            }
        }
    }
    // the freed node gets tag 0 and length 0 and becomes first in the free chain
    let free = p.free();
    let (tag_at, length_at, next_at) = (p.tag_at(link), p.length_at(link), p.next_at(link));
    p.set_word(tag_at, 0);
    p.set_word(length_at, 0);
    p.set_word(next_at, free);
    let (free_at, held_at, held) = (p.free_at(), p.held_at(), p.held());
    p.set_word(free_at, link);
    p.set_word(held_at, held - 1);
    answer
}

/// Takes the node at the free link and joins it behind the tail.
pub fn push_writes(p: &mut Pool, x: Element) {
    let link = p.free();
    let tail = p.tail(x.rank);
    let (free_at, held_at, held) = (p.free_at(), p.held_at(), p.held());
    let next = p.next(link);
    let (tag_at, length_at, next_at) = (p.tag_at(link), p.length_at(link), p.next_at(link));
    let tail_at = p.tail_at(x.rank);
    p.set_word(free_at, next);
    p.set_word(tag_at, x.tag);
    p.set_word(length_at, x.length);
    p.set_word(next_at, 0);
    let link_at = if tail == 0 { p.head_at(x.rank) } else { p.next_at(tail) };
    p.set_word(link_at, link);
    p.set_word(tail_at, link);
    for storey in 0..p.storeys {
        let (at, k) = p.bit_at(storey, x.rank);
        let word = p.bits[at] | 1 << k;
        p.set_bits(at, word);
    }
    p.set_word(held_at, held + 1);
}

fn shape(bits: usize, have: usize, storeys: u32, nodes: u32) -> Result<(), No> {
    let mut c = 0;
    if !(2..=3).contains(&storeys) || !(1..=NODES).contains(&nodes) {
        c |= shape_cause::NUMBERS;
    } else if (have as u64) < words(storeys, nodes as u64) {
        c |= shape_cause::STORE;
    }
    if (2..=3).contains(&storeys) && bits < self::bits(storeys) {
        c |= shape_cause::BITS;
    }
    if c != 0 {
        return Err(No::BadShape(c));
    }
    Ok(())
}

pub fn clear(bits: &mut [u64], words: &mut [u32], storeys: u32, nodes: u32) -> Result<(), No> {
    shape(bits.len(), words.len(), storeys, nodes)?;
    for word in &mut bits[..self::bits(storeys)] {
        *word = 0;
    }
    for word in &mut words[..self::words(storeys, nodes as u64) as usize] {
        *word = 0;
    }
    let first = 2 * ranks(storeys);
    // node i has the link i + 1; its next names the node after it, the last none
    for i in 0..nodes as usize - 1 {
        words[first + 3 * i + 2] = i as u32 + 2;
    }
    words[first + 3 * nodes as usize] = 1;
    Ok(())
}

pub fn push(bits: &mut [u64], words: &mut [u32], storeys: u32, nodes: u32, x: Element) -> Result<(), No> {
    shape(bits.len(), words.len(), storeys, nodes)?;
    if x.rank as usize >= ranks(storeys) {
        return Err(No::BadRank);
    }
    if x.tag == 0 {
        return Err(No::NoTag);
    }
    let mut p = Pool::new(bits, words, Places::alone(storeys, nodes));
    let c = p.whole();
    if c != 0 {
        return Err(No::Damaged(c));
    }
    if p.held() == nodes {
        return Err(No::Full);
    }
    push_tests(&p, x.rank, p.held() as u64).map_err(No::Damaged)?;
    push_writes(&mut p, x);
    Ok(())
}

pub fn pop(bits: &mut [u64], words: &mut [u32], storeys: u32, nodes: u32) -> Result<Element, No> {
    shape(bits.len(), words.len(), storeys, nodes)?;
    let mut p = Pool::new(bits, words, Places::alone(storeys, nodes));
    let c = p.whole();
    if c != 0 {
        return Err(No::Damaged(c));
    }
    if p.held() == 0 {
        return Err(No::Empty);
    }
    let rank = pop_tests(&p).map_err(No::Damaged)?;
    Ok(pop_writes(&mut p, rank))
}

pub fn replace(bits: &mut [u64], words: &mut [u32], storeys: u32, nodes: u32, x: Element) -> Result<Element, No> {
    shape(bits.len(), words.len(), storeys, nodes)?;
    if x.rank as usize >= ranks(storeys) {
        return Err(No::BadRank);
    }
    if x.tag == 0 {
        return Err(No::NoTag);
    }
    let mut p = Pool::new(bits, words, Places::alone(storeys, nodes));
    let c = p.whole();
    if c != 0 {
        return Err(No::Damaged(c));
    }
    if p.held() == 0 {
        return Err(No::Empty);
    }
    let lowest = pop_tests(&p).map_err(No::Damaged)?;
    // the pop, and all the push's tests on the store as after it; written only if all hold
    let answer = pop_writes(&mut p, lowest);
    let mut c = p.whole();
    if c == 0 {
        c = match push_tests(&p, x.rank, p.held() as u64) {
            Ok(()) => 0,
            Err(c) => c,
        };
    }
    if c != 0 {
        p.take_back();
        return Err(No::Damaged(c << cause::SECOND));
    }
    push_writes(&mut p, x);
    Ok(answer)
}

pub fn held(bits: &[u64], words: &[u32], storeys: u32, nodes: u32) -> Result<u32, No> {
    shape(bits.len(), words.len(), storeys, nodes)?;
    let behind = 2 * ranks(storeys) + 3 * nodes as usize;
    let (free, held) = (words[behind], words[behind + 1]);
    let c = whole(bits[0], free, held, nodes);
    if c != 0 {
        return Err(No::Damaged(c));
    }
    Ok(held)
}
