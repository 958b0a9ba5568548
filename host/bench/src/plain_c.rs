//! The plain C of `c/`, called as the library is: one call for each operation, on words of the same layout.

use crate::cycles::{Ask, Machine};
use crate::halls::Halls;
use crate::queues::{Queue, Strip};
use card_host::{
    bucket_bits, bucket_words, cluster_places, cluster_words, fair_words, lines_words, packed_words, ports_bits,
    ports_words, record_count, tree_slots, tree_words, Limits,
};

/// What C writes an element to.
type Out = [u32; 3];

fn strip(out: Out) -> Strip {
    (out[0], out[1], out[2])
}

/// A clocked machine as C has it: a tree, with its mark, or a cluster heap.
#[repr(C)]
struct Clocked {
    store: *mut u32,
    records: *mut u32,
    width: u32,
    levels: u32,
    capacity: u32,
    mark: u32,
}

/// Several ports as C has them.
#[repr(C)]
struct Pool {
    bits: *mut u64,
    words: *mut u32,
    storeys: u32,
    nodes: u32,
    ports: u32,
}

/// Lines as C has them.
#[repr(C)]
struct Rows {
    store: *mut u32,
    kind: u32,
    lines: u32,
    places: u32,
}

extern "C" {
    fn plain_tree_push(store: *mut u32, order: u32, rank: u32, tag: u32, length: u32);
    fn plain_tree_pop(store: *mut u32, order: u32, out: *mut Out);
    fn plain_tree_replace(store: *mut u32, order: u32, rank: u32, tag: u32, length: u32, out: *mut Out);
    fn plain_tree_check(store: *const u32, order: u32, slots: u32) -> u32;
    fn plain_tree_mend(from: *const u32, to: *mut u32, order: u32, slots: u32) -> u32;
    fn plain_fair_push(state: *mut u32, store: *mut u32, order: u32, flow: u32, weight: u32, tag: u32, length: u32);
    fn plain_fair_pop(state: *mut u32, store: *mut u32, order: u32, out: *mut Out);
    fn plain_cluster_push(store: *mut u32, places: u32, rank: u32, tag: u32, length: u32);
    fn plain_cluster_pop(store: *mut u32, places: u32, out: *mut Out);
    fn plain_cluster_replace(store: *mut u32, places: u32, rank: u32, tag: u32, length: u32, out: *mut Out);
    fn plain_bucket_clear(bits: *mut u64, words: *mut u32, storeys: u32, nodes: u32);
    fn plain_bucket_push(bits: *mut u64, words: *mut u32, storeys: u32, nodes: u32, rank: u32, tag: u32, length: u32);
    fn plain_bucket_pop(bits: *mut u64, words: *mut u32, storeys: u32, nodes: u32, out: *mut Out);
    #[rustfmt::skip]
    fn plain_bucket_replace(
        bits: *mut u64,
        words: *mut u32,
        storeys: u32,
        nodes: u32,
        rank: u32,
        tag: u32,
        length: u32,
        out: *mut Out,
    );
    fn plain_ports_clear(pool: *const Pool, limits: *const u32);
    fn plain_ports_push(pool: *const Pool, port: u32, rank: u32, tag: u32, length: u32) -> u32;
    fn plain_ports_pop(pool: *const Pool, port: u32, out: *mut Out);
    fn plain_ports_replace(pool: *const Pool, port: u32, rank: u32, tag: u32, length: u32, out: *mut Out);
    fn plain_clocked_cycle(m: *mut Clocked, request: u32, rank: u32, tag: u32, length: u32, out: *mut Out) -> u32;
    fn plain_stages_cycle(m: *mut Clocked, request: u32, rank: u32, tag: u32, length: u32, out: *mut Out) -> u32;
    fn plain_packed_push(store: *mut u32, heaps: u32, heap: u32, rank: u32, tag: u32, length: u32);
    fn plain_packed_pop(store: *mut u32, heaps: u32, heap: u32, out: *mut Out);
    fn plain_packed_replace(store: *mut u32, heaps: u32, heap: u32, rank: u32, tag: u32, length: u32, out: *mut Out);
    fn plain_lines_push(lines: *const Rows, rank: u32, tag: u32, length: u32);
    fn plain_lines_pop(lines: *const Rows, out: *mut Out);
    fn plain_lines_replace(lines: *const Rows, rank: u32, tag: u32, length: u32, out: *mut Out);
    #[rustfmt::skip]
    fn plain_lines_cycle(
        lines: *const Rows,
        record: *mut [u32; 5],
        request: u32,
        rank: u32,
        tag: u32,
        length: u32,
        out: *mut Out,
    ) -> u32;
    fn plain_zeros(bytes: *mut u8, count: u64);
}

// C tests nothing. In all that follows the words are those of the shape, and a trace of the bench asks for nothing that is not there: the
// map that made it has answered it.

/// The tree.
pub struct Tree {
    order: u32,
    slots: u32,
    pub words: Vec<u32>,
}

impl Tree {
    pub fn new(order: u32, levels: u32) -> Tree {
        Tree { order, slots: tree_slots(order, levels) as u32, words: vec![0; tree_words(order, levels)] }
    }

    /// The first broken slot of a store of this shape.
    pub fn check(&self, store: &[u32]) -> Option<u32> {
        assert!(store.len() >= self.words.len());
        // SAFETY: the store has the words of the shape, and C only reads them.
        let at = unsafe { plain_tree_check(store.as_ptr(), self.order, self.slots) };
        (at < self.slots).then_some(at)
    }

    /// Mends a store of this shape into this one: how many were skipped.
    pub fn mend(&mut self, from: &[u32]) -> u32 {
        assert!(from.len() >= self.words.len());
        // SAFETY: both stores have the words of the shape, and a store has no more elements than slots.
        unsafe { plain_tree_mend(from.as_ptr(), self.words.as_mut_ptr(), self.order, self.slots) }
    }
}

impl Queue for Tree {
    fn clear(&mut self) {
        self.words.fill(0);
    }
    #[inline]
    fn push(&mut self, (rank, tag, length): Strip) {
        // SAFETY: the words of the shape, and there is room.
        unsafe { plain_tree_push(self.words.as_mut_ptr(), self.order, rank, tag, length) }
    }
    #[inline]
    fn pop(&mut self) -> Strip {
        let mut out = [0; 3];
        // SAFETY: the words of the shape, and something is held.
        unsafe { plain_tree_pop(self.words.as_mut_ptr(), self.order, &mut out) }
        strip(out)
    }
    #[inline]
    fn replace(&mut self, (rank, tag, length): Strip) -> Strip {
        let mut out = [0; 3];
        // SAFETY: the words of the shape, and something is held.
        unsafe { plain_tree_replace(self.words.as_mut_ptr(), self.order, rank, tag, length, &mut out) }
        strip(out)
    }
}

/// Fair ranks.
pub struct Fair {
    pub state: Vec<u32>,
    pub tree: Tree,
}

impl Fair {
    pub fn new(order: u32, levels: u32) -> Fair {
        Fair { state: vec![0; fair_words()], tree: Tree::new(order, levels) }
    }
    pub fn clear(&mut self) {
        self.state.fill(0);
        self.tree.clear();
    }
    #[inline]
    pub fn push(&mut self, flow: u32, weight: u32, tag: u32, length: u32) {
        let (state, words) = (self.state.as_mut_ptr(), self.tree.words.as_mut_ptr());
        // SAFETY: the words of the shape; flow and weight are within their limits and there is room.
        unsafe { plain_fair_push(state, words, self.tree.order, flow, weight, tag, length) }
    }
    #[inline]
    pub fn pop(&mut self) -> Strip {
        let mut out = [0; 3];
        // SAFETY: the words of the shape, and something is held.
        unsafe { plain_fair_pop(self.state.as_mut_ptr(), self.tree.words.as_mut_ptr(), self.tree.order, &mut out) }
        strip(out)
    }
}

/// The cluster heap.
pub struct Cluster {
    places: u32,
    pub words: Vec<u32>,
}

impl Cluster {
    pub fn new(places: u32, levels: u32) -> Cluster {
        Cluster { places, words: vec![0; cluster_words(places, levels)] }
    }
}

impl Queue for Cluster {
    fn clear(&mut self) {
        self.words.fill(0);
    }
    #[inline]
    fn push(&mut self, (rank, tag, length): Strip) {
        // SAFETY: the words of the shape, and there is room.
        unsafe { plain_cluster_push(self.words.as_mut_ptr(), self.places, rank, tag, length) }
    }
    #[inline]
    fn pop(&mut self) -> Strip {
        let mut out = [0; 3];
        // SAFETY: the words of the shape, and something is held.
        unsafe { plain_cluster_pop(self.words.as_mut_ptr(), self.places, &mut out) }
        strip(out)
    }
    #[inline]
    fn replace(&mut self, (rank, tag, length): Strip) -> Strip {
        let mut out = [0; 3];
        // SAFETY: the words of the shape, and something is held.
        unsafe { plain_cluster_replace(self.words.as_mut_ptr(), self.places, rank, tag, length, &mut out) }
        strip(out)
    }
}

/// The bucket queue.
pub struct Bucket {
    storeys: u32,
    nodes: u32,
    pub bits: Vec<u64>,
    pub words: Vec<u32>,
}

impl Bucket {
    pub fn new(storeys: u32, nodes: u32) -> Bucket {
        let (bits, words) = (vec![0; bucket_bits(storeys)], vec![0; bucket_words(storeys, nodes)]);
        let mut made = Bucket { storeys, nodes, bits, words };
        made.clear();
        made
    }

    /// Zeros over both slices, and no more.
    pub fn zeros(&mut self) {
        zeros(&mut self.bits, &mut self.words);
    }
}

impl Queue for Bucket {
    fn clear(&mut self) {
        // SAFETY: the words of the shape.
        unsafe { plain_bucket_clear(self.bits.as_mut_ptr(), self.words.as_mut_ptr(), self.storeys, self.nodes) }
    }
    #[inline]
    fn push(&mut self, (rank, tag, length): Strip) {
        let (bits, words) = (self.bits.as_mut_ptr(), self.words.as_mut_ptr());
        // SAFETY: the words of the shape; the rank is one, and a node is free.
        unsafe { plain_bucket_push(bits, words, self.storeys, self.nodes, rank, tag, length) }
    }
    #[inline]
    fn pop(&mut self) -> Strip {
        let mut out = [0; 3];
        let (bits, words) = (self.bits.as_mut_ptr(), self.words.as_mut_ptr());
        // SAFETY: the words of the shape, and something is held.
        unsafe { plain_bucket_pop(bits, words, self.storeys, self.nodes, &mut out) }
        strip(out)
    }
    #[inline]
    fn replace(&mut self, (rank, tag, length): Strip) -> Strip {
        let mut out = [0; 3];
        let (bits, words) = (self.bits.as_mut_ptr(), self.words.as_mut_ptr());
        // SAFETY: the words of the shape; the rank is one, and something is held.
        unsafe { plain_bucket_replace(bits, words, self.storeys, self.nodes, rank, tag, length, &mut out) }
        strip(out)
    }
}

/// `memset` over the words of a queue.
fn zeros(bits: &mut [u64], words: &mut [u32]) {
    // SAFETY: each count is that of the slice's bytes, and any bytes are words.
    unsafe {
        plain_zeros(bits.as_mut_ptr().cast(), 8 * bits.len() as u64);
        plain_zeros(words.as_mut_ptr().cast(), 4 * words.len() as u64);
    }
}

/// Several ports on one pool.
pub struct Ports {
    limits: Vec<u32>,
    pool: Pool,
    pub bits: Vec<u64>,
    pub words: Vec<u32>,
}

impl Ports {
    pub fn new(storeys: u32, nodes: u32, limits: &[Limits]) -> Ports {
        let ports = limits.len() as u32;
        let mut bits = vec![0; ports_bits(storeys, ports)];
        let mut words = vec![0; ports_words(storeys, nodes, ports)];
        let pool = Pool { bits: bits.as_mut_ptr(), words: words.as_mut_ptr(), storeys, nodes, ports };
        let limits = limits.iter().flat_map(|l| [l.floor, l.ceiling]).collect();
        let mut made = Ports { limits, pool, bits, words };
        made.clear();
        made
    }

    /// Zeros over both slices, and no more.
    pub fn zeros(&mut self) {
        zeros(&mut self.bits, &mut self.words);
    }
}

impl Halls for Ports {
    fn clear(&mut self) {
        self.pool.bits = self.bits.as_mut_ptr();
        self.pool.words = self.words.as_mut_ptr();
        // SAFETY: the words of the shape, and two limits for each port.
        unsafe { plain_ports_clear(&self.pool, self.limits.as_ptr()) }
    }
    #[inline]
    fn push(&mut self, port: u8, (rank, tag, length): Strip) {
        // SAFETY: the words of the shape; port and rank are ones that there are.
        let number = unsafe { plain_ports_push(&self.pool, port as u32, rank, tag, length) };
        assert_eq!(number, 0, "push");
    }
    #[inline]
    fn pop(&mut self, port: u8) -> Strip {
        let mut out = [0; 3];
        // SAFETY: the words of the shape; the port is one that there is, and holds something.
        unsafe { plain_ports_pop(&self.pool, port as u32, &mut out) }
        strip(out)
    }
    #[inline]
    fn replace(&mut self, port: u8, (rank, tag, length): Strip) -> Strip {
        let mut out = [0; 3];
        // SAFETY: the words of the shape; port and rank are ones that there are, and the port holds something.
        unsafe { plain_ports_replace(&self.pool, port as u32, rank, tag, length, &mut out) }
        strip(out)
    }
}

/// A request as C has it.
#[inline]
fn asked(ask: Ask) -> (u32, Strip) {
    match ask {
        Ask::Idle => (0, (0, 0, 0)),
        Ask::Push(x) => (1, x),
        Ask::Pop => (2, (0, 0, 0)),
        Ask::Replace(x) => (3, x),
    }
}

/// A machine with its words: the clocked tree, or the clocked cluster heap.
pub struct Clockwork {
    machine: Clocked,
    words: Vec<u32>,
    records: Vec<u32>,
}

impl Clockwork {
    fn new((width, levels): (u32, u32), capacity: usize, words: usize, record: usize) -> Clockwork {
        let mut words = vec![0; words];
        // one more than there are: with one level a pointer to none would dangle
        let mut records = vec![0; record * (record_count(levels) + 1)];
        let (store, first) = (words.as_mut_ptr(), records.as_mut_ptr());
        let machine = Clocked { store, records: first, width, levels, capacity: capacity as u32, mark: 0 };
        Clockwork { machine, words, records }
    }
    fn clear(&mut self) {
        self.words.fill(0);
        self.records.fill(0);
        self.machine.store = self.words.as_mut_ptr();
        self.machine.records = self.records.as_mut_ptr();
        self.machine.mark = 0;
    }
}

/// The clocked tree.
pub struct ClockedTree(pub Clockwork);

impl ClockedTree {
    pub fn new(order: u32, levels: u32) -> ClockedTree {
        ClockedTree(Clockwork::new((order, levels), tree_slots(order, levels), tree_words(order, levels), 5))
    }
}

/// Words, records and mark.
#[cfg(test)]
impl Clockwork {
    pub fn looked(&self) -> (&[u32], &[u32], u32) {
        let used = self.records.len() / self.machine.levels as usize * (self.machine.levels as usize - 1);
        (&self.words, &self.records[..used], self.machine.mark)
    }
}

impl Machine for ClockedTree {
    fn clear(&mut self) {
        self.0.clear();
    }
    #[inline]
    fn cycle(&mut self, ask: Ask) -> (u32, Strip) {
        let (request, (rank, tag, length)) = asked(ask);
        let mut out = [0; 3];
        // SAFETY: words and records of the shape, as cycles of a cleared machine leave them.
        let number = unsafe { plain_clocked_cycle(&mut self.0.machine, request, rank, tag, length, &mut out) };
        (number, strip(out))
    }
}

/// The clocked cluster heap.
pub struct ClockedCluster(pub Clockwork);

impl ClockedCluster {
    pub fn new(places: u32, levels: u32) -> ClockedCluster {
        let (capacity, words) = (cluster_places(places, levels), cluster_words(places, levels));
        ClockedCluster(Clockwork::new((places, levels), capacity, words, 6))
    }
}

impl Machine for ClockedCluster {
    fn clear(&mut self) {
        self.0.clear();
    }
    #[inline]
    fn cycle(&mut self, ask: Ask) -> (u32, Strip) {
        let (request, (rank, tag, length)) = asked(ask);
        let mut out = [0; 3];
        // SAFETY: words and records of the shape, as cycles of a cleared machine leave them.
        let number = unsafe { plain_stages_cycle(&mut self.0.machine, request, rank, tag, length, &mut out) };
        (number, strip(out))
    }
}

/// One packed heap.
pub struct Packed {
    pub words: Vec<u32>,
}

impl Packed {
    pub fn new(levels: u32) -> Packed {
        Packed { words: vec![0; packed_words(1, levels)] }
    }
}

impl Queue for Packed {
    fn clear(&mut self) {
        self.words.fill(0);
    }
    #[inline]
    fn push(&mut self, (rank, tag, length): Strip) {
        // SAFETY: the words of one heap, and there is room.
        unsafe { plain_packed_push(self.words.as_mut_ptr(), 1, 0, rank, tag, length) }
    }
    #[inline]
    fn pop(&mut self) -> Strip {
        let mut out = [0; 3];
        // SAFETY: the words of one heap, and something is held.
        unsafe { plain_packed_pop(self.words.as_mut_ptr(), 1, 0, &mut out) }
        strip(out)
    }
    #[inline]
    fn replace(&mut self, (rank, tag, length): Strip) -> Strip {
        let mut out = [0; 3];
        // SAFETY: the words of one heap, and something is held.
        unsafe { plain_packed_replace(self.words.as_mut_ptr(), 1, 0, rank, tag, length, &mut out) }
        strip(out)
    }
}

/// Lines, one operation at a time or on the clock.
pub struct Lines {
    rows: Rows,
    pub record: [u32; 5],
    pub words: Vec<u32>,
}

impl Lines {
    pub fn new(kind: u32, lines: u32, places: u32) -> Lines {
        let mut words = vec![0; lines_words(kind, lines, places)];
        let rows = Rows { store: words.as_mut_ptr(), kind, lines, places };
        Lines { rows, record: [0; 5], words }
    }
    fn wiped(&mut self) {
        self.words.fill(0);
        self.rows.store = self.words.as_mut_ptr();
        self.record = [0; 5];
    }
}

impl Queue for Lines {
    fn clear(&mut self) {
        self.wiped();
    }
    #[inline]
    fn push(&mut self, (rank, tag, length): Strip) {
        // SAFETY: the words of the shape; the rank is one of the kind's, and its line has room.
        unsafe { plain_lines_push(&self.rows, rank, tag, length) }
    }
    #[inline]
    fn pop(&mut self) -> Strip {
        let mut out = [0; 3];
        // SAFETY: the words of the shape, and something is held.
        unsafe { plain_lines_pop(&self.rows, &mut out) }
        strip(out)
    }
    #[inline]
    fn replace(&mut self, (rank, tag, length): Strip) -> Strip {
        let mut out = [0; 3];
        // SAFETY: the words of the shape; something is held, and the line of the rank has room or gives.
        unsafe { plain_lines_replace(&self.rows, rank, tag, length, &mut out) }
        strip(out)
    }
}

impl Machine for Lines {
    fn clear(&mut self) {
        self.wiped();
    }
    #[inline]
    fn cycle(&mut self, ask: Ask) -> (u32, Strip) {
        let (request, (rank, tag, length)) = asked(ask);
        let mut out = [0; 3];
        // SAFETY: words and record of the shape, as cycles of cleared lines leave them.
        let number = unsafe { plain_lines_cycle(&self.rows, &mut self.record, request, rank, tag, length, &mut out) };
        (number, strip(out))
    }
}
