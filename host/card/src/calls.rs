//! The library's own calls, on slices: numbers in, the paper's number out (0 where nothing is refused).
//!
//! Every function here is safe: whatever the words and the numbers are, the call ends, answers, and touches nothing but the slices it is
//! lent. The queues of this crate are made of these calls; use them directly where words and numbers are all there is. Each is the
//! function of `card.h` with `card_` before its name, and says what it says there.
//!
//! `out` receives the answer: rank, tag and length (pop, replace, cycle), the count (held), or the cycles run and whether work is left
//! (drain). An `out` that is too short is refusal 1.
//!
//! ```
//! use card_host::calls;
//!
//! let (mut store, mut out) = ([0; 24], [0; 3]);
//! assert_eq!(calls::tree_words(2, 2), 24);
//! assert_eq!(calls::tree_clear(&mut store, 2, 2), 0);
//! assert_eq!(calls::tree_push(&mut store, 2, 2, 5, 50, 1500), 0);
//! assert_eq!((calls::tree_pop(&mut store, 2, 2, &mut out), out), (0, [5, 50, 1500]));
//! assert_eq!((calls::tree_pop(&mut store, 2, 2, &mut out), out), (6, [0, 0, 0]));
//! ```
#![allow(clippy::too_many_arguments, rustdoc::broken_intra_doc_links)]

use crate::{ClusterRecord, Record};

// This is the one list of the exported calls. `raw.rs` makes a Rust function of each line, and `cargo run -p checks --bin header` writes
// the declarations of `host/card.h` from it, with the same comments; tests hold header and library to it.
//
// An argument `name: &[u32]` is a slice that is lent and read, one with `&mut` is written too: a pointer and then a length in C. A name
// alone is a number of 32 bits. So is the answer, where none is named. Lines with `///` are C's comment as well, line by line.

calls! {
    #[doc = "The version of the library's calls: [`VERSION`](crate::VERSION), where the library is the one that this crate was written for."]
    fn version();
}

sizes! {
    /// A tree's store.
    fn tree_words(order, levels);

    /// A cluster heap's store.
    fn cluster_words(places, levels);

    /// A packed heap's store.
    fn packed_words(heaps, levels);

    /// The state of fair ranks.
    fn fair_words() -> usize;

    /// A bucket queue's words of 64 bits.
    fn bucket_bits(storeys);

    /// A bucket queue's words of 32 bits.
    fn bucket_words(storeys, nodes);

    /// The words of 64 bits of several ports on one pool.
    fn ports_bits(storeys, ports);

    /// The words of 32 bits of several ports on one pool.
    fn ports_words(storeys, nodes, ports);

    /// The store of lines.
    fn lines_words(kind, lines, places);
}

calls! {
    // The multi-way tree, one operation at a time.

    /// Empties the tree: 4 * capacity words of zero. Never refused 2.
    fn tree_clear(store: &mut [u32], order, levels);

    /// Takes an element in. Refused 7 with tag 0, 5 where the tree is full.
    fn tree_push(store: &mut [u32], order, levels, rank, tag, length);

    /// Gives the element of lowest rank in out[0] to out[2]. Refused 6 where nothing is held.
    fn tree_pop(store: &mut [u32], order, levels, out: &mut [u32]);

    /// A pop, and then a push of the new element: gives the element of lowest rank in out[0] to out[2],
    /// even if the new rank is lower. Works on a full tree. Refused 7 with tag 0, 6 where nothing is
    /// held.
    fn tree_replace(store: &mut [u32], order, levels, rank, tag, length, out: &mut [u32]);

    /// Gives the number of held elements in out[0].
    fn tree_held(store: &[u32], order, levels, out: &mut [u32]);

    /// Whether no slot of a tree's store is broken: out[0] 1 and out[1] 0, or else 0 and the number of the
    /// first broken slot, from 0 in slice order. Broken is a slot with a count not 0 whose count is not
    /// one plus the counts of the node under it, or whose rank is below that of the slot above it; and a
    /// slot with count 0 with another word not 0, or with a count under it that is not 0. A clocked tree's
    /// store passes once nothing is pending.
    fn tree_check(store: &[u32], order, levels, out: &mut [u32]);

    /// Clears the second store and pushes into it, in slice order, every slot of the first with a count
    /// not 0; slots with tag 0 are skipped, out[0] says how many. The first store is left alone. What is
    /// written always passes the check. Refused 1 for either store, before anything is written.
    fn tree_mend(from: &[u32], to: &mut [u32], order, levels, out: &mut [u32]);

    // Fair ranks, above a tree.

    /// Sets the clock and all finishes to 0. Of the store it reads the root alone. Refused 1 for a short
    /// state; as card_tree_held is refused, 1 or 2; 11 while anything is held. A refusal changes nothing.
    fn fair_reset(state: &mut [u32], store: &[u32], order, levels);

    /// Takes a strip of a flow in. Refused 9, before all else, for a flow above 63, a weight of 0 or above
    /// 1024, a length of 0 or above 9216; 1 for a short state; 10 where its finish is above 4294967295;
    /// then as card_tree_push refuses it. A refusal changes nothing.
    fn fair_push(state: &mut [u32], store: &mut [u32], order, levels, flow, weight, tag, length);

    /// Gives the strip of lowest rank in out[0] to out[2], and the clock becomes its rank. Refused 6 where
    /// nothing is held.
    fn fair_pop(state: &mut [u32], store: &mut [u32], order, levels, out: &mut [u32]);

    /// Gives the number of held strips in out[0], as card_tree_held.
    fn fair_held(store: &[u32], order, levels, out: &mut [u32]);

    // The cluster heap.

    /// Empties the heap: all words of its nodes zero. Never refused 2.
    fn cluster_clear(store: &mut [u32], places, levels);

    /// Takes an element in. Refused 7 with tag 0, 5 where the heap is full.
    fn cluster_push(store: &mut [u32], places, levels, rank, tag, length);

    /// Gives the element of lowest rank in out[0] to out[2]. Refused 6 where nothing is held.
    fn cluster_pop(store: &mut [u32], places, levels, out: &mut [u32]);

    /// A pop, and then a push of the new element, as card_tree_replace.
    fn cluster_replace(store: &mut [u32], places, levels, rank, tag, length, out: &mut [u32]);

    /// Gives the number of held elements in out[0].
    fn cluster_held(store: &[u32], places, levels, out: &mut [u32]);

    // The packed heap.

    /// Empties all heaps: held words and slots zero. Never refused 2.
    fn packed_clear(store: &mut [u32], heaps, levels);

    /// Takes an element in at a heap. Refused 12 for a heap that there is not, 7 with tag 0, 5 where the heap
    /// is full.
    fn packed_push(store: &mut [u32], heaps, levels, heap, rank, tag, length);

    /// Gives the heap's element of lowest rank in out[0] to out[2]. Refused 12 for a heap that there is not,
    /// 6 where the heap holds nothing.
    fn packed_pop(store: &mut [u32], heaps, levels, heap, out: &mut [u32]);

    /// A pop, and then a push of the new element at the same heap: gives the element of lowest rank in out[0]
    /// to out[2], even if the new rank is lower. Works on a full heap. Refused 12 for a heap that there is
    /// not, 7 with tag 0, 6 where the heap holds nothing.
    fn packed_replace(store: &mut [u32], heaps, levels, heap, rank, tag, length, out: &mut [u32]);

    /// Gives the number of elements that the heap holds in out[0]. Refused 12 for a heap that there is not.
    fn packed_held(store: &[u32], heaps, levels, heap, out: &mut [u32]);

    // The bucket queue.

    /// Empties the queue and makes the chain of free nodes. Never refused 2.
    fn bucket_clear(bits: &mut [u64], words: &mut [u32], storeys, nodes);

    /// Takes an element in, behind those of its rank. Refused 4 above the last rank, 7 with tag 0, 5
    /// where no node is free.
    fn bucket_push(bits: &mut [u64], words: &mut [u32], storeys, nodes, rank, tag, length);

    /// Gives the first element of the lowest rank in out[0] to out[2]. Refused 6 where nothing is
    /// held.
    fn bucket_pop(bits: &mut [u64], words: &mut [u32], storeys, nodes, out: &mut [u32]);

    /// A pop, and then a push of the new element: gives the first element of the lowest rank in out[0]
    /// to out[2], even if the new rank is lower. Works on a full queue. Refused 4 above the last rank,
    /// 7 with tag 0, 6 where nothing is held.
    fn bucket_replace(bits: &mut [u64], words: &mut [u32], storeys, nodes, rank, tag, length, out: &mut [u32]);

    /// Gives the number of held elements in out[0].
    fn bucket_held(bits: &[u64], words: &[u32], storeys, nodes, out: &mut [u32]);

    // Several ports on one pool.

    /// Empties all ports, makes the chain of free nodes and fixes the limits: port p's floor is limits[2p],
    /// its ceiling limits[2p + 1]. Refused 1 also where the limits are too few, a floor is above its ceiling
    /// or the floors are more than the nodes. Never refused 2.
    fn ports_clear(bits: &mut [u64], words: &mut [u32], storeys, nodes, ports, limits: &[u32]);

    /// Takes an element in at a port, behind those of its rank. Refused 8 for a port that there is not, 4
    /// above the last rank, 7 with tag 0. Refused 5 where the port holds its floor or more and either holds
    /// its ceiling, or the nodes less the larger of held and floor of each port come to none.
    fn ports_push(bits: &mut [u64], words: &mut [u32], storeys, nodes, ports, port, rank, tag, length);

    /// Gives the port's first element of its lowest rank in out[0] to out[2]. Refused 8 for a port that there
    /// is not, 6 where the port holds nothing.
    fn ports_pop(bits: &mut [u64], words: &mut [u32], storeys, nodes, ports, port, out: &mut [u32]);

    /// A pop, and then a push of the new element at the same port, which needs no room. Refused 8 for a port
    /// that there is not, 4 above the last rank, 7 with tag 0, 6 where the port holds nothing.
    fn ports_replace(bits: &mut [u64], words: &mut [u32], storeys, nodes, ports, port, rank, tag, length, out: &mut [u32]);

    /// Gives the number of elements that the port holds in out[0]. Refused 8 for a port that there is not.
    fn ports_held(bits: &[u64], words: &[u32], storeys, nodes, ports, port, out: &mut [u32]);

    // The clocked tree.

    /// Empties the tree: store and records zero, mark off. Reads neither records nor mark.
    fn clocked_clear(store: &mut [u32], order, levels, records: &mut [Record], mark: &mut [u32]);

    /// Runs one cycle with a request: 0 idle, 1 push, 2 pop, 3 replace. The operation is answered in
    /// its own cycle. Refused 3, 5, 6 or 7 it runs as an idle cycle.
    fn clocked_cycle(store: &mut [u32], order, levels, records: &mut [Record], mark: &mut [u32], request, rank, tag, length, out: &mut [u32]);

    /// Runs idle cycles until nothing is pending or the budget is spent: out[0] the cycles run, out[1]
    /// 1 where work is left.
    fn clocked_drain(store: &mut [u32], order, levels, records: &mut [Record], mark: &mut [u32], budget, out: &mut [u32]);

    /// Gives the number of held elements in out[0]. Reads the root alone, no record.
    fn clocked_held(store: &[u32], order, levels, out: &mut [u32]);

    // The clocked cluster heap.

    /// Empties the heap: store and records zero. Reads no record.
    fn clocked_cluster_clear(store: &mut [u32], places, levels, records: &mut [ClusterRecord]);

    /// Runs one cycle with a request: 0 idle, 1 push, 2 pop, 3 replace. The operation is answered in its own
    /// cycle, whatever the cycle before did. Refused 5, 6 or 7 it runs as an idle cycle.
    fn clocked_cluster_cycle(store: &mut [u32], places, levels, records: &mut [ClusterRecord], request, rank, tag, length, out: &mut [u32]);

    /// Runs idle cycles until nothing is pending or the budget is spent: out[0] the cycles run, out[1] 1
    /// where work is left. Levels less one are always enough.
    fn clocked_cluster_drain(store: &mut [u32], places, levels, records: &mut [ClusterRecord], budget, out: &mut [u32]);

    /// Gives the number of held elements in out[0], in the middle of any work too. Reads the root alone, no
    /// record.
    fn clocked_cluster_held(store: &[u32], places, levels, out: &mut [u32]);

    // Lines.

    /// Empties all lines: all words zero. Never refused 2.
    fn lines_clear(store: &mut [u32], kind, lines, places);

    /// Takes an element in, behind those of its rank in its line. Refused 4 where the kind is 1 and the rank
    /// above 65535, 7 with tag 0. Refused 5, kind 1, where the line of its rank is full, kind 2 where all
    /// lines are.
    fn lines_push(store: &mut [u32], kind, lines, places, rank, tag, length);

    /// Gives the first element of the lowest rank in out[0] to out[2]; of kind 2 it is the first in its line,
    /// and of equal lines the first. Refused 6 where nothing is held.
    fn lines_pop(store: &mut [u32], kind, lines, places, out: &mut [u32]);

    /// A pop, and then a push of the new element, of kind 2 into the line that gave: gives what the pop gives,
    /// even if the new rank is lower. Refused 4 where the kind is 1 and the rank above 65535, 7 with tag 0, 6
    /// where nothing is held. Refused 5, kind 1, where the line of its rank did not give and is full.
    fn lines_replace(store: &mut [u32], kind, lines, places, rank, tag, length, out: &mut [u32]);

    /// Gives the number of held elements in out[0]. Reads the counts alone.
    fn lines_held(store: &[u32], kind, lines, places, out: &mut [u32]);

    // Lines on the clock.

    /// Empties all lines: store and record zero. Reads no record.
    fn lines_clock_clear(store: &mut [u32], kind, lines, places, records: &mut [Record]);

    /// Runs one cycle with a request: 0 idle, 1 push, 2 pop, 3 replace. The operation is answered in its own
    /// cycle, as one at a time, whatever the cycle before did. Refused 4, 5, 6 or 7 it runs as an idle cycle.
    fn lines_clock_cycle(store: &mut [u32], kind, lines, places, records: &mut [Record], request, rank, tag, length, out: &mut [u32]);

    /// Runs idle cycles until nothing is pending or the budget is spent: out[0] the cycles run, out[1] 1
    /// where work is left. One is always enough.
    fn lines_clock_drain(store: &mut [u32], kind, lines, places, records: &mut [Record], budget, out: &mut [u32]);

    /// Gives the number of held elements in out[0], in the middle of any work too. Reads the counts alone, no
    /// record.
    fn lines_clock_held(store: &[u32], kind, lines, places, out: &mut [u32]);
}
