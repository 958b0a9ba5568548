//! How long stores are, as constants: for arrays, whose lengths are known when they are compiled.

/// The most slots that a tree has.
const SLOTS: usize = 87_380;

/// How many elements a tree of this order and these levels can hold; 0 for a bad shape.
///
/// ```
/// assert_eq!(card_host::tree_slots(4, 8), 87_380);
/// assert_eq!(card_host::tree_slots(4, 9), 0);
/// ```
pub const fn tree_slots(order: u32, levels: u32) -> usize {
    if order != 2 && order != 4 && order != 8 {
        return 0;
    }
    let (mut slots, mut level) = (0, 0);
    while level < levels {
        slots = order as usize * (slots + 1);
        if slots > SLOTS {
            return 0;
        }
        level += 1;
    }
    slots
}

/// How many words a tree's store needs, four for each slot; 0 for a bad shape.
///
/// ```
/// static STORE: [u32; card_host::tree_words(2, 2)] = [0; 24];
/// # let _ = STORE;
/// ```
pub const fn tree_words(order: u32, levels: u32) -> usize {
    4 * tree_slots(order, levels)
}

/// How many words the state of fair ranks needs: the clock, and the last finish of each of 64 flows.
///
/// ```
/// static STATE: [u32; card_host::fair_words()] = [0; 65];
/// # let _ = STATE;
/// ```
pub const fn fair_words() -> usize {
    65
}

/// The most places that a cluster heap has.
const PLACES: usize = 5460;

/// How many elements a cluster heap of so many places a node and these levels can hold; 0 for a bad shape.
///
/// ```
/// assert_eq!(card_host::cluster_places(4, 10), 4092);
/// assert_eq!(card_host::cluster_places(4, 11), 0);
/// ```
pub const fn cluster_places(places: u32, levels: u32) -> usize {
    if places < 2 || places > 16 {
        return 0;
    }
    let (mut all, mut level) = (0, 0);
    while level < levels {
        all = 2 * all + places as usize;
        if all > PLACES {
            return 0;
        }
        level += 1;
    }
    all
}

/// How many words a cluster heap's store needs, four for each place and two for each node; 0 for a bad shape.
///
/// ```
/// static STORE: [u32; card_host::cluster_words(2, 2)] = [0; 30];
/// # let _ = STORE;
/// ```
pub const fn cluster_words(places: u32, levels: u32) -> usize {
    let all = cluster_places(places, levels);
    if all == 0 {
        return 0;
    }
    4 * all + 2 * (all / places as usize)
}

/// The most heaps of a packed heap, and its most slots.
const HEAPS: u32 = 256;
const PACKED: usize = 131_071;

/// How many elements so many packed heaps of these levels can hold together, each as many as the others; 0 for a bad shape.
///
/// ```
/// assert_eq!(card_host::packed_slots(1, 17), 131_071);
/// assert_eq!(card_host::packed_slots(1, 18), 0);
/// assert_eq!(card_host::packed_slots(256, 9), 130_816);
/// assert_eq!(card_host::packed_slots(257, 1), 0);
/// ```
pub const fn packed_slots(heaps: u32, levels: u32) -> usize {
    if heaps > HEAPS || levels > 17 {
        return 0;
    }
    let slots = heaps as usize * ((1 << levels) - 1);
    if slots > PACKED {
        return 0;
    }
    slots
}

/// How many words the store of so many packed heaps needs, one for each heap and three for each slot; 0 for a bad shape.
///
/// ```
/// static STORE: [u32; card_host::packed_words(2, 2)] = [0; 20];
/// # let _ = STORE;
/// ```
pub const fn packed_words(heaps: u32, levels: u32) -> usize {
    let slots = packed_slots(heaps, levels);
    if slots == 0 {
        return 0;
    }
    heaps as usize + 3 * slots
}

/// How many pending records a clocked tree or cluster heap needs, one for each level from 2.
pub const fn record_count(levels: u32) -> usize {
    (levels as usize).saturating_sub(1)
}

/// The most nodes that a bucket queue has, at either depth.
const NODES: u32 = 65536;

/// How many ranks a bucket queue of so many storeys has, 64 for each rank of a storey less; 0 for a depth that there is not.
///
/// ```
/// assert_eq!(card_host::bucket_ranks(2), 4096);
/// assert_eq!(card_host::bucket_ranks(3), 262_144);
/// assert_eq!(card_host::bucket_ranks(4), 0);
/// ```
pub const fn bucket_ranks(storeys: u32) -> usize {
    if storeys < 2 || storeys > 3 {
        return 0;
    }
    64usize.pow(storeys)
}

/// How many words of 64 bits a bucket queue of so many storeys needs; 0 for a depth that there is not.
///
/// ```
/// assert_eq!(card_host::bucket_bits(2), 65);
/// assert_eq!(card_host::bucket_bits(3), 4161);
/// ```
pub const fn bucket_bits(storeys: u32) -> usize {
    let (mut words, mut storey) = (0, bucket_ranks(storeys));
    while storey > 1 {
        storey /= 64;
        words += storey;
    }
    words
}

/// How many words of 32 bits a bucket queue of so many storeys and nodes needs; 0 for a bad shape.
///
/// ```
/// assert_eq!(card_host::bucket_words(2, 3), 8203);
/// assert_eq!(card_host::bucket_words(3, 3), 524_299);
/// assert_eq!(card_host::bucket_words(2, 0), 0);
/// ```
pub const fn bucket_words(storeys: u32, nodes: u32) -> usize {
    let ranks = bucket_ranks(storeys);
    if ranks == 0 || nodes < 1 || nodes > NODES {
        return 0;
    }
    2 * ranks + 3 * nodes as usize + 2
}

/// How many elements a bucket queue can hold: as many as it has nodes; 0 for a bad shape.
pub(crate) const fn bucket_room(storeys: u32, nodes: u32) -> usize {
    if bucket_words(storeys, nodes) == 0 {
        return 0;
    }
    nodes as usize
}

/// The most ports on one pool.
pub(crate) const PORTS: usize = 16;

/// How many words of 64 bits so many ports on one pool need, each as many as a bucket queue; 0 for a bad shape.
///
/// ```
/// assert_eq!(card_host::ports_bits(2, 5), 325);
/// assert_eq!(card_host::ports_bits(2, 17), 0);
/// ```
pub const fn ports_bits(storeys: u32, ports: u32) -> usize {
    if ports as usize > PORTS {
        return 0;
    }
    ports as usize * bucket_bits(storeys)
}

/// How many words of 32 bits so many ports on one pool need: heads and tails of each, the nodes, the free link, and three of each port;
/// 0 for a bad shape.
///
/// ```
/// assert_eq!(card_host::ports_words(2, 3, 2), 2 * 8192 + 9 + 1 + 6);
/// assert_eq!(card_host::ports_words(2, 3, 0), 0);
/// ```
pub const fn ports_words(storeys: u32, nodes: u32, ports: u32) -> usize {
    let (ranks, ports) = (bucket_ranks(storeys), ports as usize);
    if ranks == 0 || nodes < 1 || nodes > NODES || ports < 1 || ports > PORTS {
        return 0;
    }
    2 * ranks * ports + 3 * nodes as usize + 1 + 3 * ports
}

/// How many elements all ports on one pool can hold together: as many as it has nodes; 0 for a bad shape.
pub(crate) const fn ports_room(storeys: u32, nodes: u32, ports: u32) -> usize {
    if ports_words(storeys, nodes, ports) == 0 {
        return 0;
    }
    nodes as usize
}

/// The most lines, and the most places of a line.
const LINES: u32 = 512;
const LINE: u32 = 1024;

/// How many elements lines can hold, as many as they have places; 0 for a bad shape.
///
/// ```
/// assert_eq!(card_host::lines_room(2, 512, 1024), 524_288);
/// assert_eq!(card_host::lines_room(2, 3, 1024), 0);
/// ```
pub const fn lines_room(kind: u32, lines: u32, places: u32) -> usize {
    let shaped = lines >= 1 && lines <= LINES && lines & (lines - 1) == 0 && places >= 1 && places <= LINE;
    if (kind != 1 && kind != 2) || !shaped {
        return 0;
    }
    lines as usize * places as usize
}

/// How many words the store of lines needs, one for each line and three for each place; 0 for a bad shape.
///
/// ```
/// static STORE: [u32; card_host::lines_words(1, 2, 3)] = [0; 20];
/// # let _ = STORE;
/// ```
pub const fn lines_words(kind: u32, lines: u32, places: u32) -> usize {
    let room = lines_room(kind, lines, places);
    if room == 0 {
        return 0;
    }
    lines as usize + 3 * room
}
