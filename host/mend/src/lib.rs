//! A tree's store as a file of 32-bit words, low byte first; where its first broken slot stands, and why it is broken.

use card_host::{tree_slots, tree_words, Broken, Mended, TreeQueue};

/// The words of a file.
pub fn words(bytes: &[u8]) -> Result<Vec<u32>, String> {
    if bytes.len() % 4 != 0 {
        return Err(format!("{} bytes are no whole number of 32-bit words", bytes.len()));
    }
    Ok(bytes.chunks_exact(4).map(|b| u32::from_le_bytes([b[0], b[1], b[2], b[3]])).collect())
}

/// The file of words.
pub fn bytes(words: &[u32]) -> Vec<u8> {
    words.iter().flat_map(|w| w.to_le_bytes()).collect()
}

/// A slot's place: levels count from 1, nodes and slots from 0.
#[derive(Clone, Copy, PartialEq, Eq, Debug)]
pub struct Place {
    pub level: usize,
    pub node: usize,
    pub slot: usize,
}

/// Where the slot of this number in the slice stands.
pub fn place(order: usize, number: usize) -> Place {
    let (mut level, mut first, mut width) = (1, 0, order);
    while number >= first + width {
        first += width;
        width *= order;
        level += 1;
    }
    Place { level, node: (number - first) / order, slot: (number - first) % order }
}

/// How many words a slot has.
const WORDS: usize = tree_words(2, 1) / tree_slots(2, 1);

/// A slot's words, the last of which is its count.
fn slot(store: &[u32], number: usize) -> &[u32] {
    &store[WORDS * number..][..WORDS]
}

fn count(store: &[u32], number: usize) -> u64 {
    slot(store, number)[WORDS - 1] as u64
}

/// Why a slot that the check named is broken.
pub fn reasons(store: &[u32], order: usize, levels: usize, number: usize) -> Vec<String> {
    let (at, own) = (place(order, number), slot(store, number));
    let under = (number + 1) * order;
    let sum: u64 = if at.level < levels { (under..under + order).map(|i| count(store, i)).sum() } else { 0 };
    let mut found = Vec::new();
    if count(store, number) != 0 {
        if count(store, number) != 1 + sum {
            found.push(format!("its count is {}, and the counts under it make {}", count(store, number), 1 + sum));
        }
        if at.level > 1 {
            let above = slot(store, number / order - 1)[0];
            if own[0] < above {
                found.push(format!("its rank is {}, below {above} of the slot above it", own[0]));
            }
        }
    } else {
        for (word, name) in own.iter().zip(["rank", "tag", "length"]).filter(|(word, _)| **word != 0) {
            found.push(format!("its count is 0 and its {name} is {word}"));
        }
        if sum != 0 {
            found.push(format!("its count is 0 and the counts under it make {sum}"));
        }
    }
    found
}

/// What the tool found.
#[derive(Clone, PartialEq, Eq, Debug)]
pub enum Found {
    /// No slot is broken.
    Whole,
    /// The first broken slot, in words; the mended store; and how many slots were skipped.
    Mended { broken: Vec<String>, store: Vec<u32>, skipped: u32 },
}

/// Checks a store, and mends it where a slot is broken. Words behind the store's own are taken over.
pub fn mend(store: Vec<u32>, order: u32, levels: u32) -> Result<Found, String> {
    let tree = TreeQueue::from_words(order, levels, store);
    let number = match tree.check() {
        Ok(()) => return Ok(Found::Whole),
        Err(Broken::Refused(_)) => {
            let needs = match tree_words(order, levels) {
                0 => format!("there is no tree of order {order} with {levels} levels"),
                needs => format!(
                    "a tree of order {order} with {levels} levels has {needs} words, not {}",
                    tree.words().len()
                ),
            };
            return Err(needs);
        }
        Err(Broken::Slot(number)) => number as usize,
    };
    let at = place(order as usize, number);
    let head = format!("slot {number} is broken: level {}, node {}, slot {}", at.level, at.node, at.slot);
    let mut broken = vec![head];
    broken.extend(reasons(tree.words(), order as usize, levels as usize, number));
    let Mended { tree: again, skipped } = tree.mend(tree.words().to_vec()).map_err(|refusal| refusal.to_string())?;
    Ok(Found::Mended { broken, store: again.into_words(), skipped })
}
