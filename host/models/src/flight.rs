//! Nothing lost in flight, from the paper's one sentence: take the elements in all slots, add those
//! carried by pending puts and swaps, and for each pending take or swap strike out the element that
//! its node would give next; what remains is, each as often, what was accepted less what was
//! answered out. It reads the words of a store and its records, and knows nothing of cycles.

use crate::call::Record;
use crate::{element, Element};
use std::collections::BTreeMap;

/// The words of a slot: rank, tag, length, count.
const SLOT: usize = 4;

/// The element of a slot, where it has one.
fn held(slot: &[u32]) -> Option<Element> {
    if slot[SLOT - 1] == 0 {
        return None;
    }
    Some(element(slot[0], slot[1], slot[2]))
}

/// The element that a record carries.
fn carried(record: &Record) -> Element {
    element(record[2], record[3], record[4])
}

/// The accounts of one machine since it was cleared.
pub struct Flight {
    order: usize,
    levels: usize,
    /// The slots' words when they were last looked at.
    seen: Vec<u32>,
    /// How often each element stands in the slots, less how often it was accepted, and more how
    /// often it was answered out. None that comes to 0.
    net: BTreeMap<Element, i64>,
}

impl Flight {
    /// A machine that was cleared just now.
    pub fn new(order: u32, levels: u32) -> Flight {
        let (order, levels) = (order as usize, levels as usize);
        let slots: usize = (1..=levels).map(|level| order.pow(level as u32)).sum();
        Flight { order, levels, seen: vec![0; SLOT * slots], net: BTreeMap::new() }
    }

    fn count(&mut self, x: Element, by: i64) {
        let n = self.net.entry(x).or_insert(0);
        *n += by;
        if *n == 0 {
            self.net.remove(&x);
        }
    }

    pub fn accepted(&mut self, x: Element) {
        self.count(x, -1);
    }

    pub fn answered_out(&mut self, x: Element) {
        self.count(x, 1);
    }

    /// Looks at all slots; those whose words are as they were are passed over, some at a time.
    fn look(&mut self, store: &[u32]) {
        let some = 32 * SLOT;
        for from in (0..self.seen.len()).step_by(some) {
            let to = (from + some).min(self.seen.len());
            if self.seen[from..to] == store[from..to] {
                continue;
            }
            for at in (from..to).step_by(SLOT) {
                let (before, now) = (held(&self.seen[at..at + SLOT]), held(&store[at..at + SLOT]));
                if before != now {
                    before.into_iter().for_each(|x| self.count(x, -1));
                    now.into_iter().for_each(|x| self.count(x, 1));
                }
            }
            self.seen[from..to].copy_from_slice(&store[from..to]);
        }
    }

    /// The element that a node would give next: the lowest rank, of equal ranks the lowest tag.
    fn next_of(&self, level: usize, node: usize) -> Option<Element> {
        let above: usize = (1..level).map(|l| self.order.pow(l as u32)).sum();
        let first = above + node * self.order;
        let slots = self.seen.get(SLOT * first..SLOT * (first + self.order))?;
        slots.chunks(SLOT).filter_map(held).min_by_key(|x| (x.rank, x.tag))
    }

    /// What pending work adds and strikes out, element by element.
    fn pending(&self, records: &[Record]) -> Result<Vec<(Element, i64)>, String> {
        let mut all = Vec::new();
        for (i, record) in records[..self.levels - 1].iter().enumerate() {
            let (kind, level) = (record[0], i + 2);
            if kind == 1 || kind == 3 {
                all.push((carried(record), 1));
            }
            if kind == 2 || kind == 3 {
                match self.next_of(level, record[1] as usize) {
                    Some(x) => all.push((x, -1)),
                    None => return Err(format!("level {level}: node {} has nothing to be struck out", record[1])),
                }
            }
        }
        Ok(all)
    }

    /// Whether nothing is lost and nothing is there too often, as the machine stands.
    pub fn check(&mut self, store: &[u32], records: &[Record]) -> Result<(), String> {
        self.look(store);
        let pending = self.pending(records)?;
        for &(x, by) in &pending {
            self.count(x, by);
        }
        let first = self.net.iter().next().map(|(x, n)| format!("{x:?} remains {n} times too often"));
        for (x, by) in pending {
            self.count(x, -by);
        }
        first.map_or(Ok(()), Err)
    }
}
