//! A plain sorted list: lowest rank first, first in first out within a rank.

use crate::Element;

#[derive(Clone, Debug, Default)]
pub struct SortedList {
    held: Vec<Element>,
}

impl SortedList {
    pub fn new() -> SortedList {
        SortedList { held: Vec::new() }
    }

    pub fn held(&self) -> usize {
        self.held.len()
    }

    /// The elements in the order in which they would leave.
    pub fn elements(&self) -> &[Element] {
        &self.held
    }

    /// Behind every element of the same or a lower rank.
    pub fn push(&mut self, x: Element) {
        let at = self.held.partition_point(|e| e.rank <= x.rank);
        self.held.insert(at, x);
    }

    pub fn pop(&mut self) -> Option<Element> {
        if self.held.is_empty() {
            return None;
        }
        Some(self.held.remove(0))
    }

    /// The lowest rank that is held.
    pub fn lowest(&self) -> Option<u32> {
        self.held.first().map(|e| e.rank)
    }

    /// Takes out one element that is equal to x: for a queue whose order within a rank is its
    /// own. False where none is held.
    pub fn take_out(&mut self, x: Element) -> bool {
        let from = self.held.partition_point(|e| e.rank < x.rank);
        let mut at = from;
        while at < self.held.len() && self.held[at].rank == x.rank {
            if self.held[at] == x {
                self.held.remove(at);
                return true;
            }
            at += 1;
        }
        false
    }
}
