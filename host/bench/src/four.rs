//! A heap of four children a node, as a user would write it: in one array, and by rank and tag as one number.

use crate::queues::{Queue, Strip};

#[derive(Default)]
pub struct FourHeap(Vec<Strip>);

#[inline]
fn turn(x: Strip) -> u64 {
    (x.0 as u64) << 32 | x.1 as u64
}

impl FourHeap {
    /// Puts x down from the top: every lower child goes up until none is lower.
    #[inline]
    fn sink(&mut self, x: Strip) {
        let heap = &mut self.0[..];
        let mut at = 0;
        loop {
            let first = 4 * at + 1;
            if first >= heap.len() {
                break;
            }
            let children = &heap[first..heap.len().min(first + 4)];
            let (mut best, mut low) = (first, turn(children[0]));
            for (j, child) in children.iter().enumerate().skip(1) {
                let own = turn(*child);
                if own < low {
                    best = first + j;
                    low = own;
                }
            }
            if low >= turn(x) {
                break;
            }
            heap[at] = heap[best];
            at = best;
        }
        heap[at] = x;
    }
}

impl Queue for FourHeap {
    fn clear(&mut self) {
        self.0.clear();
    }
    #[inline]
    fn push(&mut self, x: Strip) {
        let mut at = self.0.len();
        self.0.push(x);
        while at > 0 {
            let above = (at - 1) / 4;
            if turn(self.0[above]) <= turn(x) {
                break;
            }
            self.0[at] = self.0[above];
            at = above;
        }
        self.0[at] = x;
    }
    #[inline]
    fn pop(&mut self) -> Strip {
        let last = self.0.pop().expect("pop");
        match self.0.first().copied() {
            None => last,
            Some(given) => {
                self.sink(last);
                given
            }
        }
    }
    #[inline]
    fn replace(&mut self, x: Strip) -> Strip {
        let given = self.0[0];
        self.sink(x);
        given
    }
}
