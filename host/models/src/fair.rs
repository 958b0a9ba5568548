//! Ranks from weights, above the one-at-a-time tree: a state of words beside the tree's store.
//!
//! The calls are as C sees them: slices of numbers in, a refusal or nothing out, `out` written. `Ledger` is the account of who waits and
//! what was served, and holds a history to the bound.

use crate::{element, shape_cause, tree, Element, No};

/// The words of a state: the clock, then the last finish of each flow.
pub const STATE: usize = 65;

/// The limits of a strip, and the highest rank.
pub const FLOWS: u32 = 64;
pub const HEAVIEST: u32 = 1024;
pub const LONGEST: u32 = 9216;
const TOP: u64 = 4_294_967_295;

/// The most cells that a strip has.
pub const MOST_CELLS: u64 = 144;

/// Cells of 64 bytes, rounded up.
pub fn cells(length: u32) -> u64 {
    (length as u64 + 63) / 64
}

/// What one cell of a flow of this weight costs.
pub fn step(weight: u32) -> u64 {
    65_536 / weight as u64
}

fn strip_ok(flow: u32, weight: u32, length: u32) -> bool {
    flow < FLOWS && (1..=HEAVIEST).contains(&weight) && (1..=LONGEST).contains(&length)
}

fn state_ok(state: &[u32]) -> Result<(), No> {
    if state.len() < STATE {
        return Err(No::BadShape(shape_cause::STORE));
    }
    Ok(())
}

/// The strip first, then the state's length, then the finish, and then whatever the tree says of the element.
#[allow(clippy::too_many_arguments)]
pub fn push(
    state: &mut [u32],
    store: &mut [u32],
    order: u32,
    levels: u32,
    flow: u32,
    weight: u32,
    tag: u32,
    length: u32,
) -> Result<(), No> {
    if !strip_ok(flow, weight, length) {
        return Err(No::BadStrip);
    }
    state_ok(state)?;
    let (clock, last) = (state[0] as u64, state[1 + flow as usize] as u64);
    let finish = clock.max(last) + cells(length) * step(weight);
    if finish > TOP {
        return Err(No::ClockSpent);
    }
    tree::push(store, order, levels, element(finish as u32, tag, length))?;
    state[1 + flow as usize] = finish as u32;
    Ok(())
}

/// An `out` that is too short comes before all else; any other refusal writes zeros there.
pub fn pop(state: &mut [u32], store: &mut [u32], order: u32, levels: u32, out: &mut [u32]) -> Result<(), No> {
    if out.len() < 3 {
        return Err(No::BadShape(shape_cause::OUT));
    }
    let given = state_ok(state).and_then(|()| tree::pop(store, order, levels));
    if let Ok(x) = given {
        state[0] = x.rank;
    }
    let Element { rank, tag, length } = given.unwrap_or_default();
    out[..3].copy_from_slice(&[rank, tag, length]);
    given.map(|_| ())
}

/// Where the tree refuses to say what it holds, so is the reset refused, and nothing is wiped.
pub fn reset(state: &mut [u32], store: &[u32], order: u32, levels: u32) -> Result<(), No> {
    state_ok(state)?;
    if tree::held(store, order, levels)? > 0 {
        return Err(No::NotEmpty);
    }
    state[..STATE].fill(0);
    Ok(())
}

/// The tree's own.
pub fn held(store: &[u32], order: u32, levels: u32, out: &mut [u32]) -> Result<(), No> {
    if out.is_empty() {
        return Err(No::BadShape(shape_cause::OUT));
    }
    let count = tree::held(store, order, levels);
    out[0] = count.unwrap_or(0);
    count.map(|_| ())
}

/// A strip that waits.
#[derive(Clone, Copy, PartialEq, Eq, Debug)]
pub struct Waiting {
    pub flow: u32,
    pub weight: u32,
    pub element: Element,
}

/// Two flows and their weights in a stretch: how far ahead the first is, in served cells times step, at this moment and at the extremes.
#[derive(Clone, Copy, Debug)]
struct Pair {
    weights: [u32; 2],
    ahead: i64,
    least: i64,
    most: i64,
}

/// Who waits, and how far the served cells of each two flows have come apart. Any difference between two moments of a stretch is one of a
/// stretch too, so that the extremes of the longest say it for all.
#[derive(Default)]
pub struct Ledger {
    pub waiting: Vec<Waiting>,
    pairs: Vec<((u32, u32), Pair)>,
    /// How often a bound was looked at, and how often it was reached.
    pub looked: u64,
    pub reached: u64,
}

impl Ledger {
    /// The one weight of a flow's waiting strips; none where nothing waits or the weights differ.
    fn weight(&self, flow: u32) -> Option<u32> {
        let mut own = self.waiting.iter().filter(|s| s.flow == flow).map(|s| s.weight);
        let first = own.next()?;
        if own.all(|w| w == first) {
            Some(first)
        } else {
            None
        }
    }

    /// Before a call: stretches end where a flow has nothing waiting or another weight, and begin where both qualify.
    pub fn before(&mut self, flows: &[u32]) {
        for (n, &i) in flows.iter().enumerate() {
            for &j in &flows[n + 1..] {
                let weights = self.weight(i).and_then(|w| self.weight(j).map(|u| [w, u]));
                let at = self.pairs.iter().position(|(pair, _)| *pair == (i, j));
                match (weights, at) {
                    (None, Some(at)) => {
                        self.pairs.remove(at);
                    }
                    (Some(weights), None) => {
                        self.pairs.push(((i, j), Pair { weights, ahead: 0, least: 0, most: 0 }));
                    }
                    (Some(weights), Some(at)) if weights != self.pairs[at].1.weights => {
                        self.pairs[at].1 = Pair { weights, ahead: 0, least: 0, most: 0 };
                    }
                    _ => {}
                }
            }
        }
    }

    /// An accepted push.
    pub fn pushed(&mut self, flow: u32, weight: u32, element: Element) {
        // a strip of another weight ends the stretch
        self.pairs.retain(|((i, j), pair)| {
            !(*i == flow && pair.weights[0] != weight || *j == flow && pair.weights[1] != weight)
        });
        self.waiting.push(Waiting { flow, weight, element });
    }

    /// An answered pop: a strip with this element is struck out, the one that `choose` names of those that fit. Says what is wrong.
    pub fn popped(&mut self, element: Element, choose: impl FnOnce(usize) -> usize) -> Result<(), String> {
        let fits: Vec<usize> = (0..self.waiting.len()).filter(|&k| self.waiting[k].element == element).collect();
        if fits.is_empty() {
            return Err(format!("{element:?} came out and was not waiting"));
        }
        if self.waiting.iter().any(|s| s.element.rank < element.rank) {
            return Err(format!("{element:?} came out before a lower rank"));
        }
        let Waiting { flow, weight, .. } = self.waiting.remove(fits[choose(fits.len())]);
        let cost = (cells(element.length) * step(weight)) as i64;
        for ((i, j), pair) in &mut self.pairs {
            if *i == flow {
                pair.ahead += cost;
            } else if *j == flow {
                pair.ahead -= cost;
            }
            pair.least = pair.least.min(pair.ahead);
            pair.most = pair.most.max(pair.ahead);
            let bound = (MOST_CELLS * (step(pair.weights[0]) + step(pair.weights[1]))) as i64;
            self.looked += 1;
            self.reached += (pair.most - pair.least == bound) as u64;
            if pair.most - pair.least > bound {
                return Err(format!("flows {i} and {j} came {} apart", pair.most - pair.least));
            }
        }
        Ok(())
    }
}

#[cfg(test)]
mod tests {
    use super::*;

    #[test]
    fn cells_and_steps() {
        assert_eq!([1, 64, 65, LONGEST].map(cells), [1, 1, 2, MOST_CELLS]);
        assert_eq!([1, 2, 3, 1000, HEAVIEST].map(step), [65_536, 32_768, 21_845, 65, 64]);
    }

    /// Ranks 1 and 3 cells at weights 1 and 2, and the clock behind the pops.
    #[test]
    fn worked() {
        let (mut state, mut store, mut out) = ([9; 66], [0; 24], [9; 3]);
        reset(&mut state, &store, 2, 2).unwrap();
        push(&mut state, &mut store, 2, 2, 0, 1, 50, 64).unwrap();
        push(&mut state, &mut store, 2, 2, 1, 2, 30, 129).unwrap();
        assert_eq!((state[..4].to_vec(), state[65]), (vec![0, 65_536, 98_304, 0], 9));
        pop(&mut state, &mut store, 2, 2, &mut out).unwrap();
        assert_eq!((state[0], out), (65_536, [65_536, 50, 64]));
        // a flow with nothing waiting starts at the clock
        push(&mut state, &mut store, 2, 2, 63, 1024, 7, 1).unwrap();
        assert_eq!(state[64], 65_600);
        assert_eq!(reset(&mut state, &store, 2, 2), Err(No::NotEmpty));
        // a shape that is none, and a root that is damaged, are the tree's refusals and wipe nothing
        assert!(matches!(reset(&mut state, &store, 3, 2), Err(No::BadShape(_))));
        store[3] = 9;
        assert!(matches!(reset(&mut state, &store, 2, 2), Err(No::Damaged(_))));
        assert_eq!((state[0], state[64]), (65_536, 65_600));
    }
}
