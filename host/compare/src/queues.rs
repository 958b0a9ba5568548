//! The queues as the desk sees them. Those that take elements in at any rank, one operation at a time or by cycles, share one kind of call and
//! are a line each; packed heaps, fair ranks, ports, and the check and mending of a tree have calls of their own.

use crate::desk::{as_structs, Store, Subject};
use card_host::{calls, ClusterRecord, Record};
use models::boundary::{self, counted, told};
use models::{bucket, cluster, cluster_clock, element, fair, mend, packed, ports, shape_cause, tree, Element, No};

/// A call of a queue of elements, with the length of `out` where it has one.
#[derive(Clone, Copy, Debug)]
pub enum Ask {
    Clear,
    Push(Element),
    Pop(usize),
    Replace(Element, usize),
    Held(usize),
    /// By cycles: the number of a request and its element.
    Cycle(u32, Element, usize),
    /// By cycles: the budget.
    Drain(u32, usize),
}

impl Ask {
    /// The call of a queue of one operation at a time that a request of a cycle is.
    pub fn request(number: u32, x: Element) -> Ask {
        match number {
            1 => Ask::Push(x),
            2 => Ask::Pop(3),
            _ => Ask::Replace(x, 3),
        }
    }

    /// The same call with another rank of its element.
    pub fn ranked(self, rank: impl Fn(u32) -> u32) -> Ask {
        let with = |x: Element| Element { rank: rank(x.rank), ..x };
        match self {
            Ask::Push(x) => Ask::Push(with(x)),
            Ask::Replace(x, out) => Ask::Replace(with(x), out),
            Ask::Cycle(request, x, out) => Ask::Cycle(request, with(x), out),
            other => other,
        }
    }

    fn out(&self) -> usize {
        match *self {
            Ask::Clear | Ask::Push(_) => 0,
            Ask::Pop(out) | Ask::Replace(_, out) | Ask::Held(out) | Ask::Cycle(_, _, out) | Ask::Drain(_, out) => out,
        }
    }
}

/// Queues of one operation at a time: the library's calls and the model's, on the slices that the queue has.
macro_rules! operations {
    ($($(#[$says:meta])* $queue:ident on ($($slice:ident),*): $clear:ident, $push:ident, $pop:ident, $replace:ident, $held:ident as $model:ident;)*) => {$(
        $(#[$says])*
        pub struct $queue;

        impl Subject for $queue {
            type Store = Store;
            type Call = Ask;
            const CALLS: &'static [&'static str] = &["clear", "push", "pop", "replace", "held"];

            fn kind(ask: &Ask) -> usize {
                match ask {
                    Ask::Clear => 0,
                    Ask::Push(_) => 1,
                    Ask::Pop(_) => 2,
                    Ask::Replace(..) => 3,
                    Ask::Held(_) => 4,
                    _ => unreachable!("{ask:?}"),
                }
            }

            fn out(ask: &Ask) -> usize {
                ask.out()
            }

            fn library(ask: &Ask, store: &mut Store, out: &mut [u32]) -> u32 {
                let ([a, b, _], Store { $($slice,)* .. }) = (store.shape, store);
                match *ask {
                    Ask::Clear => calls::$clear($($slice,)* a, b),
                    Ask::Push(x) => calls::$push($($slice,)* a, b, x.rank, x.tag, x.length),
                    Ask::Pop(_) => calls::$pop($($slice,)* a, b, out),
                    Ask::Replace(x, _) => calls::$replace($($slice,)* a, b, x.rank, x.tag, x.length, out),
                    _ => calls::$held($($slice,)* a, b, out),
                }
            }

            fn model(ask: &Ask, store: &mut Store, out: &mut [u32]) -> Result<(), No> {
                let ([a, b, _], Store { $($slice,)* .. }) = (store.shape, store);
                match *ask {
                    Ask::Clear => $model::clear($($slice,)* a, b),
                    Ask::Push(x) => $model::push($($slice,)* a, b, x),
                    Ask::Pop(_) => told(out, || $model::pop($($slice,)* a, b)),
                    Ask::Replace(x, _) => told(out, || $model::replace($($slice,)* a, b, x)),
                    _ => counted(out, || $model::held($($slice,)* a, b)),
                }
            }
        }
    )*};
}

operations! {
    /// The multi-way tree.
    Tree on (words): tree_clear, tree_push, tree_pop, tree_replace, tree_held as tree;
    /// The cluster heap.
    Cluster on (words): cluster_clear, cluster_push, cluster_pop, cluster_replace, cluster_held as cluster;
    /// The bucket queue.
    Bucket on (bits, words): bucket_clear, bucket_push, bucket_pop, bucket_replace, bucket_held as bucket;
}

/// Packed heaps side by side. The shape is the heaps and the levels; a call is at a heap, but for clear, which is of all.
pub struct Packed;

impl Subject for Packed {
    type Store = Store;
    type Call = (u32, Ask);
    const CALLS: &'static [&'static str] = Tree::CALLS;

    fn kind((_, ask): &(u32, Ask)) -> usize {
        Tree::kind(ask)
    }

    fn out((_, ask): &(u32, Ask)) -> usize {
        ask.out()
    }

    fn library(&(heap, ask): &(u32, Ask), store: &mut Store, out: &mut [u32]) -> u32 {
        let ([a, b, _], Store { words, .. }) = (store.shape, store);
        match ask {
            Ask::Clear => calls::packed_clear(words, a, b),
            Ask::Push(x) => calls::packed_push(words, a, b, heap, x.rank, x.tag, x.length),
            Ask::Pop(_) => calls::packed_pop(words, a, b, heap, out),
            Ask::Replace(x, _) => calls::packed_replace(words, a, b, heap, x.rank, x.tag, x.length, out),
            _ => calls::packed_held(words, a, b, heap, out),
        }
    }

    fn model(&(heap, ask): &(u32, Ask), store: &mut Store, out: &mut [u32]) -> Result<(), No> {
        let ([a, b, _], Store { words, .. }) = (store.shape, store);
        match ask {
            Ask::Clear => packed::clear(words, a, b),
            Ask::Push(x) => packed::push(words, a, b, heap, x),
            Ask::Pop(_) => told(out, || packed::pop(words, a, b, heap)),
            Ask::Replace(x, _) => told(out, || packed::replace(words, a, b, heap, x)),
            _ => counted(out, || packed::held(words, a, b, heap)),
        }
    }
}

/// The calls of a machine that are counted apart.
pub(crate) const CYCLES: &[&str] = &["clear", "idle", "push", "pop", "replace", "other", "drain", "held"];

pub(crate) fn cycle_kind(ask: &Ask) -> usize {
    match *ask {
        Ask::Clear => 0,
        Ask::Cycle(request, ..) => 1 + request.min(4) as usize,
        Ask::Drain(..) => 6,
        Ask::Held(_) => 7,
        _ => unreachable!("{ask:?}"),
    }
}

/// The clocked tree. The state is its mark.
pub struct ClockedTree;

impl Subject for ClockedTree {
    type Store = Store<5>;
    type Call = Ask;
    const CALLS: &'static [&'static str] = CYCLES;

    fn kind(ask: &Ask) -> usize {
        cycle_kind(ask)
    }

    fn out(ask: &Ask) -> usize {
        ask.out()
    }

    fn library(ask: &Ask, store: &mut Store<5>, out: &mut [u32]) -> u32 {
        let ([a, b, _], Store { words, state, records, .. }) = (store.shape, store);
        as_structs(records, |records: &mut [Record]| match *ask {
            Ask::Clear => calls::clocked_clear(words, a, b, records, state),
            Ask::Cycle(r, x, _) => calls::clocked_cycle(words, a, b, records, state, r, x.rank, x.tag, x.length, out),
            Ask::Drain(budget, _) => calls::clocked_drain(words, a, b, records, state, budget, out),
            _ => calls::clocked_held(words, a, b, out),
        })
    }

    fn model(ask: &Ask, store: &mut Store<5>, out: &mut [u32]) -> Result<(), No> {
        let ([a, b, _], Store { words, state, records, .. }) = (store.shape, store);
        match *ask {
            Ask::Clear => boundary::clocked_clear(words, a, b, records, state),
            Ask::Cycle(r, x, _) => {
                boundary::clocked_cycle(words, a, b, records, state, r, x.rank, x.tag, x.length, out)
            }
            Ask::Drain(budget, _) => boundary::clocked_drain(words, a, b, records, state, budget, out),
            _ => boundary::clocked_held(words, a, b, out),
        }
    }
}

/// The clocked cluster heap.
pub struct ClockedCluster;

impl Subject for ClockedCluster {
    type Store = Store<6>;
    type Call = Ask;
    const CALLS: &'static [&'static str] = CYCLES;

    fn kind(ask: &Ask) -> usize {
        cycle_kind(ask)
    }

    fn out(ask: &Ask) -> usize {
        ask.out()
    }

    fn library(ask: &Ask, store: &mut Store<6>, out: &mut [u32]) -> u32 {
        let ([a, b, _], Store { words, records, .. }) = (store.shape, store);
        as_structs(records, |records: &mut [ClusterRecord]| match *ask {
            Ask::Clear => calls::clocked_cluster_clear(words, a, b, records),
            Ask::Cycle(r, x, _) => calls::clocked_cluster_cycle(words, a, b, records, r, x.rank, x.tag, x.length, out),
            Ask::Drain(budget, _) => calls::clocked_cluster_drain(words, a, b, records, budget, out),
            _ => calls::clocked_cluster_held(words, a, b, out),
        })
    }

    fn model(ask: &Ask, store: &mut Store<6>, out: &mut [u32]) -> Result<(), No> {
        let ([a, b, _], Store { words, records, .. }) = (store.shape, store);
        match *ask {
            Ask::Clear => cluster_clock::clear(words, a, b, records),
            Ask::Cycle(r, x, _) => cluster_clock::cycled(words, a, b, records, r, x, out),
            Ask::Drain(budget, _) => cluster_clock::drain(words, a, b, records, budget, out),
            _ => cluster_clock::held(words, a, b, out),
        }
    }
}

/// Fair ranks above a tree.
pub struct Fair;

/// A call of fair ranks, with the length of `out` where it has one.
#[derive(Clone, Copy, Debug)]
pub enum FairAsk {
    Reset,
    Push { flow: u32, weight: u32, tag: u32, length: u32 },
    Pop { out: usize },
    Held { out: usize },
}

impl Subject for Fair {
    type Store = Store;
    type Call = FairAsk;
    const CALLS: &'static [&'static str] = &["reset", "push", "pop", "held"];

    fn kind(ask: &FairAsk) -> usize {
        match ask {
            FairAsk::Reset => 0,
            FairAsk::Push { .. } => 1,
            FairAsk::Pop { .. } => 2,
            FairAsk::Held { .. } => 3,
        }
    }

    fn out(ask: &FairAsk) -> usize {
        match *ask {
            FairAsk::Reset | FairAsk::Push { .. } => 0,
            FairAsk::Pop { out } | FairAsk::Held { out } => out,
        }
    }

    fn library(ask: &FairAsk, store: &mut Store, out: &mut [u32]) -> u32 {
        let ([a, b, _], Store { state, words, .. }) = (store.shape, store);
        match *ask {
            FairAsk::Reset => calls::fair_reset(state, words, a, b),
            FairAsk::Push { flow, weight, tag, length } => {
                calls::fair_push(state, words, a, b, flow, weight, tag, length)
            }
            FairAsk::Pop { .. } => calls::fair_pop(state, words, a, b, out),
            FairAsk::Held { .. } => calls::fair_held(words, a, b, out),
        }
    }

    fn model(ask: &FairAsk, store: &mut Store, out: &mut [u32]) -> Result<(), No> {
        let ([a, b, _], Store { state, words, .. }) = (store.shape, store);
        match *ask {
            FairAsk::Reset => fair::reset(state, words, a, b),
            FairAsk::Push { flow, weight, tag, length } => fair::push(state, words, a, b, flow, weight, tag, length),
            FairAsk::Pop { .. } => fair::pop(state, words, a, b, out),
            FairAsk::Held { .. } => fair::held(words, a, b, out),
        }
    }
}

/// Several ports on one pool. The shape is the storeys, the nodes and the ports.
pub struct Ports;

/// A call of ports: at a port, or the clearing of all with these limits.
#[derive(Clone, Debug)]
pub enum PortsAsk {
    Clear(Vec<u32>),
    At(u32, Ask),
}

impl Subject for Ports {
    type Store = Store;
    type Call = PortsAsk;
    const CALLS: &'static [&'static str] = Bucket::CALLS;

    fn kind(ask: &PortsAsk) -> usize {
        match ask {
            PortsAsk::Clear(_) => 0,
            PortsAsk::At(_, ask) => Bucket::kind(ask),
        }
    }

    fn out(ask: &PortsAsk) -> usize {
        match ask {
            PortsAsk::Clear(_) => 0,
            PortsAsk::At(_, ask) => ask.out(),
        }
    }

    fn library(ask: &PortsAsk, store: &mut Store, out: &mut [u32]) -> u32 {
        let ([s, n, p], Store { bits, words, .. }) = (store.shape, store);
        match *ask {
            PortsAsk::Clear(ref limits) => calls::ports_clear(bits, words, s, n, p, limits),
            PortsAsk::At(port, Ask::Push(x)) => calls::ports_push(bits, words, s, n, p, port, x.rank, x.tag, x.length),
            PortsAsk::At(port, Ask::Pop(_)) => calls::ports_pop(bits, words, s, n, p, port, out),
            PortsAsk::At(port, Ask::Replace(x, _)) => {
                calls::ports_replace(bits, words, s, n, p, port, x.rank, x.tag, x.length, out)
            }
            PortsAsk::At(port, _) => calls::ports_held(bits, words, s, n, p, port, out),
        }
    }

    fn model(ask: &PortsAsk, store: &mut Store, out: &mut [u32]) -> Result<(), No> {
        let ([storeys, nodes, ports], Store { bits, words, .. }) = (store.shape, store);
        let (port, ask) = match *ask {
            PortsAsk::Clear(ref limits) => return ports::clear(bits, words, storeys, nodes, ports, limits),
            PortsAsk::At(port, ask) => (port, ask),
        };
        let lent = ports::Lent { bits, words, storeys, nodes, ports, port };
        match ask {
            Ask::Push(x) => lent.push(x),
            Ask::Pop(_) => lent.pop(out),
            Ask::Replace(x, _) => lent.replace(x, out),
            _ => lent.held(out),
        }
    }
}

/// The check of a tree's store and its mending. The second store is the state.
pub struct Mend;

/// A call of the two, with the length of `out`.
#[derive(Clone, Copy, Debug)]
pub enum MendAsk {
    Check(usize),
    Mend(usize),
}

impl Subject for Mend {
    type Store = Store;
    type Call = MendAsk;
    const CALLS: &'static [&'static str] = &["check", "mend"];

    fn kind(ask: &MendAsk) -> usize {
        matches!(ask, MendAsk::Mend(_)) as usize
    }

    fn out(ask: &MendAsk) -> usize {
        match *ask {
            MendAsk::Check(out) | MendAsk::Mend(out) => out,
        }
    }

    fn library(ask: &MendAsk, store: &mut Store, out: &mut [u32]) -> u32 {
        let ([a, b, _], Store { words, state, .. }) = (store.shape, store);
        match ask {
            MendAsk::Check(_) => calls::tree_check(words, a, b, out),
            MendAsk::Mend(_) => calls::tree_mend(words, state, a, b, out),
        }
    }

    fn model(ask: &MendAsk, store: &mut Store, out: &mut [u32]) -> Result<(), No> {
        let ([a, b, _], Store { words, state, .. }) = (store.shape, store);
        let number = match ask {
            MendAsk::Check(_) => mend::check(words, a, b, out),
            MendAsk::Mend(_) => mend::mend(words, state, a, b, out),
        };
        if number == 0 {
            Ok(())
        } else {
            Err(No::BadShape(shape_cause::NUMBERS))
        }
    }
}

/// The element in the words of an answer.
pub fn answered(out: &[u32]) -> Element {
    element(out[0], out[1], out[2])
}
