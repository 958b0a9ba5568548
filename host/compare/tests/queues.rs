//! Every queue of elements held to its model by the same drivers: histories beside a plain list, hostile calls, shapes at their edges.

use card_host::{calls, cluster_words, tree_words};
use compare::desk::{Desk, Store, Subject, Tally};
use compare::drive::{cycles, edges, histories, hostile, hostile_cycles, Driven};
use compare::lines::{ClockedLines, Lines};
use compare::queues::{Ask, Bucket, ClockedCluster, ClockedTree, Cluster, Tree};
use models::boundary::told;
use models::{element, No};

/// The tests of a queue of one operation at a time, and of a machine whose records have so many numbers.
macro_rules! driven {
    ($($name:ident: $queue:ty, $stream:expr;)*) => {$(
        mod $name {
            use super::*;

            #[test]
            fn histories_beside_the_list() {
                histories::<$queue, 0>($stream, 4000);
            }

            #[test]
            fn hostile_calls() {
                hostile::<$queue, 0>($stream + 1, 8000);
            }

            #[test]
            fn shapes_at_their_edges() {
                edges::<$queue, 0>(&[Ask::Pop(3), Ask::Push(element(5, 50, 500)), Ask::Replace(element(6, 60, 600), 3), Ask::Held(1)]);
            }
        }
    )*};
}

macro_rules! by_cycles {
    ($($name:ident: $queue:ty, $records:literal, $stream:expr;)*) => {$(
        mod $name {
            use super::*;

            #[test]
            fn histories_beside_the_list() {
                cycles::<$queue, $records>($stream, 4000);
            }

            #[test]
            fn hostile_calls() {
                hostile_cycles::<$queue, $records>($stream + 1, 12_000);
            }

            #[test]
            fn shapes_at_their_edges() {
                edges::<$queue, $records>(&[Ask::Cycle(1, element(5, 50, 500), 3), Ask::Cycle(2, element(0, 0, 0), 3), Ask::Drain(9, 2), Ask::Held(1)]);
            }
        }
    )*};
}

driven! {
    tree: Tree, 2000;
    cluster: Cluster, 2010;
    bucket: Bucket, 2020;
    lines_kind_1: Lines<1>, 2050;
    lines_kind_2: Lines<2>, 2060;
}

by_cycles! {
    clocked_tree: ClockedTree, 5, 2030;
    clocked_cluster: ClockedCluster, 6, 2040;
    clocked_lines_kind_1: ClockedLines<1>, 5, 2070;
    clocked_lines_kind_2: ClockedLines<2>, 5, 2080;
}

/// The library's sizes are the wrapper's constants.
#[test]
fn sizes() {
    for places in (0..20).chain([1 << 31, u32::MAX]) {
        for levels in (0..17).chain([31, 32, 33, 64, u32::MAX]) {
            let words = (calls::cluster_words(places, levels) as usize, calls::tree_words(places, levels) as usize);
            assert_eq!(words, (cluster_words(places, levels), tree_words(places, levels)), "{places}, {levels}");
        }
    }
    assert_eq!((Tree::room((4, 3)), Cluster::room((5, 2)), Bucket::room((3, 9))), (84, 15, 9));
}

/// A library that is wrong in one way.
#[derive(Clone, Copy, PartialEq, Debug)]
enum Wrong {
    Nothing,
    Number,
    Out,
    OutBehind,
    Word,
    WordBehind,
    Bits,
    State,
    Record,
}

/// A tree's pop, made by the model on both sides, and then something wrong.
struct Spoilt;

impl Subject for Spoilt {
    type Store = Store<5>;
    type Call = Wrong;
    const CALLS: &'static [&'static str] = &["pop"];

    fn kind(_: &Wrong) -> usize {
        0
    }
    fn out(wrong: &Wrong) -> usize {
        if *wrong == Wrong::OutBehind {
            4
        } else {
            3
        }
    }
    fn library(wrong: &Wrong, store: &mut Store<5>, out: &mut [u32]) -> u32 {
        let number = Spoilt::model(wrong, store, out).map_or_else(No::number, |()| 0);
        match wrong {
            Wrong::Nothing => {}
            Wrong::Number => return 6 - number,
            Wrong::Out => out[2] ^= 1,
            Wrong::OutBehind => out[3] ^= 1,
            Wrong::Word => store.words[7] ^= 1,
            Wrong::WordBehind => {
                store.words.lengthen(1);
                *store.words.last_mut().unwrap() ^= 1;
                store.words.shorten(1);
            }
            Wrong::Bits => store.bits[1] ^= 1,
            Wrong::State => store.state[0] ^= 1,
            Wrong::Record => store.records[0][4] ^= 1,
        }
        number
    }
    fn model(_: &Wrong, store: &mut Store<5>, out: &mut [u32]) -> Result<(), No> {
        told(out, || models::tree::pop(&mut store.words, store.shape[0], store.shape[1]))
    }
}

/// The desk finds whatever is wrong: the number, `out`, a word of any slice or one behind it, a record.
#[test]
fn what_is_wrong_is_found() {
    let words = vec![5, 50, 500, 1, 0, 0, 0, 0];
    let (bits, state, records) = (vec![1, 2].into(), vec![3].into(), vec![[1, 2, 3, 4, 5]].into());
    let desk = Desk::<Spoilt>::new(Store { bits, state, records, ..Store::of((2, 1), words) });
    let mut tally = Tally::of::<Spoilt>();
    let mut told = |wrong| desk.clone().made(&mut tally, &wrong, true);
    assert_eq!(told(Wrong::Nothing), Ok(0));
    let found = [
        (Wrong::Number, "answered number 6, the model says 0"),
        (Wrong::Out, "out word 2: 501, the model says 500"),
        (Wrong::OutBehind, "out word 3"),
        (Wrong::Word, "word 7: 1, the model says 0"),
        (Wrong::WordBehind, "word 8"),
        (Wrong::Bits, "word of bits 1: 3, the model says 2"),
        (Wrong::State, "word of the state 0: 2, the model says 3"),
        (Wrong::Record, "record 0: [1, 2, 3, 4, 4], the model says [1, 2, 3, 4, 5]"),
    ];
    for (wrong, what) in found {
        let said = told(wrong).unwrap_err();
        assert!(said.contains(what), "{wrong:?}: {said}");
    }
    assert_eq!((tally.calls, tally.rows[0].numbers[0]), (9, 9));
}
