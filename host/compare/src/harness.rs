//! The desk of the tree, the bucket queue and the clocked tree: beside what every desk counts, events that a number does not show; the
//! first difference is kept.

use crate::desk::{Desk, Tally, Who};
use crate::side::{Side, Trees};
use models::call::{Call, Op, Record};
use models::{bucket, shape_cause, tree, No};

/// Things that a single call's number does not show, each to be met at least once.
#[derive(Clone, Copy, PartialEq, Eq, Debug)]
pub enum Event {
    DrainDamagedAtOnce,
    DrainDamagedLater,
    DrainNoBudget,
    DrainNoBudgetBadNode,
    DrainBudgetSpent,
    DrainBudgetExact,
    DrainNothingMarkOn,
    DamagedMarkOn,
    TreeReplaceLower,
    NothingWithNumbers,
    NothingWithNumbersLoaded,
    DrainNothingWithNumbers,
    DrainNothingWithNumbersLoaded,
    RecordsPast,
    BoundaryAndShape,
    DrainRefusedShapeWorkPending,
    RefusedWorkMoves,
    BucketReplaceFull,
    BucketReplaceSameBucket,
    BucketReplaceLower,
    TreeReplaceFull,
    BucketUntaggedDamaged,
    TreeUntaggedDamaged,
    UntaggedTooSoon,
    UntaggedFullOrEmpty,
}

pub const EVENTS: [(Event, &str); 25] = [
    (Event::DrainDamagedAtOnce, "drain refused 2 with no cycle run"),
    (Event::DrainDamagedLater, "drain refused 2 after a cycle or more"),
    (Event::DrainNoBudget, "drain with budget 0 and work pending"),
    (Event::DrainNoBudgetBadNode, "drain with budget 0 and a record that names no node"),
    (Event::DrainBudgetSpent, "drain that spends its budget and leaves work"),
    (Event::DrainBudgetExact, "drain whose last work ends with its budget"),
    (Event::DrainNothingMarkOn, "drain with nothing pending and the mark on"),
    (Event::DamagedMarkOn, "pop or replace with the mark on, refused 2"),
    (Event::TreeReplaceLower, "tree replace, called or by a cycle, of a rank below all held"),
    (Event::NothingWithNumbers, "cycle that ran, and a record of nothing with other numbers stands"),
    (Event::NothingWithNumbersLoaded, "cycle that loaded a record of nothing with other numbers"),
    (Event::DrainNothingWithNumbers, "drain of a cycle or more, and a record of nothing with other numbers stands"),
    (
        Event::DrainNothingWithNumbersLoaded,
        "drain in which a record of nothing with other numbers was loaded, and ended as zeros",
    ),
    (Event::RecordsPast, "cycle that ran with a kind above 3 past the last level"),
    (Event::BoundaryAndShape, "a boundary's fault and a bad shape at once"),
    (Event::DrainRefusedShapeWorkPending, "drain refused 1 with work pending"),
    (Event::RefusedWorkMoves, "cycle refused 3, 5, 6 or 7 in which pending work moved"),
    (Event::BucketReplaceFull, "bucket replace on a full queue"),
    (Event::BucketReplaceSameBucket, "bucket replace into the bucket that it popped from"),
    (Event::BucketReplaceLower, "bucket replace of a rank below all held"),
    (Event::TreeReplaceFull, "tree replace on a full queue"),
    (Event::BucketUntaggedDamaged, "bucket push or replace with tag 0 on a damaged store, refused 7"),
    (Event::TreeUntaggedDamaged, "tree push or replace with tag 0, called or by a cycle, refused 2"),
    (Event::UntaggedTooSoon, "cycle replace with tag 0 and the mark on, refused 3"),
    (Event::UntaggedFullOrEmpty, "push with tag 0 on a full queue or replace with tag 0 on an empty one, refused 7"),
];

pub struct Harness {
    pub desk: Desk<Trees>,
    pub tally: Tally,
    pub events: [u64; 25],
    pub failed: Option<String>,
}

impl Harness {
    pub fn new(who: Who) -> Harness {
        let desk = Desk { who, ..Desk::new(Side::new(0, 0, 0)) };
        Harness { desk, tally: Tally::of::<Trees>(), events: [0; 25], failed: None }
    }

    /// Both sides as this one.
    pub fn set(&mut self, side: &Side) {
        self.desk.library.copy_from(side);
        self.desk.model.copy_from(side);
    }

    pub fn fail(&mut self, what: String) {
        if self.failed.is_none() {
            self.failed = Some(what);
        }
    }

    pub fn event(&mut self, event: Event) {
        self.events[event as usize] += 1;
    }

    /// Makes the call on both sides and compares everything. None where they differ (the first
    /// difference is kept), else the number.
    pub fn call(&mut self, k: &Call) -> Option<u32> {
        self.compared(k, true)
    }

    /// .. and compares the number and `out` alone: for many calls in a row on a large store. The words are compared by the next call
    /// that compares everything.
    pub fn answers(&mut self, k: &Call) -> Option<u32> {
        self.compared(k, false)
    }

    fn compared(&mut self, k: &Call, everything: bool) -> Option<u32> {
        let before = Before::of(&self.desk.model, k);
        let made = self.desk.made(&mut self.tally, k, everything);
        let expected = self.desk.refused.map_or(0, No::number);
        self.count(k, expected, &before);
        match made {
            Ok(number) => Some(number),
            Err(what) => {
                self.fail(format!("{} {what}\n      {}", k.text(), before.text(&self.desk.model, k)));
                None
            }
        }
    }

    /// What the last call left in `out`.
    pub fn out(&self) -> [u32; 4] {
        self.desk.outs[1]
    }

    /// The element that the last call answered.
    pub fn answer(&self) -> models::Element {
        models::element(self.out()[0], self.out()[1], self.out()[2])
    }

    fn count(&mut self, k: &Call, number: u32, before: &Before) {
        if let Some(No::BadShape(c)) = self.desk.refused {
            if c & shape_cause::BOUNDARY != 0 && c & !shape_cause::BOUNDARY != 0 {
                self.event(Event::BoundaryAndShape);
            }
        }
        let (cycles, left) = (self.out()[0], self.out()[1] == 1);
        if k.op == Op::ClockedDrain {
            match number {
                0 if k.budget == 0 && before.pending => {
                    self.event(Event::DrainNoBudget);
                    if before.bad_node {
                        self.event(Event::DrainNoBudgetBadNode);
                    }
                }
                0 if cycles > 0 && left => self.event(Event::DrainBudgetSpent),
                0 if cycles > 0 && cycles == k.budget => self.event(Event::DrainBudgetExact),
                0 if cycles == 0 && !left && before.mark == 1 => self.event(Event::DrainNothingMarkOn),
                1 if before.pending => self.event(Event::DrainRefusedShapeWorkPending),
                2 if cycles == 0 => self.event(Event::DrainDamagedAtOnce),
                2 => self.event(Event::DrainDamagedLater),
                _ => {}
            }
            if cycles > 0 {
                for &(at, was) in &before.nothing_with_numbers {
                    match self.desk.model.records[at] {
                        now if now == was => self.event(Event::DrainNothingWithNumbers),
                        [0, 0, 0, 0, 0] => self.event(Event::DrainNothingWithNumbersLoaded),
                        _ => {}
                    }
                }
            }
        }
        if k.op.is_cycle() {
            let asks = k.op == Op::CyclePop || k.op == Op::CycleReplace;
            if asks && number == 2 && before.mark == 1 {
                self.event(Event::DamagedMarkOn);
            }
            let ran = number != 1 && number != 2;
            for &(at, was) in before.nothing_with_numbers.iter().filter(|_| ran) {
                let stands = self.desk.model.records[at] == was;
                self.event(if stands { Event::NothingWithNumbers } else { Event::NothingWithNumbersLoaded });
            }
            if ran && before.past {
                self.event(Event::RecordsPast);
            }
            if number >= 3 && before.pending {
                self.event(Event::RefusedWorkMoves);
            }
        }
        if k.op == Op::BucketReplace && number == 0 {
            if before.full {
                self.event(Event::BucketReplaceFull);
            }
            if k.rank == self.out()[0] {
                self.event(Event::BucketReplaceSameBucket);
            }
            if k.rank < self.out()[0] {
                self.event(Event::BucketReplaceLower);
            }
        }
        if k.op == Op::TreeReplace && number == 0 && before.full {
            self.event(Event::TreeReplaceFull);
        }
        let replaces = matches!(k.op, Op::TreeReplace | Op::BucketReplace | Op::CycleReplace);
        let pushes = matches!(k.op, Op::TreePush | Op::BucketPush | Op::CyclePush);
        if (replaces || pushes) && k.tag == 0 {
            match number {
                2 => self.event(Event::TreeUntaggedDamaged),
                3 => self.event(Event::UntaggedTooSoon),
                7 if before.damaged => self.event(Event::BucketUntaggedDamaged),
                7 if (pushes && before.full) || (replaces && before.empty) => self.event(Event::UntaggedFullOrEmpty),
                _ => {}
            }
        }
        let lower = number == 0 && k.rank < self.out()[0];
        if lower && (k.op == Op::TreeReplace || k.op == Op::CycleReplace) {
            self.event(Event::TreeReplaceLower);
        }
    }
}

/// What the count of a call needs to know of the state before it.
struct Before {
    pending: bool,
    bad_node: bool,
    /// The records of nothing with other numbers, and where they stand.
    nothing_with_numbers: Vec<(usize, Record)>,
    past: bool,
    mark: u32,
    full: bool,
    empty: bool,
    /// A bucket queue that fails the tests of the whole queue.
    damaged: bool,
    /// The words before the call, where they are few enough to be shown.
    shown: Option<(Vec<u32>, Vec<Record>, u32)>,
}

impl Before {
    fn of(side: &Side, k: &Call) -> Before {
        let mut b = Before {
            pending: false,
            bad_node: false,
            nothing_with_numbers: Vec::new(),
            past: false,
            mark: 0,
            full: false,
            empty: false,
            damaged: false,
            shown: None,
        };
        if k.op.is_bucket() {
            match bucket::held(&side.bits[..k.bits], &side.words[..k.words], k.storeys, k.nodes) {
                Ok(held) => (b.full, b.empty) = (held == k.nodes, held == 0),
                Err(no) => b.damaged = matches!(no, No::Damaged(_)),
            }
        } else if let (Some(shape), Ok(held)) =
            (tree::Shape::new(k.order, k.levels), tree::held(&side.words[..k.words], k.order, k.levels))
        {
            (b.full, b.empty) = (held as u64 == shape.capacity(), held == 0);
        }
        if k.op.is_machine() {
            b.mark = side.mark[0];
            if let Some(shape) = tree::Shape::new(k.order, k.levels) {
                let need = shape.levels as usize - 1;
                if k.records >= need {
                    for (i, r) in side.records[..need].iter().enumerate() {
                        b.pending |= r[0] != 0;
                        b.bad_node |= r[0] != 0 && r[1] as u64 >= shape.nodes(i as u64 + 2);
                        if r[0] == 0 && *r != [0; 5] {
                            b.nothing_with_numbers.push((i, *r));
                        }
                    }
                    b.past = k.records > need && side.records[need][0] > 3;
                }
            }
        }
        if !k.op.is_bucket() && side.words.len() <= 160 {
            b.shown = Some((side.words.clone(), side.records.clone(), side.mark[0]));
        }
        b
    }

    /// The words that the call was made on, where they can be shown.
    fn text(&self, side: &Side, k: &Call) -> String {
        let (words, records) = (&side.words[..k.words], &side.records[..k.records]);
        if k.op.is_bucket() {
            let ranks = bucket::ranks(k.storeys);
            let named = |i: usize| match i / ranks {
                0 => format!("head {i}"),
                1 => format!("tail {}", i - ranks),
                _ => format!("word {i}"),
            };
            let set = (0..k.words).filter(|&i| words[i] != 0).take(60);
            let words: Vec<String> = set.map(|i| format!("{} = {}", named(i), words[i])).collect();
            let set = (0..k.bits).filter(|&i| side.bits[i] != 0).take(20);
            let bits: Vec<String> = set.map(|i| format!("{i} = {:#x}", side.bits[i])).collect();
            return format!("the model's words after, that are not 0: {}; bits {}", words.join(", "), bits.join(", "));
        }
        match &self.shown {
            None => String::from("(the store is too large to be shown)"),
            Some((words_before, records_before, mark)) => {
                let mut s = format!("store before {:?}", &words_before[..k.words]);
                if k.op.is_machine() {
                    s += &format!(" records {:?} mark {mark}", &records_before[..k.records]);
                }
                s += &format!("\n      the model's store after {words:?}");
                if k.op.is_machine() {
                    s += &format!(" records {records:?} mark {}", side.mark[0]);
                }
                s
            }
        }
    }
}
