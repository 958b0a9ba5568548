//! The lines, beside an ordered map and beside the bucket queue.

use crate::clock::Clock;
use crate::count::bytes_of;
use crate::measure::{race, Rng, Work};
use crate::queues::{bare, filled, wrapped, MapQueue, Op, Player, Queue, Strip};
use crate::table::{Plan, Row};
use crate::traces::{pushes, refilled, replaced};
use card_host::{BucketQueue, LinesQueue};

impl Queue for LinesQueue {
    fn clear(&mut self) {
        LinesQueue::clear(self).expect("clear");
    }
    #[inline]
    fn push(&mut self, x: Strip) {
        LinesQueue::push(self, wrapped(x)).expect("push");
    }
    #[inline]
    fn pop(&mut self) -> Strip {
        bare(LinesQueue::pop(self).expect("pop"))
    }
    #[inline]
    fn replace(&mut self, x: Strip) -> Strip {
        bare(LinesQueue::replace(self, wrapped(x)).expect("replace"))
    }
}

/// Lines of a shape, so many held, and ranks below this number.
#[derive(Clone, Copy)]
struct Case {
    name: &'static str,
    shape: (u32, u32, u32),
    held: usize,
    ranks: u32,
}

/// One row beside a queue. First in, first out is the same in both, but in more than one line of kind 2.
fn beside<Q: Queue>(plan: &Plan, all: &mut Vec<Row>, case: Case, what: &str, other: impl Fn() -> Q) {
    let Case { shape: (kind, lines, places), held, ranks, .. } = case;
    let name = format!("lines, {}, {what}", case.name);
    if !plan.wants(&name) {
        return;
    }
    let whole = kind == 1 || lines == 1;
    let mut rng = Rng::new(3);
    let mut card = Player { queue: LinesQueue::new(kind, lines, places).expect("a good shape"), whole };
    let mut player = Player { queue: other(), whole };
    // few enough that the lines of the highest ranks do not run over
    let operations = plan.operations.min(4 * held).min(1600);
    let mut work = || -> Work<Op> {
        let fill = pushes(held, || rng.below(ranks));
        match what.starts_with("replace") {
            true => replaced(fill, operations / 2, |given| given + rng.below(ranks - given)),
            false => refilled(fill, operations, |_| rng.below(ranks)),
        }
    };
    let pair = race(plan.rounds, Clock::Own, &mut card, &mut player, &mut work);
    let fill = work().fill;
    all.push(Row {
        name,
        pair,
        card_bytes: 4 * card.queue.words().len(),
        other_bytes: bytes_of(|| filled(other(), &fill)),
    });
}

const CASES: [Case; 6] = [
    Case { name: "one of 64", shape: (1, 1, 64), held: 60, ranks: 4096 },
    Case { name: "one of 1,024", shape: (1, 1, 1024), held: 1000, ranks: 4096 },
    Case { name: "kind 1, 64 of 64", shape: (1, 64, 64), held: 1200, ranks: 65_536 },
    Case { name: "kind 2, 64 of 64", shape: (2, 64, 64), held: 4000, ranks: 65_536 },
    Case { name: "kind 2, 4 of 1,024", shape: (2, 4, 1024), held: 4000, ranks: 65_536 },
    Case { name: "kind 2, 512 of 8", shape: (2, 512, 8), held: 4000, ranks: 65_536 },
];

/// Push and pop, and replace, beside the map; then push and pop beside the bucket queue that has as many ranks.
pub fn rows(plan: &Plan) -> Vec<Row> {
    let mut all = Vec::new();
    for case in CASES {
        beside(plan, &mut all, case, "push and pop", MapQueue::default);
        // of kind 1 a replace may find the line of its rank full
        if case.shape.0 == 2 || case.shape.1 == 1 {
            beside(plan, &mut all, case, "replace", MapQueue::default);
        }
    }
    for case in CASES {
        let storeys = if case.ranks > 4096 { 3 } else { 2 };
        let bucket = || BucketQueue::new(storeys, 4096).expect("a good shape");
        beside(plan, &mut all, case, "push and pop, beside the bucket queue", bucket);
    }
    all
}
