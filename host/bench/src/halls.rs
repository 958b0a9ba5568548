//! Five ports on one pool beside five queues: the card's own, and ordered maps.

use crate::clock::Clock;
use crate::count::bytes_of;
use crate::measure::{race, Contestant, Rng, Work};
use crate::queues::{bare, fold, wrapped, MapQueue, Op, Queue, Strip};
use crate::table::{Plan, Row};
use crate::traces::strip;
use card_host::{BucketQueue, Limits, PortsQueue};

pub const PORTS: usize = 5;
pub const NODES: u32 = 4096;
const HELD: usize = 4000;

/// What is asked of a port.
pub type Ask = (u8, Op);

/// Five queues under one name.
pub trait Halls {
    fn clear(&mut self);
    fn push(&mut self, port: u8, x: Strip);
    fn pop(&mut self, port: u8) -> Strip;
    fn replace(&mut self, port: u8, x: Strip) -> Strip;
}

/// Each may always hold a tenth of the pool, and up to the whole of it.
pub const LIMITS: [Limits; PORTS] = [Limits { floor: NODES / 10, ceiling: NODES }; PORTS];

impl Halls for PortsQueue {
    fn clear(&mut self) {
        PortsQueue::clear(self, &LIMITS).expect("clear");
    }
    #[inline]
    fn push(&mut self, port: u8, x: Strip) {
        self.port(port as u32).push(wrapped(x)).expect("push");
    }
    #[inline]
    fn pop(&mut self, port: u8) -> Strip {
        bare(self.port(port as u32).pop().expect("pop"))
    }
    #[inline]
    fn replace(&mut self, port: u8, x: Strip) -> Strip {
        bare(self.port(port as u32).replace(wrapped(x)).expect("replace"))
    }
}

impl<Q: Queue> Halls for [Q; PORTS] {
    fn clear(&mut self) {
        self.iter_mut().for_each(Queue::clear);
    }
    #[inline]
    fn push(&mut self, port: u8, x: Strip) {
        self[port as usize].push(x);
    }
    #[inline]
    fn pop(&mut self, port: u8) -> Strip {
        self[port as usize].pop()
    }
    #[inline]
    fn replace(&mut self, port: u8, x: Strip) -> Strip {
        self[port as usize].replace(x)
    }
}

/// Halls that take part.
pub struct Player<H>(pub H);

#[inline]
fn play<H: Halls>(halls: &mut H, trace: &[Ask]) -> u64 {
    let mut answers = 0;
    for &(port, op) in trace {
        match op {
            Op::Push(x) => halls.push(port, x),
            Op::Pop => answers = fold(answers, halls.pop(port), true),
            Op::Replace(x) => answers = fold(answers, halls.replace(port, x), true),
        }
    }
    answers
}

impl<H: Halls> Contestant<Ask> for Player<H> {
    fn ready(&mut self, fill: &[Ask]) {
        self.0.clear();
        play(&mut self.0, fill);
    }
    fn run(&mut self, trace: &[Ask]) -> u64 {
        play(&mut self.0, trace)
    }
}

fn any_port(rng: &mut Rng) -> u8 {
    rng.below(PORTS as u32) as u8
}

/// As much at each port, so that none is ever empty.
fn fill(rng: &mut Rng, mut rank: impl FnMut(&mut Rng) -> u32) -> Vec<Ask> {
    (0..HELD).map(|n| ((n % PORTS) as u8, Op::Push(strip(rank(rng), n)))).collect()
}

/// Pops, each with a push at the same port after it, whose rank `rank` chooses from what came out.
fn refilled(rng: &mut Rng, fill: Vec<Ask>, operations: usize, rank: impl Fn(&mut Rng, u32) -> u32) -> Work<Ask> {
    let mut halls: [MapQueue; PORTS] = Default::default();
    play(&mut halls, &fill);
    let mut trace = Vec::new();
    for n in 0..operations / 2 {
        let port = any_port(rng);
        let given = halls[port as usize].pop().0;
        let x = strip(rank(rng, given), n);
        halls[port as usize].push(x);
        trace.extend([(port, Op::Pop), (port, Op::Push(x))]);
    }
    Work { fill, trace }
}

/// Ranks all over, at any port.
pub fn spread(rng: &mut Rng, operations: usize) -> Work<Ask> {
    let fill = fill(rng, |rng| rng.below(4096));
    refilled(rng, fill, operations, |rng, _| rng.below(4096))
}

/// Replaces at any port; they take twice as long.
pub fn replace(rng: &mut Rng, operations: usize) -> Work<Ask> {
    let fill = fill(rng, |rng| rng.below(4096));
    let trace = (0..operations / 2).map(|n| (any_port(rng), Op::Replace(strip(rng.below(4096), n)))).collect();
    Work { fill, trace }
}

/// A row beside each of the two: the same work for both.
fn row<H: Halls>(
    plan: &Plan,
    all: &mut Vec<Row>,
    name: &str,
    (other, other_bytes): (impl Fn() -> H, impl Fn(&[Ask]) -> usize),
    work: impl Fn(&mut Rng) -> Work<Ask>,
) {
    if !plan.wants(name) {
        return;
    }
    let mut rng = Rng::new(6);
    let mut card = Player(PortsQueue::new(2, NODES, &LIMITS).expect("a good shape"));
    let mut beside = Player(other());
    let pair = race(plan.rounds, Clock::Own, &mut card, &mut beside, || work(&mut rng));
    let fill = work(&mut rng).fill;
    let card_bytes = 8 * card.0.bits().len() + 4 * card.0.words().len();
    all.push(Row { name: name.to_string(), pair, card_bytes, other_bytes: other_bytes(&fill) });
}

/// Each input beside five bucket queues, then beside five maps, 4,000 held in all.
pub fn rows(plan: &Plan) -> Vec<Row> {
    let mut all = Vec::new();
    let operations = plan.operations;
    // each of the separate queues has room for as much as a port may hold
    let queues = || [(); PORTS].map(|()| BucketQueue::new(2, NODES).expect("a good shape"));
    let queue_bytes = |_: &[Ask]| PORTS * (8 * queues()[0].bits().len() + 4 * queues()[0].words().len());
    let maps = || -> [MapQueue; PORTS] { Default::default() };
    let map_bytes = |fill: &[Ask]| {
        bytes_of(|| {
            let mut halls = maps();
            play(&mut halls, fill);
            halls
        })
    };
    let spread = |rng: &mut Rng| spread(rng, operations);
    let window = |rng: &mut Rng| {
        let fill = fill(rng, |rng| rng.below(512));
        refilled(rng, fill, operations, |rng, given| (given + rng.below(512)).min(4095))
    };
    let replace = |rng: &mut Rng| replace(rng, operations);
    row(plan, &mut all, "five ports, spread ranks, beside five queues", (queues, queue_bytes), spread);
    row(plan, &mut all, "five ports, spread ranks, beside five maps", (maps, map_bytes), spread);
    row(plan, &mut all, "five ports, a window of 512, beside five queues", (queues, queue_bytes), window);
    row(plan, &mut all, "five ports, a window of 512, beside five maps", (maps, map_bytes), window);
    row(plan, &mut all, "five ports, replace, beside five queues", (queues, queue_bytes), replace);
    row(plan, &mut all, "five ports, replace, beside five maps", (maps, map_bytes), replace);
    all
}
