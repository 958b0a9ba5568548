//! The library's several ports on one pool held to the plain model, call by call and word by word: histories from a clearing, beside plain
//! lists; words and numbers that no call has written; and the wrapper as its users use it.

use card_host::{
    calls, ports_bits, ports_words, BucketQueue, Element, Length, Limits, Ports, PortsQueue, Rank, Refusal, Tag,
};
use compare::desk::{self, Store, Tally};
use compare::queues::{self, Ask, PortsAsk};
use models::bucket::cause as b;
use models::element;
use models::ports::{self, cause, Lent, Plain, Shape};
use models::rng::{seed, Rng};

/// A store of several ports on both sides.
#[derive(Clone)]
struct Desk(desk::Desk<queues::Ports>);

fn tally() -> Tally {
    Tally::of::<queues::Ports>()
}

impl Desk {
    fn new(storeys: u32, nodes: u32, ports: u32, bits: Vec<u64>, words: Vec<u32>) -> Desk {
        let shape = [storeys, nodes, ports];
        Desk(desk::Desk::new(Store { shape, bits: bits.into(), ..Store::of((storeys, nodes), words) }))
    }

    /// A store that is cleared, with some words behind.
    fn fresh(storeys: u32, nodes: u32, limits: &[u32]) -> Desk {
        let ports = limits.len() as u32 / 2;
        let (bits, words) = (ports_bits(storeys, ports) + 1, ports_words(storeys, nodes, ports) + 2);
        let mut desk = Desk::new(storeys, nodes, ports, vec![7; bits], vec![7; words]);
        assert_eq!(desk.clear(limits), 0);
        desk
    }

    fn clear(&mut self, limits: &[u32]) -> u32 {
        self.0.both(&mut tally(), PortsAsk::Clear(limits.to_vec())).0
    }

    /// One call on both sides. Gives the number and `out`.
    fn both(&mut self, tally: &mut Tally, port: u32, ask: Ask) -> (u32, Vec<u32>) {
        self.0.both(tally, PortsAsk::At(port, ask))
    }

    fn shape(&self) -> [u32; 3] {
        self.0.library.shape
    }

    fn ports(&self) -> u32 {
        self.shape()[2]
    }

    fn words(&self) -> &[u32] {
        &self.0.library.words
    }

    fn bits(&self) -> &[u64] {
        &self.0.library.bits
    }
}

fn words_of(x: models::Element) -> Vec<u32> {
    vec![x.rank, x.tag, x.length]
}

/// Nodes, and a floor and a ceiling for each port.
const HALLS: [(u32, &[u32]); 8] = [
    (1, &[0, 1]),
    (3, &[1, 3, 0, 9]),
    (3, &[3, 3, 0, 1]),
    (10, &[2, 5, 2, 10, 0, 4, 1, 1, 0, 0]),
    (64, &[10, 64, 10, 64, 10, 20, 10, 10, 0, u32::MAX]),
    (40, &[0, 40]),
    (20, &[0, 20, 0, 20]),
    (48, &[1, 48, 2, 8, 3, 3, 0, 9, 5, 5, 1, 9, 0, 9, 0, 9, 0, 9, 2, 2, 0, 5, 1, 9, 0, 9, 0, 9, 0, 9, 3, 20]),
];

/// A rank of few or of many, the last too, and seldom one above it.
fn some_rank(rng: &mut Rng, ranks: u32) -> u32 {
    match rng.below(12) {
        0 => ranks - 1,
        1 => ranks + rng.below(2) as u32,
        2..=4 => rng.below(ranks as u64) as u32,
        _ => 64 * rng.below(3) as u32 + rng.below(3) as u32,
    }
}

/// Histories from a clearing, every port beside its plain list; longer stretches of pushes, then of pops.
fn history(rng: &mut Rng, storeys: u32, nodes: u32, limits: &[u32], rounds: u32, tally: &mut Tally) {
    let mut desk = Desk::fresh(storeys, nodes, limits);
    let mut plain = Plain::new(storeys, nodes, limits);
    let count = desk.ports();
    for n in 0..rounds {
        let known = count as u64 + rng.once_in(9) as u64;
        let port = rng.below(known) as u32;
        let tag = if rng.once_in(20) { 0 } else { n + 1 };
        let x = element(some_rank(rng, plain.ranks), tag, rng.word());
        let filling = n / 150 % 2 == 0;
        let ask = match rng.below(10) {
            0..=3 if filling => Ask::Push(x),
            0..=3 => Ask::Pop(3),
            4 | 5 => Ask::Push(x),
            6 => Ask::Pop(3),
            7 | 8 => Ask::Replace(x, 3),
            _ => Ask::Held(1),
        };
        let got = desk.both(tally, port, ask);
        let at = port as usize;
        let element = |answer: Result<models::Element, u32>| match answer {
            Ok(e) => (0, words_of(e)),
            Err(number) => (number, vec![0; 3]),
        };
        let expected = match ask {
            Ask::Held(_) if port == count => (8, vec![0]),
            Ask::Push(_) if port == count => (8, vec![]),
            _ if port == count => (8, vec![0; 3]),
            Ask::Push(x) => (plain.push(at, x), vec![]),
            Ask::Pop(_) => element(plain.pop(at)),
            Ask::Replace(x, _) => element(plain.replace(at, x)),
            _ => (0, vec![plain.ports[at].2.held() as u32]),
        };
        assert_eq!(got, expected, "{ask:?} at port {port}, {nodes} nodes, {limits:?}");
    }
}

#[test]
fn histories() {
    let mut rng = Rng::new(seed(), 800);
    let mut tally = tally();
    for (nodes, limits) in HALLS {
        history(&mut rng, 2, nodes, limits, 2000, &mut tally);
    }
    for (nodes, limits) in [HALLS[1], HALLS[3], (65_536, &[5, 9, 0, 65_536])] {
        history(&mut rng, 3, nodes, limits, 120, &mut tally);
    }
    tally.gave(&[&[], &[0, 4, 5, 7, 8], &[0, 6, 8], &[0, 4, 6, 7, 8], &[0, 8]]);
}

/// What the others do can touch the yes or no of a port's push above its floor, and nothing else: two histories that agree in a port's
/// requests give it the same answers as long as its pushes are accepted at the same places.
#[test]
fn a_port_is_apart() {
    let mut rng = Rng::new(seed(), 801);
    let mut tally = tally();
    let (mut asked, mut parted) = (0, 0);
    for round in 0..60 {
        let (nodes, limits) = HALLS[1 + round % 4];
        let (mut one, mut other) = (Desk::fresh(2, nodes, limits), Desk::fresh(2, nodes, limits));
        let count = one.ports() as u64;
        let mine = rng.below(count) as u32;
        for n in 0..200 {
            for desk in [&mut one, &mut other] {
                for _ in 0..rng.below(3) {
                    let port = (mine + 1 + rng.below(count - 1) as u32) % count as u32;
                    let x = element(rng.below(70) as u32, 1 + n, 64);
                    let ask = rng.pick(&[Ask::Push(x), Ask::Push(x), Ask::Pop(3), Ask::Replace(x, 3)]);
                    desk.both(&mut tally, port, ask);
                }
            }
            let x = element(rng.below(70) as u32, 1 + n, rng.word());
            let ask = rng.pick(&[Ask::Push(x), Ask::Push(x), Ask::Pop(3), Ask::Replace(x, 3), Ask::Held(1)]);
            let held = one.words()[Shape::new(2, nodes, one.ports()).unwrap().held(mine)];
            let (a, b) = (one.both(&mut tally, mine, ask), other.both(&mut tally, mine, ask));
            asked += 1;
            if a != b {
                // a push above the floor and below the ceiling, taken in one and full in the other
                assert!(matches!(ask, Ask::Push(_)) && a.0 + b.0 == 5, "{ask:?}: {a:?} and {b:?}");
                assert!(held >= limits[2 * mine as usize] && held < limits[2 * mine as usize + 1]);
                parted += 1;
                break;
            }
        }
    }
    assert!(asked > 1000 && parted > 0, "{asked} requests, {parted} histories parted");
}

/// One port with floor and ceiling N has the words of a bucket queue, with floor and ceiling behind them.
#[test]
fn one_port_is_a_bucket_queue() {
    let mut rng = Rng::new(seed(), 802);
    for (storeys, nodes, rounds) in [(2, 50, 2000), (3, 20, 100)] {
        let mut queue = BucketQueue::new(storeys, nodes).unwrap();
        let mut ports = PortsQueue::new(storeys, nodes, &[Limits { floor: nodes, ceiling: nodes }]).unwrap();
        for n in 0..rounds {
            let rank = Rank(some_rank(&mut rng, 64u32.pow(storeys)));
            let x = Element::new(rank, Tag(if rng.once_in(20) { 0 } else { n + 1 }), Length(n));
            let mut port = ports.port(0);
            match rng.below(5) {
                0 | 1 => assert_eq!(queue.push(x), port.push(x)),
                2 => assert_eq!(queue.pop(), port.pop()),
                3 => assert_eq!(queue.replace(x), port.replace(x)),
                _ => assert_eq!(queue.held(), port.held()),
            }
            let words = queue.words().len();
            assert!(queue.bits() == ports.bits() && queue.words() == &ports.words()[..words]);
            assert_eq!(ports.words()[words..], [nodes, nodes]);
        }
    }
}

/// One of a few ranks in two groups.
fn few(rng: &mut Rng) -> u32 {
    rng.pick(&[0, 1, 64, 65])
}

/// A store in use, as a history of the model's calls leaves it.
fn used(rng: &mut Rng, storeys: u32, nodes: u32, limits: &[u32]) -> Desk {
    let ports = limits.len() as u32 / 2;
    let (mut bits, mut words) = (vec![0; ports_bits(storeys, ports)], vec![0; ports_words(storeys, nodes, ports)]);
    ports::clear(&mut bits, &mut words, storeys, nodes, ports, limits).unwrap();
    for n in 0..rng.below(3 * nodes as u64 + 2) {
        let port = rng.below(ports as u64) as u32;
        let lent = Lent { bits: &mut bits, words: &mut words, storeys, nodes, ports, port };
        if rng.once_in(4) {
            let _ = lent.pop(&mut [0; 3]);
        } else {
            let _ = lent.push(element(few(rng), 1 + n as u32, 64));
        }
    }
    Desk::new(storeys, nodes, ports, bits, words)
}

/// Spoils a word that calls at a port and a rank read, which it gives: a port's three, the free link, a head, a tail, a node's next, a
/// word of bits.
fn spoil(rng: &mut Rng, desk: &mut Desk) -> (u32, u32) {
    let [storeys, n, ports] = desk.shape();
    let shape = Shape::new(storeys, n, ports).unwrap();
    let port = rng.below(ports as u64) as u32;
    let seat = shape.seat(port);
    let ranks = 64usize.pow(storeys);
    // the lowest that is held, or any
    let heads = [0, 1, 64, 65].map(|rank| (rank, desk.words()[seat.heads + rank]));
    let lowest = heads.into_iter().find(|(_, head)| *head != 0).unwrap_or_default();
    let rank = if rng.once_in(2) { lowest.0 } else { few(rng) as usize };
    if rng.below(3) == 0 {
        let lowest = match storeys {
            2 => 1 + rank / 64,
            _ => 65 + rank / 64,
        };
        let at = seat.bits + rng.pick(&[0, 0, lowest, lowest, 1]);
        let bit = 1u64 << rng.pick(&[rank % 64, rank / 64, 0, 63]);
        let to = rng.pick(&[0, desk.bits()[at] ^ bit, desk.bits()[at] | bit]);
        desk.0.change(|store| store.bits[at] = to);
        return (port, rank as u32);
    }
    let words = desk.words();
    let (free, tail) = (words[seat.free], words[seat.heads + ranks + rank]);
    // a node that the calls reach, or any
    let any = 1 + rng.below(n as u64) as u32;
    let link = rng.pick(&[free, tail, words[seat.heads + rank], any]).clamp(1, n);
    let at = match rng.below(9) {
        0 => shape.free(),
        1 | 2 => shape.held(port) + rng.below(3) as usize,
        3 | 4 => seat.heads + rank,
        5 | 6 => seat.heads + ranks + rank,
        _ => seat.nodes + 3 * (link as usize - 1) + 2,
    };
    let old = words[at];
    let any = [0, 1, n, n + 1, n + 1, free, tail, lowest.1, old.wrapping_add(1), old.wrapping_sub(1), u32::MAX];
    let to = if rng.once_in(12) { rng.word() } else { rng.pick(&any) };
    desk.0.change(|store| store.words[at] = to);
    (port, rank as u32)
}

/// Stores with words spoilt where calls read, and stores of garbage; shapes that are none, slices that are too short.
#[test]
fn hostile() {
    let mut rng = Rng::new(seed(), 803);
    let mut tally = tally();
    for round in 0..30_000 {
        let (nodes, limits) = HALLS[rng.below(4) as usize];
        let mut desk = used(&mut rng, 2, nodes, limits);
        let (mut port, mut rank) = spoil(&mut rng, &mut desk);
        for _ in 0..rng.pick(&[0, 0, 0, 1, 2]) {
            spoil(&mut rng, &mut desk);
        }
        if round % 40 == 0 {
            let small = rng.below(2) == 0;
            for at in 0..desk.words().len() {
                let word = if small { rng.below(nodes as u64 + 2) as u32 } else { rng.word() };
                desk.0.change(|store| store.words[at] = word);
            }
        }
        let kind = rng.below(40);
        let number = match kind {
            2 => rng.pick(&[0, 1, 3, 4, 1 << 31, u32::MAX]),
            3 => rng.pick(&[0, 65_537, 1 << 31, u32::MAX]),
            4 => rng.pick(&[0, 17, 1 << 31, u32::MAX]),
            _ => 0,
        };
        desk.0.change(|store| match kind {
            0 => store.words.shorten(3),
            1 => store.bits.shorten(2),
            2..=4 => store.shape[kind as usize - 2] = number,
            // another number of nodes or ports than the store was cleared for
            5 if nodes > 1 => store.shape[1] = nodes - 1,
            6 if store.shape[2] > 1 => store.shape[2] -= 1,
            _ => {}
        });
        for _ in 0..4 {
            match rng.below(30) {
                0 => port = rng.pick(&[desk.ports(), 16, 17, u32::MAX]),
                1..=4 => port = rng.below(limits.len() as u64 / 2) as u32,
                5..=9 => rank = few(&mut rng),
                10 => rank = 4096,
                _ => {}
            }
            let x = element(rank, if rng.once_in(20) { 0 } else { 7 }, rng.word());
            let ask = match rng.below(9) {
                0..=2 => Ask::Push(x),
                3 | 4 => Ask::Pop(rng.pick(&[0, 2, 3, 3, 3, 3, 4])),
                5..=7 => Ask::Replace(x, rng.pick(&[0, 2, 3, 3, 3, 3, 4])),
                _ => Ask::Held(rng.pick(&[0, 1, 1, 2])),
            };
            desk.both(&mut tally, port, ask);
        }
    }
    tally.gave(&[&[], &[0, 1, 2, 4, 5, 7, 8], &[0, 1, 2, 6, 8], &[0, 1, 2, 4, 6, 7, 8], &[0, 1, 2, 8]]);
    // each clause made each call damaged by itself
    let whole = cause::FLOOR
        | cause::CEILING
        | cause::CLAIMS
        | b::FREE
        | b::FREE_NONE
        | b::FREE_SOME
        | b::TOP_NONE
        | b::TOP_SOME;
    let links = b::HEAD_ALONE | b::TAIL_ALONE | b::BIT_ALONE | b::GROUP_SET | b::TAIL_NEXT | b::TAIL_NEXT_LINK;
    let links = links | b::HEAD_LINK | b::TAIL_LINK;
    let pop = whole | links | b::HEAD_NEXT_LINK | b::CHAIN_CUT;
    let taken = b::TAKEN_TAIL | b::TAKEN_NEXT_LINK | b::TAKEN_LAST | b::TAKEN_NOT_LAST;
    let after = (links | b::GROUP_UNSET | b::TAKEN_TAIL | b::TOP_NONE | b::TOP_SOME) << b::SECOND;
    let can = [whole | links | b::GROUP_UNSET | taken, pop, pop | after, whole];
    // that the newcomer's tail is the freed node is met alone in a full pool: `a_tail_that_is_given_back`
    let seldom = b::TAKEN_TAIL << b::SECOND;
    for (row, can) in tally.rows[1..].iter().zip(can) {
        let missed = can & !row.clauses_alone() & !seldom;
        let names: Vec<String> = (0..64).filter(|bit| missed >> bit & 1 == 1).map(name).collect();
        assert!(missed == 0, "{} was never damaged by these alone: {names:?}", row.name);
        assert_eq!(row.clauses_alone() & !can, 0, "{}", row.name);
    }
}

fn name(bit: u32) -> String {
    match bit {
        48 => "floor above the ceiling".to_string(),
        49 => "held above the ceiling".to_string(),
        50 => "claims above N".to_string(),
        _ => b::name(bit),
    }
}

/// The same at three storeys, with fewer calls: their stores are long.
#[test]
fn hostile_at_three_storeys() {
    let mut rng = Rng::new(seed(), 804);
    let mut tally = tally();
    let sound = used(&mut rng, 3, 10, &[2, 9, 1, 10]);
    for round in 0..120 {
        let mut desk = sound.clone();
        let (port, rank) = spoil(&mut rng, &mut desk);
        let x = element(rank, 7, round);
        let asks = [Ask::Push(x), Ask::Pop(3), Ask::Replace(x, 3), Ask::Held(1)];
        desk.both(&mut tally, port, asks[round as usize % 4]);
    }
    assert!(tally.rows[1..].iter().all(|row| row.numbers[2] > 0) && tally.rows[4].numbers[0] > 0);
}

/// A replace in a full pool whose newcomer would join behind the very node that the pop frees.
#[test]
fn a_tail_that_is_given_back() {
    let mut tally = tally();
    let mut desk = Desk::fresh(2, 2, &[0, 2]);
    for rank in [0, 64] {
        desk.both(&mut tally, 0, Ask::Push(element(rank, 5, 5)));
    }
    desk.0.change(|store| store.words[4096 + 64] = store.words[0]);
    assert_eq!(desk.both(&mut tally, 0, Ask::Replace(element(64, 6, 6), 3)).0, 2);
    assert_eq!(tally.rows[3].clauses_alone(), b::TAKEN_TAIL << b::SECOND);
}

/// Numbers, lengths and limits at and beyond the last that are taken; refused, nothing is written.
#[test]
fn shapes_and_limits() {
    for storeys in [0, 1, 2, 3, 4, 64, 1 << 31, u32::MAX] {
        for ports in (0..20).chain([1 << 16, 1 << 31, u32::MAX]) {
            for nodes in [0, 1, 2, 4096, 65_536, 65_537, 1 << 31, u32::MAX] {
                let model = Shape::new(storeys, nodes, ports).map_or(0, |s| s.words());
                let asked = calls::ports_words(storeys, nodes, ports) as usize;
                assert_eq!((asked, ports_words(storeys, nodes, ports)), (model, model));
            }
            let model = Shape::new(storeys, 1, ports).map_or(0, |s| s.bits());
            assert_eq!((calls::ports_bits(storeys, ports) as usize, ports_bits(storeys, ports)), (model, model));
        }
    }
    let clear = |nodes, ports, limits: &[u32], bits, words| {
        Desk::new(2, nodes, ports, vec![5; bits], vec![5; words]).clear(limits)
    };
    let (bits, words) = (ports_bits(2, 2), ports_words(2, 3, 2));
    assert_eq!(clear(3, 2, &[1, 1, 2, 2], bits, words), 0);
    assert_eq!(clear(3, 2, &[1, 1, 2, 2, 9], bits + 1, words + 1), 0);
    assert_eq!(clear(3, 2, &[0, 0, 0, u32::MAX], bits, words), 0);
    assert_eq!(clear(3, 2, &[1, 1, 2, 2], bits - 1, words), 1);
    assert_eq!(clear(3, 2, &[1, 1, 2, 2], bits, words - 1), 1);
    assert_eq!(clear(3, 2, &[1, 1, 2], bits, words), 1);
    assert_eq!(clear(3, 2, &[2, 1, 0, 0], bits, words), 1);
    assert_eq!(clear(3, 2, &[2, 9, 2, 9], bits, words), 1);
    // the floors' sum would wrap
    assert_eq!(clear(3, 2, &[1 << 31, u32::MAX, 1 << 31, u32::MAX], bits, words), 1);
    assert_eq!(clear(3, 0, &[], bits, words), 1);
    let most = [1, 1].repeat(17);
    assert_eq!(clear(16, 16, &most, ports_bits(2, 16), ports_words(2, 16, 16)), 0);
    assert_eq!(clear(15, 16, &most, ports_bits(2, 16), ports_words(2, 15, 16)), 1);
    assert_eq!(clear(17, 17, &most, 17 * 65, 17 * 8192 + 200), 1);
}

/// Where several causes hold, the earlier test answers: 1, 8, 4, 7, 2, then 5 or 6.
#[test]
fn the_order_of_refusals() {
    let mut tally = tally();
    let mut ask = |desk: &Desk, port, ask| desk.clone().both(&mut tally, port, ask).0;
    let bad = element(4096, 0, 0);
    let sound = Desk::fresh(2, 3, &[1, 3, 0, 9]);
    let mut damaged = sound.clone();
    let free = Shape::new(2, 3, 2).unwrap().free();
    damaged.0.change(|store| store.words[free] = 9);
    let mut none = damaged.clone();
    none.0.change(|store| store.shape[2] = 17);
    for other in [Ask::Push(bad), Ask::Replace(bad, 3), Ask::Pop(3), Ask::Held(1)] {
        assert_eq!(ask(&none, 17, other), 1);
        assert_eq!(ask(&damaged, 2, other), 8);
    }
    for (x, number) in [(bad, 4), (element(4095, 0, 0), 7), (element(4095, 1, 0), 2)] {
        assert_eq!(ask(&damaged, 1, Ask::Push(x)), number);
        assert_eq!(ask(&damaged, 1, Ask::Replace(x, 3)), number);
    }
    assert_eq!(ask(&damaged, 1, Ask::Pop(3)), 2);
    assert_eq!(ask(&sound, 1, Ask::Replace(element(5, 5, 5), 3)), 6);
    assert_eq!(ask(&sound, 2, Ask::Pop(2)), 1);
    // a full port with a damaged bucket is full
    let mut full = Desk::fresh(2, 3, &[0, 0]);
    full.0.change(|store| store.words[5] = 1);
    assert_eq!(ask(&full, 0, Ask::Push(element(5, 5, 5))), 5);
}

/// The worked store: two ports, three nodes, after two pushes at port 1 and one at port 0.
#[test]
fn the_worked_store() {
    let limits = [Limits { floor: 1, ceiling: 3 }, Limits { floor: 0, ceiling: 9 }];
    let mut halls = PortsQueue::new(2, 3, &limits).unwrap();
    let x = |tag| Element::new(Rank(7), Tag(tag), Length(64));
    for (port, tag) in [(1, 1), (1, 2), (0, 5)] {
        halls.port(port).push(x(tag)).unwrap();
    }
    let (bits, words) = (halls.bits(), halls.words());
    // nodes, free link, then held, floor and ceiling of each port
    assert_eq!(words[16384..], [1, 64, 2, 2, 64, 0, 5, 64, 0, 0, 1, 1, 3, 2, 0, 9]);
    // heads and tails of rank 7
    assert_eq!([7, 4096 + 7, 8192 + 7, 8192 + 4096 + 7].map(|at| words[at]), [3, 3, 1, 2]);
    assert_eq!(words[..16384].iter().filter(|w| **w != 0).count(), 4);
    assert_eq!((bits[0], bits[1], bits[65], bits[66]), (1, 128, 1, 128));
    assert_eq!(bits.iter().filter(|w| **w != 0).count(), 4);
}

/// A pool to its brim, floors and ceilings as numbers.
#[test]
fn floors_and_ceilings() {
    let limits = [(2, 5), (2, 10), (0, 4), (1, 1), (0, 0)].map(|(floor, ceiling)| Limits { floor, ceiling });
    let mut halls = PortsQueue::new(2, 10, &limits).unwrap();
    let x = |rank, tag| Element::new(Rank(rank), Tag(tag), Length(64));
    // port 1 takes all that is not another's floor: 10 less 2 of port 0 and 1 of port 3
    for tag in 1..=7 {
        assert_eq!(halls.port(1).push(x(9, tag)), Ok(()));
    }
    assert_eq!(halls.port(1).push(x(9, 8)), Err(Refusal::Full));
    assert_eq!(halls.port(2).push(x(9, 8)), Err(Refusal::Full));
    assert_eq!(halls.port(4).push(x(9, 8)), Err(Refusal::Full));
    assert_eq!((halls.port(0).push(x(0, 1)), halls.port(0).push(x(0, 2))), (Ok(()), Ok(())));
    assert_eq!(halls.port(0).push(x(0, 3)), Err(Refusal::Full));
    assert_eq!((halls.port(3).push(x(1, 1)), halls.port(3).push(x(1, 2))), (Ok(()), Err(Refusal::Full)));
    // the pool is full: a replace needs no room, also at a ceiling
    assert_eq!(halls.port(1).replace(x(3, 9)), Ok(x(9, 1)));
    assert_eq!(halls.port(3).replace(x(7, 9)), Ok(x(1, 1)));
    assert_eq!(halls.port(1).pop(), Ok(x(3, 9)));
    assert_eq!((halls.port(2).push(x(5, 5)), halls.port(1).push(x(5, 5))), (Ok(()), Err(Refusal::Full)));
    let held: Vec<u32> = (0..5).map(|port| halls.held(port).unwrap()).collect();
    assert_eq!(held, [2, 6, 1, 1, 0]);
    assert_eq!(halls.held(5), Err(Refusal::NoPort));
}

#[test]
fn the_wrapper() {
    let limits = [Limits { floor: 1, ceiling: 3 }, Limits { floor: 0, ceiling: 9 }];
    let (mut bits, mut words) = (vec![9; ports_bits(2, 2) + 1], vec![9; ports_words(2, 3, 2) + 1]);
    let mut owned = PortsQueue::new(2, 3, &limits).unwrap();
    {
        let mut lent = Ports::cleared(2, 3, &limits, &mut bits[..], &mut words[..]).unwrap();
        let mut rng = Rng::new(seed(), 805);
        for n in 0..2000 {
            let x = Element::new(Rank(rng.below(4100) as u32), Tag(n % 40), Length(rng.word()));
            let number = rng.below(3) as u32;
            let (mut a, mut b) = (owned.port(number), lent.port(number));
            match rng.below(5) {
                0 | 1 => assert_eq!(a.push(x), b.push(x)),
                2 => assert_eq!(a.pop(), b.pop()),
                3 => assert_eq!(a.replace(x), b.replace(x)),
                _ => assert_eq!(a.held(), b.held()),
            }
            assert_eq!(owned.held(number), lent.held(number));
            if n % 500 == 0 {
                let (bits, words) = owned.into_words();
                owned = PortsQueue::from_words(2, 3, 2, bits, words);
            }
        }
        assert!(owned.bits() == &lent.bits()[..130] && owned.words() == &lent.words()[..ports_words(2, 3, 2)]);
        // other limits, of as many ports
        assert_eq!(lent.clear(&limits[..1]), Err(Refusal::BadShape));
        lent.clear(&[Limits { floor: 3, ceiling: 3 }, Limits { floor: 0, ceiling: 9 }]).unwrap();
        assert_eq!(lent.port(1).push(Element::new(Rank(1), Tag(1), Length(1))), Err(Refusal::Full));
        assert_eq!(lent.ports(), 2);
    }
    assert_eq!((bits[130], words[ports_words(2, 3, 2)]), (9, 9));
    for limits in [&[][..], &[limits[0]; 17], &[Limits { floor: 2, ceiling: 1 }], &[Limits { floor: 4, ceiling: 4 }]] {
        assert_eq!(PortsQueue::new(2, 3, limits), Err(Refusal::BadShape));
    }
    assert_eq!((Refusal::of(8), Refusal::NoPort.name()), (Some(Refusal::NoPort), "no such port"));
}
