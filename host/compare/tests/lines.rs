//! What is the lines' own, beside what `queues` has of every queue: the worked cases, which clauses are met, small stores and small machines,
//! shapes at their limits, lines that are long and many; the clock beside one at a time; and the wrapper as its users use it.

use card_host::{
    calls, lines_room, lines_words, ClockedLines, ClockedLinesQueue, Drained, Element, Length, Lines, LinesQueue, Rank,
    Record, Refusal, Request, Stopped, Tag,
};
use compare::desk::{Desk, Store, Tally};
use compare::drive::{hostile, hostile_cycles, Driven};
use compare::lines;
use compare::queues::{answered, Ask};
use models::lines::{cause, RANKS};
use models::lines_clock;
use models::list::SortedList;
use models::rng::{seed, Rng};
use models::{element, Causes, No};

type Plain<const KIND: u32> = Desk<lines::Lines<KIND>>;
type Clocked<const KIND: u32> = Desk<lines::ClockedLines<KIND>>;

/// Lines of a kind over these words.
fn over<const KIND: u32>(shape: (u32, u32), words: Vec<u32>) -> Plain<KIND> {
    Plain::new(Store { shape: [shape.0, shape.1, KIND], ..Store::of(shape, words) })
}

/// The same by cycles, with a record.
fn clocked<const KIND: u32>(shape: (u32, u32), words: Vec<u32>, record: [u32; 5]) -> Clocked<KIND> {
    let records = vec![record].into();
    Clocked::new(Store { shape: [shape.0, shape.1, KIND], records, ..Store::of(shape, words) })
}

/// The store of the rules: two lines of three places.
const ONE: [u32; 20] = [3, 1, 3, 30, 300, 5, 50, 500, 5, 51, 510, 40000, 40, 400, 0, 0, 0, 0, 0, 0];
const TWO: [u32; 20] = [3, 1, 3, 30, 300, 5, 50, 500, 40000, 40, 400, 5, 51, 510, 0, 0, 0, 0, 0, 0];

/// The worked store, one at a time and by cycles, of both kinds.
#[test]
fn the_store_of_the_rules() {
    fn pushed<const KIND: u32>(expected: [u32; 20]) {
        let (mut one, mut by_cycles) = (Tally::of::<lines::Lines<KIND>>(), Tally::of::<lines::ClockedLines<KIND>>());
        let mut desk = over::<KIND>((2, 3), vec![7; 20]);
        let mut machine = clocked::<KIND>((2, 3), vec![7; 20], [9; 5]);
        assert_eq!((desk.both(&mut one, Ask::Clear).0, machine.both(&mut by_cycles, Ask::Clear).0), (0, 0));
        for x in [element(5, 50, 500), element(40000, 40, 400), element(3, 30, 300), element(5, 51, 510)] {
            assert_eq!(desk.both(&mut one, Ask::Push(x)).0, 0);
            assert_eq!(machine.both(&mut by_cycles, Ask::Cycle(1, x, 3)).0, 0);
        }
        assert_eq!(machine.both(&mut by_cycles, Ask::Drain(9, 2)), (0, vec![1, 0]));
        assert_eq!((desk.library.words[..] == expected, machine.library.words[..] == expected), (true, true));
        assert_eq!(desk.both(&mut one, Ask::Held(1)), (0, vec![4]));
    }
    pushed::<1>(ONE);
    pushed::<2>(TWO);
}

/// The worked table by cycles: pop, pop, replace 40000/41, idle.
#[test]
fn the_table_of_the_rules() {
    let mut tally = Tally::of::<lines::ClockedLines<1>>();
    let mut machine = clocked::<1>((2, 3), ONE.to_vec(), [0; 5]);
    let mut cycle = |request: u32, x: [u32; 3], out: [u32; 3], counts: [u32; 2], tags: [u32; 6], record: [u32; 5]| {
        let told = machine.both(&mut tally, Ask::Cycle(request, element(x[0], x[1], x[2]), 3));
        assert_eq!(told, (0, out.to_vec()));
        let words = &machine.library.words;
        assert_eq!(([words[0], words[1]], [3, 6, 9, 12, 15, 18].map(|at| words[at])), (counts, tags));
        assert_eq!(machine.library.records[0], record);
    };
    cycle(2, [0; 3], [3, 30, 300], [2, 1], [30, 50, 51, 40, 0, 0], [2, 0, 0, 0, 0]);
    cycle(2, [0; 3], [5, 50, 500], [1, 1], [50, 51, 0, 40, 0, 0], [2, 0, 0, 0, 0]);
    cycle(3, [40000, 41, 410], [5, 51, 510], [0, 2], [51, 0, 0, 40, 0, 0], [3, 0, 40000, 41, 410]);
    cycle(0, [0; 3], [0; 3], [0, 2], [0, 0, 0, 40, 41, 0], [0; 5]);
}

/// A request of each kind that is refused, and a replace into a full line, its own and another.
#[test]
fn refusals() {
    let (mut tally, x) = (Tally::of::<lines::Lines<1>>(), |rank| element(rank, 9, 90));
    let mut ask = |words: [u32; 8], ask: Ask| {
        let mut desk = over::<1>((2, 1), words.to_vec());
        let told = desk.both(&mut tally, ask).0;
        (told, desk.library.words[..].to_vec())
    };
    let full = [1, 1, 5, 50, 500, 40000, 40, 400];
    for (words, call, number) in [
        (full, Ask::Push(x(65_535)), 5),
        (full, Ask::Push(x(65_536)), 4),
        (full, Ask::Push(element(65_536, 0, 0)), 4),
        (full, Ask::Push(element(65_535, 0, 0)), 7),
        (full, Ask::Replace(x(32_768), 3), 5),
        (full, Ask::Replace(x(65_536), 3), 4),
        ([0; 8], Ask::Replace(x(32_768), 3), 6),
        ([0; 8], Ask::Pop(3), 6),
        // tests of x come before those of the counts, these before 5 and 6, and those of the lines behind them
        ([2, 1, 5, 50, 500, 40000, 40, 400], Ask::Push(element(65_536, 0, 0)), 4),
        ([2, 1, 5, 50, 500, 40000, 40, 400], Ask::Push(element(1, 0, 0)), 7),
        ([2, 1, 5, 50, 500, 40000, 40, 400], Ask::Push(x(40000)), 2),
        ([1, 1, 40000, 50, 500, 40000, 40, 400], Ask::Push(x(40000)), 5),
        ([0, 0, 40000, 50, 500, 40000, 40, 400], Ask::Pop(3), 6),
        ([1, 1, 40000, 50, 500, 40000, 40, 400], Ask::Replace(x(40000), 3), 5),
        ([1, 1, 40000, 50, 500, 40000, 40, 400], Ask::Pop(3), 2),
    ] {
        assert_eq!(ask(words, call), (number, words.to_vec()), "{words:?}, {call:?}");
    }
    // there is always room in the line that gave
    assert_eq!(ask(full, Ask::Replace(x(32_767), 3)), (0, vec![1, 1, 32_767, 9, 90, 40000, 40, 400]));
}

/// Of equal first ranks the first line gives; of equal ranks in a line the first in; and the newcomer goes into the line that gave.
#[test]
fn ties() {
    let mut queue = LinesQueue::new(2, 4, 2).unwrap();
    let x = |rank, tag| Element::new(Rank(rank), Tag(tag), Length(10 * tag));
    for tag in 1..=8 {
        queue.push(x(5, tag)).unwrap();
    }
    assert_eq!(queue.push(x(5, 9)), Err(Refusal::Full));
    assert_eq!(queue.replace(x(5, 9)).unwrap().tag, Tag(1));
    assert_eq!(queue.replace(x(4, 10)).unwrap().tag, Tag(2));
    let tags: Vec<u32> = (0..8).map(|_| queue.pop().unwrap().tag.0).collect();
    assert_eq!(tags, [10, 9, 3, 4, 5, 6, 7, 8]);
}

/// Each clause made each call damaged by itself that can meet it, on stores with words spoilt.
#[test]
fn every_clause_of_a_line() {
    let line: Causes = cause::LINE.iter().map(|(clause, _)| clause).sum();
    let (gives, takes) = (line << cause::GIVES, line << cause::TAKES);
    let ranked = cause::RANK | cause::HOME;
    let tallies = [hostile::<lines::Lines<1>, 0>(2100, 60_000), hostile::<lines::Lines<2>, 0>(2101, 30_000)];
    for (kind, tally) in (1..).zip(&tallies) {
        let push = cause::COUNT | if kind == 1 { takes } else { takes & !(ranked << cause::TAKES) };
        let pop = cause::COUNT | if kind == 1 { gives } else { gives & !(ranked << cause::GIVES) };
        let replace = pop | if kind == 1 { takes } else { 0 };
        for (row, must) in tally.rows.iter().zip([0, push, pop, replace, cause::COUNT]) {
            let missed = must & !row.clauses_alone();
            assert_eq!(missed, 0, "kind {kind}, {} was never damaged by {missed:b} alone", row.name);
        }
        for (row, can) in tally.rows.iter().zip([0, cause::COUNT | takes, cause::COUNT | gives, !0, cause::COUNT]) {
            assert_eq!(row.clauses() & !can, 0, "kind {kind}, {}", row.name);
        }
    }
}

/// A machine of two lines of three places that one clause makes damaged: its counts, the ranks of both lines, a word behind a line's last
/// element, and its record. A place with rank 0 is 0, 0, 0.
fn broken(counts: [u32; 2], ranks: [u32; 6], behind: Option<(usize, u32)>, record: [u32; 5]) -> (Vec<u32>, [u32; 5]) {
    let mut words = counts.to_vec();
    for rank in ranks {
        words.extend(if rank == 0 { [0; 3] } else { [rank, 7, 70] });
    }
    if let Some((at, word)) = behind {
        words[at] = word;
    }
    (words, record)
}

/// The machines of a kind that each clause makes damaged by itself.
fn broken_machines(kind: u32) -> Vec<(Causes, Vec<u32>, [u32; 5])> {
    use lines_clock::cause::{ALL, COUNT, GAVE, GOAL, HOME, NONE, NO_LINE, PUSHED, RANK};
    let x = |kind, line, rank| [kind, line, rank, 9, 90];
    let mut all = vec![
        (COUNT, broken([4, 1], [3, 5, 5, 40000, 0, 0], None, [0; 5])),
        (COUNT, broken([1, u32::MAX], [3, 0, 0, 40000, 0, 0], None, [0; 5])),
        (NO_LINE, broken([1, 1], [3, 0, 0, 40000, 0, 0], None, x(1, 2, 5))),
        (NO_LINE, broken([1, 1], [3, 0, 0, 40000, 0, 0], None, x(2, u32::MAX, 0))),
        (NO_LINE, broken([1, 1], [3, 0, 0, 40000, 0, 0], None, x(3, 2, 5))),
        (RANK, broken([1, 1], [0; 6], None, x(1, 1, RANKS))),
        (RANK, broken([1, 1], [3, 5, 0, 0, 0, 0], None, x(3, 0, u32::MAX))),
        (HOME, broken([1, 1], [3, 0, 0, 0, 0, 0], None, x(1, 1, 32_767))),
        (NONE, broken([1, 0], [3, 0, 0, 0, 0, 0], None, x(1, 1, 40000))),
        (NONE, broken([0, 1], [0, 0, 0, 40000, 0, 0], None, x(3, 0, 5))),
        (ALL, broken([3, 1], [3, 5, 5, 40000, 0, 0], None, [2, 0, 0, 0, 0])),
    ];
    // the line of a push, of a pop, of a replace in one line; and both lines of a replace over two, which is kind 1's
    let mut worked =
        vec![(PUSHED, [1, 3], x(1, 1, 41000)), (GAVE, [1, 1], [2, 1, 0, 0, 0]), (GAVE, [1, 2], x(3, 1, 41000))];
    if kind == 1 {
        worked.extend([(GAVE, [2, 1], x(3, 1, 5)), (GOAL, [0, 3], x(3, 0, 41000))]);
    }
    for (at, counts, record) in worked {
        // two elements in line 1, which is broken, one in line 0
        let had = |first: u32, second: u32| [3, 0, 0, first, second, 0];
        let (sound, behind) = (had(40000, 40001), 2 + 3 * 5);
        all.push((cause::ORDER << at, broken(counts, had(40001, 40000), None, record)));
        all.push((cause::RANK_BEHIND << at, broken(counts, sound, Some((behind, 1)), record)));
        all.push((cause::TAG_BEHIND << at, broken(counts, sound, Some((behind + 1, 1)), record)));
        all.push((cause::LENGTH_BEHIND << at, broken(counts, sound, Some((behind + 2, u32::MAX)), record)));
        all.push((cause::RANK << at, broken(counts, had(40000, RANKS), None, record)));
        all.push((cause::HOME << at, broken(counts, had(32_767, 40000), None, record)));
    }
    all.into_iter().map(|(clause, (words, record))| (clause, words, record)).collect()
}

/// And each cycle that can meet it: whatever the request is, on machines that are broken in one way, and on machines with words and the
/// record spoilt.
#[test]
fn every_clause_of_a_cycle() {
    fn of<const KIND: u32>(not: Causes, rounds: u32) {
        let mut tally = Tally::of::<lines::ClockedLines<KIND>>();
        for (clause, words, record) in broken_machines(KIND).into_iter().filter(|(clause, ..)| not & clause == 0) {
            for request in 0..4 {
                let mut machine = clocked::<KIND>((2, 3), words.clone(), record);
                let told = machine.both(&mut tally, Ask::Cycle(request, element(40000, 77, 7), 3));
                assert_eq!((told.0, machine.refused), (2, Some(No::Damaged(clause))), "{words:?}, {record:?}");
                assert_eq!((&machine.library.words[..], machine.library.records[0]), (&words[..], record));
            }
            let mut machine = clocked::<KIND>((2, 3), words.clone(), record);
            let told = machine.both(&mut tally, Ask::Drain(9, 2));
            assert_eq!(told, if record[0] == 0 { (0, vec![0, 0]) } else { (2, vec![0, 1]) });
            let held = machine.both(&mut tally, Ask::Held(1)).0;
            assert_eq!(held, if clause == lines_clock::cause::COUNT { 2 } else { 0 });
        }
        let all: Causes = lines_clock::cause::all().iter().map(|(clause, _)| clause).sum();
        for row in &tally.rows[1..5] {
            assert_eq!(row.clauses_alone(), all & !not, "{}", row.name);
        }
        let spoilt = hostile_cycles::<lines::ClockedLines<KIND>, 5>(2101 + KIND as u64, rounds);
        let met = spoilt.rows[1..5].iter().fold(0, |met, row| met | row.clauses());
        assert_eq!(all & !not & !met, 0, "clauses that were never met");
    }
    let ranked = cause::RANK | cause::HOME;
    let own = lines_clock::cause::RANK | lines_clock::cause::HOME;
    let lines = ranked << lines_clock::cause::PUSHED | ranked << lines_clock::cause::GAVE;
    let goal: Causes = cause::LINE.iter().map(|(clause, _)| clause << lines_clock::cause::GOAL).sum();
    of::<1>(0, 60_000);
    of::<2>(own | lines | goal, 20_000);
}

/// Every store of two lines of two places that can be put together from a few places and counts, with every call on each.
#[test]
fn small_stores() {
    fn of<const KIND: u32>() {
        let mut tally = Tally::of::<lines::Lines<KIND>>();
        let places = [[0, 0, 0], [5, 50, 1], [40000, 40, 1], [0, 0, 9], [70000, 1, 1]];
        for store in 0..places.len().pow(4) {
            let chosen: Vec<u32> = (0..4).flat_map(|i| places[store / places.len().pow(i) % places.len()]).collect();
            for counts in [[0, 0], [1, 0], [0, 1], [2, 0], [1, 1], [2, 1], [1, 2], [2, 2], [3, 0], [0, 3]] {
                let words: Vec<u32> = counts.iter().chain(&chosen).copied().collect();
                for rank in [5, 4, 40000, 70000] {
                    let x = element(rank, 77, 7);
                    over::<KIND>((2, 2), words.clone()).both(&mut tally, Ask::Push(x));
                    over::<KIND>((2, 2), words.clone()).both(&mut tally, Ask::Replace(x, 3));
                }
                over::<KIND>((2, 2), words.clone()).both(&mut tally, Ask::Pop(3));
                over::<KIND>((2, 2), words.clone()).both(&mut tally, Ask::Held(1));
            }
        }
        assert!(tally.rows[1..].iter().all(|row| row.numbers[0] > 500 && row.numbers[2] > 500));
    }
    of::<1>();
    of::<2>();
}

/// Every machine of two lines of two places that can be put together from a few places, counts and records, with every request on each.
#[test]
fn small_machines() {
    fn of<const KIND: u32>() {
        let mut tally = Tally::of::<lines::ClockedLines<KIND>>();
        let places = [[0, 0, 0], [5, 50, 1], [40000, 40, 1]];
        let records = [
            [0; 5],
            [0, 7, 7, 7, 7],
            [1, 0, 4, 60, 1],
            [1, 1, 40000, 60, 1],
            [1, 1, 4, 60, 1],
            [1, 2, 4, 60, 1],
            [1, 0, 70000, 60, 1],
            [2, 0, 0, 0, 0],
            [2, 1, 9, 9, 9],
            [2, 2, 0, 0, 0],
            [3, 0, 4, 60, 1],
            [3, 0, 40001, 60, 1],
            [3, 1, 4, 60, 1],
            [3, 1, 50000, 0, 1],
            [3, 2, 4, 60, 1],
            [3, 0, 70000, 60, 1],
            [4, 0, 0, 0, 0],
        ];
        for store in 0..places.len().pow(4) {
            let chosen: Vec<u32> = (0..4).flat_map(|i| places[store / places.len().pow(i) % places.len()]).collect();
            for counts in [[0, 0], [1, 0], [0, 1], [2, 0], [1, 1], [2, 1], [1, 2], [2, 2], [3, 0], [0, 3]] {
                let words: Vec<u32> = counts.iter().chain(&chosen).copied().collect();
                for record in records {
                    let machine = || clocked::<KIND>((2, 2), words.clone(), record);
                    for (request, rank) in [(0, 0), (1, 5), (1, 40000), (2, 0), (3, 5), (3, 40000), (3, 70000)] {
                        machine().both(&mut tally, Ask::Cycle(request, element(rank, 77, 7), 3));
                    }
                    machine().both(&mut tally, Ask::Drain(9, 2));
                    machine().both(&mut tally, Ask::Drain(0, 2));
                }
            }
        }
        assert!(tally.rows[1..5].iter().all(|row| row.numbers[0] > 200 && row.numbers[2] > 200));
        assert!(tally.rows[6].numbers[0] > 200 && tally.rows[6].numbers[2] > 200);
    }
    of::<1>();
    of::<2>();
}

/// By cycles every answer, number and triple, is that of one at a time; the counts are its counts at every moment, all other lines its lines,
/// and one idle cycle leaves its words and nothing pending.
#[test]
fn by_cycles_as_one_at_a_time() {
    fn of<const KIND: u32>(stream: u64) {
        let mut rng = Rng::new(seed(), stream);
        let (mut one, mut by_cycles) = (Tally::of::<lines::Lines<KIND>>(), Tally::of::<lines::ClockedLines<KIND>>());
        for shape in [(1, 1), (1, 6), (2, 1), (2, 4), (4, 3), (8, 8), (32, 2)] {
            let need = lines_words(KIND, shape.0, shape.1);
            let (mut desk, mut machine) =
                (over::<KIND>(shape, vec![0; need]), clocked::<KIND>(shape, vec![0; need], [0; 5]));
            for n in 0..4000u32 {
                let rank = match rng.below(4) {
                    0 => rng.below(3) as u32,
                    1 => lines::Lines::<KIND>::near(shape, rng.below(40) as u32),
                    2 => rng.below(RANKS as u64 + 900) as u32,
                    _ => rng.word() >> (16 * (KIND == 1) as u32),
                };
                let x = element(rank, if rng.once_in(40) { 0 } else { n + 1 }, rng.word());
                let request = rng.pick(&[1 + n / 120 % 2, 1 + n / 120 % 2, 1, 2, 3, 3]);
                let (number, mut out) = desk.both(&mut one, Ask::request(request, x));
                out.resize(3, 0);
                assert_eq!(machine.both(&mut by_cycles, Ask::Cycle(request, x, 3)), (number, out), "{request} {x:?}");
                let held = desk.both(&mut one, Ask::Held(1));
                assert_eq!(machine.both(&mut by_cycles, Ask::Held(1)), held);
                // only the record's lines may differ
                let (plain, words, lines) = (&desk.library.words, &machine.library.words, shape.0 as usize);
                assert_eq!(words[..lines], plain[..lines]);
                let [kind, line, rank, ..] = machine.library.records[0];
                let goal = if KIND == 1 { rank / (RANKS / shape.0) } else { line };
                for at in 0..lines {
                    let pending = (kind > 0 && line as usize == at) || (kind == 3 && goal as usize == at);
                    let row = lines + 3 * at * shape.1 as usize..lines + 3 * (at + 1) * shape.1 as usize;
                    assert!(
                        pending || words[row.clone()] == plain[row],
                        "line {at}, record {:?}",
                        machine.library.records[0]
                    );
                }
                // on a second machine: one idle cycle, or a drain
                let mut idle = machine.clone();
                match rng.below(3) {
                    0 => assert_eq!(idle.both(&mut by_cycles, Ask::Cycle(0, x, 3)), (0, vec![0; 3])),
                    _ => assert_eq!(
                        idle.both(&mut by_cycles, Ask::Drain(rng.pick(&[1, 9]), 2)),
                        (0, vec![(kind > 0) as u32, 0])
                    ),
                }
                assert_eq!((&idle.library.words[..], idle.library.records[0]), (&plain[..], [0; 5]));
                if rng.once_in(20) {
                    machine = idle;
                }
            }
        }
        assert!(one.rows[3].numbers[0] > 2000 && by_cycles.rows[4].numbers[0] > 2000);
    }
    of::<1>(2104);
    of::<2>(2105);
}

/// Kinds, lines and places at and beyond the last that are taken, on stores that are just long enough and a word too short; and the sizes.
#[test]
fn limits() {
    let mut tally = (Tally::of::<lines::Lines<1>>(), Tally::of::<lines::ClockedLines<1>>());
    let kinds = [0, 1, 2, 3, 1 << 31, u32::MAX];
    let all = [0, 1, 2, 3, 4, 7, 8, 255, 256, 511, 512, 513, 1023, 1024, 1025, 2048, 65_536, 1 << 31, u32::MAX];
    let all = &all;
    let pairs = all.iter().flat_map(|l| all.iter().map(move |p| (*l, *p)));
    let shapes = pairs.flat_map(|(l, p)| kinds.iter().map(move |k| (*k, l, p)));
    for (kind, l, p) in shapes {
        let need = lines_words(kind, l, p);
        let taken = (kind == 1 || kind == 2) && l.count_ones() == 1 && l <= 512 && (1..=1024).contains(&p);
        assert_eq!(need, if taken { (l + 3 * l * p) as usize } else { 0 });
        assert_eq!(calls::lines_words(kind, l, p) as usize, need, "kind {kind}, {l} of {p}");
        assert_eq!(lines_room(kind, l, p), if taken { (l * p) as usize } else { 0 });
        if need > 100_000 && (l, p) != (512, 1024) {
            continue;
        }
        let long = if taken { need } else { 600 };
        for words in [long, long - taken as usize] {
            let number = (!taken || words < need) as u32;
            let store = Store { shape: [l, p, kind], ..Store::of((l, p), vec![7; words]) };
            let mut desk = Plain::<1>::new(store);
            assert_eq!(desk.both(&mut tally.0, Ask::Clear).0, number, "kind {kind}, {l} of {p}");
            desk.both(&mut tally.0, Ask::Push(element(5, 50, 500)));
            desk.both(&mut tally.0, Ask::Replace(element(6, 60, 600), 3));
            desk.both(&mut tally.0, Ask::Pop(3));
            desk.both(&mut tally.0, Ask::Held(1));
            let store =
                Store { shape: [l, p, kind], records: vec![[9; 5]].into(), ..Store::of((l, p), vec![7; words]) };
            let mut machine = Clocked::<1>::new(store);
            assert_eq!(machine.both(&mut tally.1, Ask::Clear).0, number);
            machine.both(&mut tally.1, Ask::Cycle(1, element(5, 50, 500), 3));
            machine.both(&mut tally.1, Ask::Cycle(2, element(0, 0, 0), 3));
            machine.both(&mut tally.1, Ask::Drain(9, 2));
            machine.both(&mut tally.1, Ask::Held(1));
        }
    }
}

/// What the boundary refuses 1: no record, a kind above 3, a request above 3, an `out` that is too short; of a longer slice of records only the
/// first is read and written.
#[test]
fn at_the_boundary() {
    let mut tally = Tally::of::<lines::ClockedLines<1>>();
    let mut none = clocked::<1>((2, 3), ONE.to_vec(), [0; 5]);
    none.change(|store| store.records.shorten(1));
    let x = element(1, 2, 3);
    for ask in [Ask::Clear, Ask::Cycle(0, x, 3), Ask::Cycle(1, x, 3), Ask::Drain(9, 2)] {
        assert_eq!(none.both(&mut tally, ask).0, 1, "{ask:?}");
    }
    assert_eq!(none.both(&mut tally, Ask::Held(1)), (0, vec![4]));
    let mut wrong = clocked::<1>((2, 3), ONE.to_vec(), [4, 0, 0, 0, 0]);
    assert_eq!(wrong.both(&mut tally, Ask::Cycle(0, x, 3)), (1, vec![0; 3]));
    assert_eq!(wrong.both(&mut tally, Ask::Drain(9, 2)), (1, vec![0; 2]));
    assert_eq!(wrong.both(&mut tally, Ask::Clear).0, 0);
    for request in [4, 5, 256, u32::MAX] {
        assert_eq!(wrong.both(&mut tally, Ask::Cycle(request, x, 3)), (1, vec![0; 3]));
    }
    for out in 0..3 {
        assert_eq!(wrong.both(&mut tally, Ask::Cycle(1, x, out)).0, 1);
        assert_eq!(wrong.both(&mut tally, Ask::Drain(9, out)).0, (out < 2) as u32);
        assert_eq!(wrong.both(&mut tally, Ask::Held(out)).0, (out < 1) as u32);
    }
    // a record of nothing with numbers: a cycle that runs, refused or not, writes zeros, a drain of none leaves it
    let more = vec![[0, 5, 6, 7, 8], [3, 3, 3, 3, 3]];
    let mut two = clocked::<1>((2, 3), ONE.to_vec(), [0; 5]);
    two.change(|store| store.records = more.clone().into());
    assert_eq!(two.both(&mut tally, Ask::Drain(9, 2)), (0, vec![0, 0]));
    assert_eq!(two.library.records[..], more);
    assert_eq!(two.both(&mut tally, Ask::Cycle(1, element(RANKS, 9, 9), 3)).0, 4);
    assert_eq!(two.library.records[..], [[0; 5], [3; 5]]);
}

/// Lines that are long and many: filled to the brim, worked there and emptied, beside the plain list.
#[test]
fn long_and_many() {
    fn of<const KIND: u32>(shape: (u32, u32), stream: u64) {
        let (mut rng, mut tally) = (Rng::new(seed(), stream), Tally::of::<lines::Lines<KIND>>());
        let mut desk = over::<KIND>(shape, vec![0; lines_words(KIND, shape.0, shape.1)]);
        let (mut list, room) = (SortedList::new(), lines_room(KIND, shape.0, shape.1) as u32);
        let spread = if KIND == 1 { 0xffff } else { u32::MAX };
        for n in 0..2 * room + 4000 {
            let request = if n < room { 1 } else { rng.pick(&[1, 2, 3, 2 + (n < room + 2000) as u32]) };
            let x = element(rng.word() & spread, n + 1, n);
            let number =
                desk.made(&mut tally, &Ask::request(request, x), n % 512 == 0).unwrap_or_else(|what| panic!("{what}"));
            let full = lines::Lines::<KIND>::full(shape, list.elements(), Ask::request(request, x));
            match (request, list.held()) {
                (2 | 3, 0) => assert_eq!(number, 6),
                _ => assert_eq!(number == 5, full, "{request} {x:?}"),
            }
            if number == 0 && request > 1 {
                let told = answered(&desk.outs[0]);
                match KIND {
                    1 => assert_eq!(list.pop(), Some(told)),
                    _ => assert!(list.lowest() == Some(told.rank) && list.take_out(told)),
                }
            }
            if number == 0 && request != 2 {
                list.push(x);
            }
        }
        assert_eq!(desk.both(&mut tally, Ask::Held(1)).1[0] as usize, list.held());
    }
    of::<1>((1, 1024), 2106);
    of::<2>((1, 1024), 2107);
    of::<1>((512, 4), 2108);
    of::<2>((512, 4), 2109);
    of::<1>((16, 200), 2110);
    of::<2>((16, 200), 2111);
}

/// To the brim of kind 2's largest store: 524,288 elements are held, one more is refused, and the lowest leave first.
#[test]
fn the_largest() {
    let mut queue = LinesQueue::new(2, 512, 1024).unwrap();
    let room = queue.capacity() as u32;
    assert_eq!(room, 524_288);
    for n in 0..room {
        queue.push(Element::new(Rank(n), Tag(n + 1), Length(7))).unwrap();
    }
    assert_eq!(queue.push(Element::new(Rank(0), Tag(1), Length(0))), Err(Refusal::Full));
    assert_eq!(queue.held(), Ok(room));
    for n in 0..2000 {
        assert_eq!(queue.replace(Element::new(Rank(room + n), Tag(1), Length(8))).map(|x| x.rank), Ok(Rank(n)));
    }
    for n in 2000..4000 {
        assert_eq!(queue.pop(), Ok(Element::new(Rank(n), Tag(n + 1), Length(7))));
    }
    assert_eq!(queue.held(), Ok(room - 2000));
}

#[test]
fn the_wrapper() {
    let mut rng = Rng::new(seed(), 2112);
    let need = lines_words(1, 4, 3);
    let (mut words, mut record) = (vec![9; need + 1], vec![Record::from([9; 5]); 2]);
    let (mut owned, mut queue) = (ClockedLinesQueue::new(1, 4, 3).unwrap(), LinesQueue::new(1, 4, 3).unwrap());
    let mut memory = [9; lines_words(1, 4, 3) + 1];
    let mut plain = Lines::cleared(1, 4, 3, &mut memory[..]).unwrap();
    {
        let mut lent = ClockedLines::cleared(1, 4, 3, &mut words[..], &mut record[..]).unwrap();
        for n in 0..2000 {
            let x = Element::new(Rank(rng.below(70_000) as u32), Tag(n % 60), Length(rng.word()));
            match rng.below(7) {
                0 | 1 => assert_eq!([owned.push(x), lent.push(x), queue.push(x)], [plain.push(x); 3]),
                2 | 3 => assert_eq!([owned.pop(), lent.pop(), queue.pop()], [plain.pop(); 3]),
                4 => assert_eq!([owned.replace(x), lent.replace(x), queue.replace(x)], [plain.replace(x); 3]),
                5 => assert_eq!(owned.idle(), lent.idle()),
                _ => assert_eq!(owned.drain(1), lent.drain(1)),
            }
            assert_eq!([owned.held(), lent.held(), queue.held()], [plain.held(); 3]);
            if n % 400 == 0 {
                let (words, record) = owned.into_words();
                owned = ClockedLinesQueue::from_words(1, 4, 3, words, record);
                queue = LinesQueue::from_words(1, 4, 3, queue.into_words());
            }
        }
        assert_eq!((owned.words(), owned.record()), (&lent.words()[..need], &lent.record()[..1]));
        assert_eq!((lent.kind(), lent.lines(), lent.places(), lent.capacity()), (1, 4, 3, 12));
        assert_eq!((queue.kind(), queue.lines(), queue.places(), queue.capacity()), (1, 4, 3, 12));
        assert_eq!(queue.words(), &plain.words()[..need]);
        assert_eq!(plain.clear(), Ok(()));
        assert_eq!(lent.clear(), Ok(()));
        assert_eq!(lent.cycle(Request::Idle), Ok(Element::default()));
    }
    assert_eq!((words[need], record[1], memory[need]), (9, Record::from([9; 5]), 9));
    assert_eq!(ClockedLinesQueue::new(1, 3, 3), Err(Refusal::BadShape));
    assert_eq!(LinesQueue::new(2, 1, u32::MAX), Err(Refusal::BadShape));
    // a push that waits for a line which holds nothing: the first cycle is refused
    let mut bare = ClockedLines::from_words(1, 2, 1, [0; 8], [Record::from([1, 0, 5, 50, 500])]);
    assert_eq!(bare.drain(9), Err(Stopped { refusal: Refusal::Damaged, cycles: 0 }));
    assert_eq!(bare.drain(0), Ok(Drained { cycles: 0, work_left: true }));
    assert_eq!(bare.into_words(), ([0; 8], [Record::from([1, 0, 5, 50, 500])]));
}
