//! The clocked lines as logic builds them: counts and first places in registers, a memory of lines, sorters that are loaded at the clock's
//! edge. Every cycle answers as the model by the rules does, and leaves the same words and the same record.

use models::lines::RANKS;
use models::rng::{seed, Rng};
use models::{element, lines_clock, Element, No};

type Line = Vec<Element>;

/// A sorter: a line with the number of elements that it has, and what is to be done there.
#[derive(Clone, Debug)]
struct Sorter {
    number: usize,
    line: Line,
    elements: usize,
    take: bool,
    put: Option<Element>,
}

impl Sorter {
    /// The first place that the sorting leaves, by one comparison and no sorting.
    fn first(&self) -> Element {
        let stays = self.take as usize;
        let met = self.line.get(stays).copied().unwrap_or_default();
        match self.put {
            Some(x) if self.elements <= stays || met.rank > x.rank => x,
            _ => met,
        }
    }

    /// The line that it makes: each place takes what stands there, a neighbour, or x, by one comparator a place.
    fn made(&self) -> Line {
        let places = self.line.len();
        let at = |place: isize| match place {
            0.. => self.line.get(place as usize).copied().unwrap_or_default(),
            _ => Element::default(),
        };
        let x = match self.put {
            None => return (0..places as isize).map(|place| at(place + self.take as isize)).collect(),
            Some(x) => x,
        };
        // what stands at a place once one has left, and whether x goes before it
        let left = |place: isize| at(place + self.take as isize);
        let behind = |place: isize| {
            place >= 0 && (place >= (self.elements - self.take as usize) as isize || left(place).rank > x.rank)
        };
        let choose = |place: isize| match (behind(place), behind(place - 1)) {
            (false, _) => left(place),
            (true, false) => x,
            (true, true) => left(place - 1),
        };
        (0..places as isize).map(choose).collect()
    }
}

/// The registers and the memory. Kind 1 has two sorters, the second for a replace's goal where that is another line.
struct Logic {
    kind: u32,
    counts: Vec<u32>,
    exit: Vec<Element>,
    memory: Vec<Line>,
    sorters: [Option<Sorter>; 2],
}

/// What a request comes to: its answer, the line that gives and the line into which x goes.
type Chosen = (Element, Option<usize>, Option<(usize, Element)>);

impl Logic {
    fn new(kind: u32, lines: u32, places: u32) -> Logic {
        let lines = lines as usize;
        Logic {
            kind,
            counts: vec![0; lines],
            exit: vec![Element::default(); lines],
            memory: vec![vec![Element::default(); places as usize]; lines],
            sorters: [None, None],
        }
    }

    fn sorter(&self, line: usize) -> Option<&Sorter> {
        self.sorters.iter().flatten().find(|sorter| sorter.number == line)
    }

    /// The first place of a line: of one in a sorter the one that it leaves, else that of the exit buffer.
    fn front(&self, line: usize) -> Element {
        self.sorter(line).map_or(self.exit[line], Sorter::first)
    }

    fn full(&self, line: usize) -> bool {
        self.counts[line] as usize == self.memory[line].len()
    }

    fn choose(&self, request: u32, x: Element) -> Result<Chosen, No> {
        let home = |x: Element| (x.rank as u64 * self.counts.len() as u64 / RANKS as u64) as usize;
        if request == 1 || request == 3 {
            match (self.kind, x) {
                (1, x) if x.rank >= RANKS => return Err(No::BadRank),
                (_, x) if x.tag == 0 => return Err(No::NoTag),
                _ => {}
            }
        }
        let lines = || 0..self.counts.len();
        let gives = || {
            let held = lines().filter(|&line| self.counts[line] > 0);
            // the first of the lowest, by the whole rank or, of kind 1, by the line
            held.min_by_key(|&line| if self.kind == 1 { 0 } else { self.front(line).rank }).ok_or(No::Empty)
        };
        match request {
            0 => Ok((Element::default(), None, None)),
            1 => {
                let line = if self.kind == 1 { Some(home(x)) } else { lines().find(|&line| !self.full(line)) };
                let line = line.filter(|&line| !self.full(line)).ok_or(No::Full)?;
                Ok((Element::default(), None, Some((line, x))))
            }
            2 => gives().map(|line| (self.front(line), Some(line), None)),
            _ => {
                let line = gives()?;
                let goal = if self.kind == 1 { home(x) } else { line };
                if goal != line && self.full(goal) {
                    return Err(No::Full);
                }
                Ok((self.front(line), Some(line), Some((goal, x))))
            }
        }
    }

    /// One cycle, up to and with the clock's edge.
    fn cycle(&mut self, request: u32, x: Element) -> Result<Element, No> {
        let chosen = self.choose(request, x);
        let made: Vec<(usize, Line)> = self.sorters.iter().flatten().map(|s| (s.number, s.made())).collect();
        let (_, gives, takes) = chosen.unwrap_or_default();
        let other = takes.filter(|(goal, _)| gives.is_some() && gives != Some(*goal));
        let one = gives.or(takes.map(|(line, _)| line));
        // the memory shows what stood before the edge's own write; a line in a sorter is handed over by that sorter
        let load = |number: usize, take: bool, put: Option<Element>| {
            let handed = made.iter().find(|(line, _)| *line == number).map(|(_, line)| line.clone());
            let line = handed.unwrap_or_else(|| self.memory[number].clone());
            Sorter { number, line, elements: self.counts[number] as usize, take, put }
        };
        let put = takes.map(|(_, x)| x).filter(|_| other.is_none());
        let loaded = [
            one.map(|number| load(number, gives.is_some(), put)),
            other.map(|(number, x)| load(number, false, Some(x))),
        ];
        // the edge
        for (number, line) in made {
            self.exit[number] = line[0];
            self.memory[number] = line;
        }
        if let Some(line) = gives {
            self.counts[line] -= 1;
        }
        if let Some((line, _)) = takes {
            self.counts[line] += 1;
        }
        self.sorters = loaded;
        chosen.map(|(answer, _, _)| answer)
    }

    /// The words: the counts, then the lines, whose places 0 are the exit buffer's.
    fn words(&self) -> Vec<u32> {
        let mut words = self.counts.clone();
        for (first, line) in self.exit.iter().zip(&self.memory) {
            for x in std::iter::once(first).chain(&line[1..]) {
                words.extend([x.rank, x.tag, x.length]);
            }
        }
        words
    }

    /// The pending record, as the sorters say it.
    fn record(&self) -> [u32; 5] {
        match &self.sorters {
            [None, _] => [0; 5],
            [Some(s), other] => {
                let put = other.as_ref().map_or(s.put, |other| other.put);
                let x = put.unwrap_or_default();
                let kind = [[0, 1], [2, 3]][s.take as usize][put.is_some() as usize];
                [kind, s.number as u32, x.rank, x.tag, x.length]
            }
        }
    }
}

/// Requests of all sorts, in stretches of mostly pushes and of mostly pops: the same answers, and after each cycle the same store.
#[test]
fn the_same_answers_and_the_same_store() {
    let mut rng = Rng::new(seed(), 610);
    let mut handed = 0;
    for kind in [1, 2] {
        for (lines, places) in [(1, 1), (1, 2), (1, 7), (2, 1), (2, 3), (4, 2), (8, 4), (16, 1), (64, 3), (512, 2)] {
            let mut logic = Logic::new(kind, lines, places);
            let (mut store, mut records) = (logic.words(), [[0; 5]]);
            for n in 0..4000u32 {
                let spread = rng.pick(&[2, 9, RANKS as u64, 1 << 32]);
                // of kind 1 few ranks are in one line: they are spread over the lines too
                let over = rng.below(RANKS as u64) as u32 & !(RANKS / lines - 1);
                let rank = (rng.below(spread) as u32).wrapping_add(if rng.once_in(2) { over } else { 0 });
                let x = element(rank, if rng.once_in(30) { 0 } else { n + 1 }, rng.word());
                let request = match rng.below(10) {
                    0 => 0,
                    1..=4 => 3,
                    5 => 1,
                    6 => 2,
                    _ => 1 + n / 100 % 2,
                };
                let mut out = [9; 3];
                let sorting: Vec<usize> = logic.sorters.iter().flatten().map(|s| s.number).collect();
                let expected = lines_clock::cycled(&mut store, kind, lines, places, &mut records, request, x, &mut out);
                let answer = logic.cycle(request, x);
                assert_eq!(
                    answer.map(|_| ()),
                    expected,
                    "kind {kind}, {lines} of {places}, cycle {n}, {request} {x:?}"
                );
                let told = answer.unwrap_or_default();
                assert_eq!([told.rank, told.tag, told.length], out, "kind {kind}, {lines} of {places}, cycle {n}");
                assert_eq!((logic.words(), logic.record()), (store.clone(), records[0]), "cycle {n}");
                handed += logic.sorters.iter().flatten().filter(|s| sorting.contains(&s.number)).count();
            }
        }
    }
    assert!(handed > 10_000, "sorters handed their lines over {handed} times");
}

/// The first place that a sorter leaves is that of the line which it makes, in every small line, whatever is to be done.
#[test]
fn one_comparison_is_enough() {
    for elements in 0..=3usize {
        for ranks in 0..4u32.pow(elements as u32) {
            let mut line: Vec<u32> = (0..elements as u32).map(|i| 1 + ranks / 4u32.pow(i) % 4).collect();
            line.sort_unstable();
            let mut places: Line = line.iter().zip(1..).map(|(rank, tag)| element(*rank, tag, 7)).collect();
            places.resize(4, Element::default());
            for (take, put) in (0..2).flat_map(|take| (0..7).map(move |rank| (take == 1, rank))) {
                let put = if put == 6 { None } else { Some(element(put, 9, 9)) };
                if take && elements == 0 {
                    continue;
                }
                let sorter = Sorter { number: 0, line: places.clone(), elements, take, put };
                assert_eq!(sorter.first(), sorter.made()[0], "{sorter:?}");
            }
        }
    }
}
