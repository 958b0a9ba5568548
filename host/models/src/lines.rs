//! Lines on a slice of words, one operation at a time: sorted lines of places, a queue a line (kind 1) or one queue over all of them (kind 2).

use crate::{shape_cause, Causes, Element, No};

/// What a call can find broken: a count, or what of a line.
pub mod cause {
    use crate::Causes;
    /// A count is above the places of a line.
    pub const COUNT: Causes = 1;

    /// What a line can be: not ascending; with a word behind its last element that is not 0; kind 1, with a rank above the last, or with
    /// one that belongs to another line.
    pub const ORDER: Causes = 1;
    pub const RANK_BEHIND: Causes = 2;
    pub const TAG_BEHIND: Causes = 4;
    pub const LENGTH_BEHIND: Causes = 8;
    pub const RANK: Causes = 16;
    pub const HOME: Causes = 32;

    /// A line's clauses, and their names.
    pub const LINE: [(Causes, &str); 6] = [
        (ORDER, "does not ascend"),
        (RANK_BEHIND, "a rank behind the last"),
        (TAG_BEHIND, "a tag behind the last"),
        (LENGTH_BEHIND, "a length behind the last"),
        (RANK, "a rank above 65,535"),
        (HOME, "a rank of another line"),
    ];

    /// Where the clauses stand of the line that gives, and of the line into which x goes where that is another one.
    pub const GIVES: u32 = 1;
    pub const TAKES: u32 = 7;
}

/// The ranks of kind 1.
pub const RANKS: u32 = 65_536;

const NOTHING: Element = Element { rank: 0, tag: 0, length: 0 };

/// What is asked of the lines.
#[derive(Clone, Copy, PartialEq, Eq, Debug)]
pub enum Ask {
    Idle,
    Push(Element),
    Pop,
    Replace(Element),
}

/// What is to be done at the lines: where x goes, which line gives. A replace gives from its line.
#[derive(Clone, Copy, PartialEq, Eq, Debug)]
pub enum Due {
    Nothing,
    Push { line: usize, x: Element },
    Pop { line: usize },
    Replace { line: usize, x: Element },
}

/// A kind, a number of lines and of places in a line that are taken.
#[derive(Clone, Copy, PartialEq, Eq, Debug)]
pub struct Shape {
    pub kind: u32,
    pub lines: usize,
    pub places: usize,
}

impl Shape {
    /// Kind 1 or 2; a power of two from 1 to 512 lines of 1 to 1,024 places; a slice that is long enough.
    pub fn new(kind: u32, lines: u32, places: u32, len: usize) -> Result<Shape, No> {
        let good = (1..=2).contains(&kind)
            && (1..=512).contains(&lines)
            && lines.is_power_of_two()
            && (1..=1024).contains(&places);
        let shape = Shape { kind, lines: lines as usize, places: places as usize };
        match good {
            false => Err(No::BadShape(shape_cause::NUMBERS)),
            true if len < shape.words() => Err(No::BadShape(shape_cause::STORE)),
            true => Ok(shape),
        }
    }

    /// The words of a store: the counts, and three for each place.
    pub fn words(&self) -> usize {
        self.lines + 3 * self.lines * self.places
    }

    /// The first word of a place.
    pub fn word(&self, line: usize, place: usize) -> usize {
        self.lines + 3 * (line * self.places + place)
    }

    pub fn get(&self, store: &[u32], line: usize, place: usize) -> Element {
        let at = self.word(line, place);
        Element { rank: store[at], tag: store[at + 1], length: store[at + 2] }
    }

    pub fn set(&self, store: &mut [u32], line: usize, place: usize, x: Element) {
        let at = self.word(line, place);
        store[at..at + 3].copy_from_slice(&[x.rank, x.tag, x.length]);
    }

    pub fn count(&self, store: &[u32], line: usize) -> usize {
        store[line] as usize
    }

    /// How many are held: the sum of the counts.
    pub fn held(&self, store: &[u32]) -> usize {
        (0..self.lines).map(|line| self.count(store, line)).sum()
    }

    /// The line of a rank, of kind 1: each line has as many ranks as every other.
    pub fn line_of(&self, rank: u32) -> usize {
        (rank / (RANKS / self.lines as u32)) as usize
    }

    /// Where the x of a replace goes, whose line gives.
    pub fn goal(&self, line: usize, x: Element) -> usize {
        match self.kind {
            1 => self.line_of(x.rank),
            _ => line,
        }
    }

    /// Every count is at most the places of a line.
    pub fn counts_ok(&self, store: &[u32]) -> bool {
        (0..self.lines).all(|line| self.count(store, line) <= self.places)
    }

    /// What is broken in a line of so many elements.
    pub fn line_causes(&self, store: &[u32], line: usize, c: usize) -> Causes {
        let mut causes = 0;
        let ranks: Vec<u32> = (0..c).map(|place| self.get(store, line, place).rank).collect();
        if ranks.windows(2).any(|pair| pair[0] > pair[1]) {
            causes |= cause::ORDER;
        }
        if c < self.places {
            let behind = self.get(store, line, c);
            let words = [
                (behind.rank, cause::RANK_BEHIND),
                (behind.tag, cause::TAG_BEHIND),
                (behind.length, cause::LENGTH_BEHIND),
            ];
            causes |= words.iter().filter(|(word, _)| *word != 0).map(|(_, clause)| clause).sum::<Causes>();
        }
        if self.kind == 1 {
            if ranks.iter().any(|&rank| rank >= RANKS) {
                causes |= cause::RANK;
            }
            if ranks.iter().any(|&rank| rank < RANKS && self.line_of(rank) != line) {
                causes |= cause::HOME;
            }
        }
        causes
    }

    /// 4 and 7, which are asked of x alone.
    pub fn asked(&self, ask: Ask) -> Result<(), No> {
        match ask {
            Ask::Push(x) | Ask::Replace(x) if self.kind == 1 && x.rank >= RANKS => Err(No::BadRank),
            Ask::Push(x) | Ask::Replace(x) if x.tag == 0 => Err(No::NoTag),
            _ => Ok(()),
        }
    }

    /// The line that gives, by the counts and the first places of the lines that are not empty.
    fn giver(&self, store: &[u32], first: impl Fn(usize) -> Element) -> Option<usize> {
        let mut given = (0..self.lines).filter(|&line| self.count(store, line) > 0);
        match self.kind {
            1 => given.next(),
            // of equal ranks the first
            _ => given.min_by_key(|&line| first(line).rank),
        }
    }

    /// What a request comes to by the counts and the first places: what it answers, and what is to be done.
    pub fn choose(&self, store: &[u32], first: impl Fn(usize) -> Element, ask: Ask) -> Result<(Element, Due), No> {
        let room = |line: usize| self.count(store, line) < self.places;
        let gives = || self.giver(store, &first).ok_or(No::Empty);
        match ask {
            Ask::Idle => Ok((NOTHING, Due::Nothing)),
            Ask::Push(x) => {
                let taker = match self.kind {
                    1 => Some(self.line_of(x.rank)).filter(|&line| room(line)),
                    _ => (0..self.lines).find(|&line| room(line)),
                };
                taker.map(|line| (NOTHING, Due::Push { line, x })).ok_or(No::Full)
            }
            Ask::Pop => gives().map(|line| (first(line), Due::Pop { line })),
            Ask::Replace(x) => {
                let line = gives()?;
                let goal = self.goal(line, x);
                // the line that gave has room after the pop
                match goal == line || room(goal) {
                    true => Ok((first(line), Due::Replace { line, x })),
                    false => Err(No::Full),
                }
            }
        }
    }

    /// x into a line of c elements: before the first place of strictly higher rank.
    fn put(&self, store: &mut [u32], line: usize, c: usize, x: Element) {
        let to = (0..c).find(|&place| self.get(store, line, place).rank > x.rank).unwrap_or(c);
        for place in (to..c).rev() {
            let moved = self.get(store, line, place);
            self.set(store, line, place + 1, moved);
        }
        self.set(store, line, to, x);
    }

    /// Place 0 out of a line of c elements.
    fn take(&self, store: &mut [u32], line: usize, c: usize) {
        for place in 1..c {
            let moved = self.get(store, line, place);
            self.set(store, line, place - 1, moved);
        }
        self.set(store, line, c - 1, NOTHING);
    }

    /// Works at the lines, of which each has so many elements. The counts stand.
    pub fn work(&self, store: &mut [u32], due: Due, had: impl Fn(usize) -> usize) {
        match due {
            Due::Nothing => {}
            Due::Push { line, x } => self.put(store, line, had(line), x),
            Due::Pop { line } => self.take(store, line, had(line)),
            Due::Replace { line, x } => {
                let goal = self.goal(line, x);
                self.take(store, line, had(line));
                self.put(store, goal, if goal == line { had(line) - 1 } else { had(goal) }, x);
            }
        }
    }

    /// The counts as what is to be done changes them.
    pub fn recount(&self, store: &mut [u32], due: Due) {
        if let Due::Pop { line } | Due::Replace { line, .. } = due {
            store[line] -= 1;
        }
        match due {
            Due::Push { line, .. } => store[line] += 1,
            Due::Replace { line, x } => store[self.goal(line, x)] += 1,
            _ => {}
        }
    }
}

/// The tests of the lines that are worked at.
fn lines_ok(shape: Shape, store: &[u32], due: Due) -> Result<(), No> {
    let of = |line: usize, at: u32| shape.line_causes(store, line, shape.count(store, line)) << at;
    let causes = match due {
        Due::Nothing => 0,
        Due::Push { line, .. } => of(line, cause::TAKES),
        Due::Pop { line } => of(line, cause::GIVES),
        Due::Replace { line, x } => {
            let goal = shape.goal(line, x);
            of(line, cause::GIVES) | if goal == line { 0 } else { of(goal, cause::TAKES) }
        }
    };
    if causes == 0 {
        Ok(())
    } else {
        Err(No::Damaged(causes))
    }
}

/// A push, pop or replace: 1, 4 and 7, 2 of the counts, 5 or 6, 2 of the lines; and only then the writes.
fn operation(store: &mut [u32], shape: Shape, ask: Ask) -> Result<Element, No> {
    shape.asked(ask)?;
    if !shape.counts_ok(store) {
        return Err(No::Damaged(cause::COUNT));
    }
    let (answer, due) = shape.choose(store, |line| shape.get(store, line, 0), ask)?;
    lines_ok(shape, store, due)?;
    let counts = store[..shape.lines].to_vec();
    shape.work(store, due, |line| counts[line] as usize);
    shape.recount(store, due);
    Ok(answer)
}

pub fn clear(store: &mut [u32], kind: u32, lines: u32, places: u32) -> Result<(), No> {
    let shape = Shape::new(kind, lines, places, store.len())?;
    store[..shape.words()].fill(0);
    Ok(())
}

pub fn push(store: &mut [u32], kind: u32, lines: u32, places: u32, x: Element) -> Result<(), No> {
    let shape = Shape::new(kind, lines, places, store.len())?;
    operation(store, shape, Ask::Push(x)).map(|_| ())
}

pub fn pop(store: &mut [u32], kind: u32, lines: u32, places: u32) -> Result<Element, No> {
    let shape = Shape::new(kind, lines, places, store.len())?;
    operation(store, shape, Ask::Pop)
}

pub fn replace(store: &mut [u32], kind: u32, lines: u32, places: u32, x: Element) -> Result<Element, No> {
    let shape = Shape::new(kind, lines, places, store.len())?;
    operation(store, shape, Ask::Replace(x))
}

/// Of the words it reads the counts alone.
pub fn held(store: &[u32], kind: u32, lines: u32, places: u32) -> Result<u32, No> {
    let shape = Shape::new(kind, lines, places, store.len())?;
    if shape.counts_ok(store) {
        Ok(shape.held(store) as u32)
    } else {
        Err(No::Damaged(cause::COUNT))
    }
}

/// Whether each line is sorted and neat: its elements ascend, and every place behind them is 0, 0, 0.
pub fn neat(store: &[u32], kind: u32, lines: u32, places: u32) -> bool {
    let shape = Shape::new(kind, lines, places, store.len()).expect("a good shape");
    shape.counts_ok(store)
        && (0..shape.lines).all(|line| {
            let c = shape.count(store, line);
            let behind = &store[shape.word(line, c)..shape.word(line, shape.places)];
            shape.line_causes(store, line, c) == 0 && behind.iter().all(|word| *word == 0)
        })
}

#[cfg(test)]
mod tests {
    use super::*;
    use crate::element;

    /// The store of the rules, and what follows from it.
    #[test]
    fn the_store_of_the_rules() {
        let pushed = |kind| {
            let mut store = [7; 21];
            assert_eq!(clear(&mut store, kind, 2, 3), Ok(()));
            for x in [element(5, 50, 500), element(40000, 40, 400), element(3, 30, 300), element(5, 51, 510)] {
                assert_eq!(push(&mut store, kind, 2, 3, x), Ok(()));
            }
            store
        };
        let mut store = pushed(1);
        assert_eq!(store, [3, 1, 3, 30, 300, 5, 50, 500, 5, 51, 510, 40000, 40, 400, 0, 0, 0, 0, 0, 0, 7]);
        assert_eq!(push(&mut store, 1, 2, 3, element(6, 60, 600)), Err(No::Full));
        assert_eq!(push(&mut store, 1, 2, 3, element(65_536, 0, 600)), Err(No::BadRank));
        assert_eq!(push(&mut store, 1, 2, 3, element(65_535, 0, 600)), Err(No::NoTag));
        assert_eq!(replace(&mut store, 1, 2, 3, element(5, 52, 520)), Ok(element(3, 30, 300)));
        let tags = [0; 4].map(|_| pop(&mut store, 1, 2, 3).unwrap().tag);
        assert_eq!((tags, pop(&mut store, 1, 2, 3)), ([50, 51, 52, 40], Err(No::Empty)));
        let mut store = pushed(2);
        assert_eq!(store, [3, 1, 3, 30, 300, 5, 50, 500, 40000, 40, 400, 5, 51, 510, 0, 0, 0, 0, 0, 0, 7]);
        assert_eq!(replace(&mut store, 2, 2, 3, element(u32::MAX, 1, 1)), Ok(element(3, 30, 300)));
        // of equal ranks the first line's
        assert_eq!(pop(&mut store, 2, 2, 3), Ok(element(5, 50, 500)));
        assert_eq!(pop(&mut store, 2, 2, 3), Ok(element(5, 51, 510)));
        assert_eq!(held(&store, 2, 2, 3), Ok(2));
    }

    /// Kind 1's replace into another line that is full: refused, and nothing moves.
    #[test]
    fn a_replace_into_a_full_line() {
        let mut store = vec![0; 2 + 6];
        for x in [element(1, 10, 100), element(40000, 40, 400)] {
            assert_eq!(push(&mut store, 1, 2, 1, x), Ok(()));
        }
        let before = store.clone();
        assert_eq!(replace(&mut store, 1, 2, 1, element(50000, 50, 500)), Err(No::Full));
        assert_eq!(store, before);
        assert_eq!(replace(&mut store, 1, 2, 1, element(2, 20, 200)), Ok(element(1, 10, 100)));
        assert_eq!(pop(&mut store, 1, 2, 1), Ok(element(2, 20, 200)));
        assert_eq!(replace(&mut store, 1, 2, 1, element(50000, 50, 500)), Ok(element(40000, 40, 400)));
        assert_eq!(replace(&mut store, 1, 2, 1, element(2, 21, 210)), Ok(element(50000, 50, 500)));
        assert_eq!(store, [1, 0, 2, 21, 210, 0, 0, 0]);
    }

    #[test]
    fn the_limits() {
        let taken = |kind, lines, places| Shape::new(kind, lines, places, usize::MAX).is_ok();
        assert!(taken(1, 1, 1) && taken(2, 512, 1024) && taken(1, 256, 1024));
        assert!(!taken(0, 1, 1) && !taken(3, 1, 1) && !taken(1, 0, 1) && !taken(1, 3, 1) && !taken(1, 1024, 1));
        assert!(!taken(2, 1, 0) && !taken(2, 1, 1025));
        assert_eq!(Shape::new(1, 2, 3, 20).map(|s| s.words()), Ok(20));
        assert_eq!(Shape::new(1, 2, 3, 19), Err(No::BadShape(shape_cause::STORE)));
    }
}
