//! Lines by clock cycles: the counts change in a request's own cycle, its line in the next.
//!
//! The calls are as C sees them: slices of numbers and one record in, a refusal or nothing out, `out` written.

use crate::call::Record;
use crate::lines::{Ask, Due, Shape, RANKS};
use crate::{element, shape_cause, Causes, Element, No};

/// What a cycle can find broken: a count, the record, or a line of the record.
pub mod cause {
    use crate::lines::cause::LINE;
    use crate::Causes;
    /// L1: a count is above the places of a line.
    pub const COUNT: Causes = 1;
    /// L2: the record's line is none; kind 1, its x has a rank above the last, or a push's line is not that of its rank.
    pub const NO_LINE: Causes = 2;
    pub const RANK: Causes = 4;
    pub const HOME: Causes = 8;
    /// L3: the count of a line into which x goes is 0, or that of a line which only gave is all its places.
    pub const NONE: Causes = 16;
    pub const ALL: Causes = 32;
    /// L4: where the clauses of a line stand: of a push's, of a pop's or replace's, and of where a replace's x goes, if that is another.
    pub const PUSHED: u32 = 6;
    pub const GAVE: u32 = 12;
    pub const GOAL: u32 = 18;

    /// Every clause, and its name.
    pub fn all() -> Vec<(Causes, String)> {
        let own = [
            (COUNT, "a count above the places"),
            (NO_LINE, "no such line"),
            (RANK, "the record's rank above 65,535"),
            (HOME, "a push's line not that of its rank"),
            (NONE, "a count of 0 where x goes"),
            (ALL, "a count of all places where one left"),
        ];
        let mut all: Vec<(Causes, String)> = own.iter().map(|(clause, name)| (*clause, name.to_string())).collect();
        for (at, of) in [(PUSHED, "a push's line"), (GAVE, "the line that gave"), (GOAL, "a replace's goal")] {
            all.extend(LINE.iter().map(|(clause, name)| (clause << at, format!("{of}: {name}"))));
        }
        all
    }
}

/// The record as it is read. Numbers that its kind doesn't use decide nothing.
fn due(&[kind, line, rank, tag, length]: &Record) -> Due {
    let (line, x) = (line as usize, element(rank, tag, length));
    match kind {
        1 => Due::Push { line, x },
        2 => Due::Pop { line },
        3 => Due::Replace { line, x },
        _ => Due::Nothing,
    }
}

/// The record as it is written: 0 for what its kind doesn't use.
fn record(due: Due) -> Record {
    match due {
        Due::Nothing => [0; 5],
        Due::Push { line, x } => [1, line as u32, x.rank, x.tag, x.length],
        Due::Pop { line } => [2, line as u32, 0, 0, 0],
        Due::Replace { line, x } => [3, line as u32, x.rank, x.tag, x.length],
    }
}

/// The line that gave, and the line into which x goes.
fn ends(shape: Shape, due: Due) -> (Option<usize>, Option<usize>) {
    match due {
        Due::Nothing => (None, None),
        Due::Push { line, .. } => (None, Some(line)),
        Due::Pop { line } => (Some(line), None),
        Due::Replace { line, x } => (Some(line), Some(shape.goal(line, x))),
    }
}

/// How many elements a line had before the pending work: its count, less one where x comes in, and one more where one leaves.
fn had(shape: Shape, counts: &[u32], due: Due, line: usize) -> usize {
    let (gave, took) = ends(shape, due);
    counts[line] as usize + (gave == Some(line)) as usize - (took == Some(line)) as usize
}

/// Which clauses a cycle finds broken. A test that needs what another one says is not made where that one fails.
fn broken(shape: Shape, store: &[u32], due: Due) -> Causes {
    let mut causes = 0;
    if !shape.counts_ok(store) {
        causes |= cause::COUNT;
    }
    let named = match due {
        Due::Nothing => return causes,
        Due::Push { line, .. } | Due::Pop { line } | Due::Replace { line, .. } => line,
    };
    if named >= shape.lines {
        causes |= cause::NO_LINE;
    }
    if let (1, Due::Push { x, .. } | Due::Replace { x, .. }) = (shape.kind, due) {
        if x.rank >= RANKS {
            causes |= cause::RANK;
        } else if due == (Due::Push { line: named, x }) && named < shape.lines && shape.line_of(x.rank) != named {
            causes |= cause::HOME;
        }
    }
    if causes != 0 {
        return causes;
    }
    let (gave, took) = ends(shape, due);
    if took.map_or(false, |line| shape.count(store, line) == 0) {
        causes |= cause::NONE;
    }
    if gave.map_or(false, |line| took != gave && shape.count(store, line) == shape.places) {
        causes |= cause::ALL;
    }
    if causes != 0 {
        return causes;
    }
    let of = |line: usize, at: u32| shape.line_causes(store, line, had(shape, store, due, line)) << at;
    causes |= gave.map_or(0, |line| of(line, cause::GAVE));
    let other = took.filter(|_| took != gave);
    causes | other.map_or(0, |line| of(line, if gave.is_none() { cause::PUSHED } else { cause::GOAL }))
}

/// One cycle on store and record. Refused 4, 5, 6 or 7 it runs as an idle one; refused 2 nothing moves.
fn cycle(shape: Shape, store: &mut [u32], pending: &mut Record, ask: Ask) -> Result<Element, No> {
    let before = due(pending);
    let causes = broken(shape, store, before);
    if causes != 0 {
        return Err(No::Damaged(causes));
    }
    // the line of the record, as one at a time; nothing is refused any more that would leave it
    let counts = store[..shape.lines].to_vec();
    shape.work(store, before, |line| had(shape, &counts, before, line));
    // the request, by the counts as they stood and the first places as the sorting leaves them
    let asked = shape.asked(ask).and_then(|()| shape.choose(store, |line| shape.get(store, line, 0), ask));
    let now = asked.map_or(Due::Nothing, |(_, due)| due);
    shape.recount(store, now);
    *pending = record(now);
    asked.map(|(answer, _)| answer)
}

/// What the boundary asks of a call's numbers and slices: the shape, and a record.
fn lent(store: &[u32], kind: u32, lines: u32, places: u32, records: &[Record]) -> Result<Shape, No> {
    let mut causes = match Shape::new(kind, lines, places, store.len()) {
        Err(No::BadShape(causes)) => causes,
        _ => 0,
    };
    if records.is_empty() {
        causes |= shape_cause::RECORDS;
    }
    match causes {
        0 => Shape::new(kind, lines, places, store.len()),
        _ => Err(No::BadShape(causes)),
    }
}

/// The one record; a kind above 3 is none.
fn pending(records: &mut [Record]) -> Result<&mut Record, No> {
    match records.first_mut() {
        Some(record) if record[0] <= 3 => Ok(record),
        _ => Err(No::BadShape(shape_cause::KIND)),
    }
}

/// Reads no record: only that there is one matters.
pub fn clear(store: &mut [u32], kind: u32, lines: u32, places: u32, records: &mut [Record]) -> Result<(), No> {
    let shape = lent(store, kind, lines, places, records)?;
    store[..shape.words()].fill(0);
    records[0] = [0; 5];
    Ok(())
}

#[allow(clippy::too_many_arguments)]
pub fn cycled(
    store: &mut [u32],
    kind: u32,
    lines: u32,
    places: u32,
    records: &mut [Record],
    request: u32,
    x: Element,
    out: &mut [u32],
) -> Result<(), No> {
    if out.len() < 3 {
        return Err(No::BadShape(shape_cause::OUT));
    }
    let ask = match request {
        0 => Ok(Ask::Idle),
        1 => Ok(Ask::Push(x)),
        2 => Ok(Ask::Pop),
        3 => Ok(Ask::Replace(x)),
        _ => Err(No::BadShape(shape_cause::REQUEST)),
    };
    let answer = ask.and_then(|ask| {
        let shape = lent(store, kind, lines, places, records)?;
        cycle(shape, store, pending(records)?, ask)
    });
    let e = answer.unwrap_or_default();
    out[..3].copy_from_slice(&[e.rank, e.tag, e.length]);
    answer.map(|_| ())
}

/// Idle cycles until nothing is pending or the budget is spent; refused 2 the cycles already run, and work left.
pub fn drain(
    store: &mut [u32],
    kind: u32,
    lines: u32,
    places: u32,
    records: &mut [Record],
    budget: u32,
    out: &mut [u32],
) -> Result<(), No> {
    if out.len() < 2 {
        return Err(No::BadShape(shape_cause::OUT));
    }
    out[..2].fill(0);
    let shape = lent(store, kind, lines, places, records)?;
    let record = pending(records)?;
    while record[0] != 0 {
        out[1] = 1;
        if out[0] == budget {
            return Ok(());
        }
        cycle(shape, store, record, Ask::Idle)?;
        out[0] += 1;
    }
    out[1] = 0;
    Ok(())
}

/// What is held in the middle of any work: the elements of all lines as the pending work leaves them. Where it carries an x that is one of
/// them, and where a line gave its first place is none.
pub fn in_flight(store: &[u32], kind: u32, lines: u32, places: u32, records: &[Record]) -> Vec<Element> {
    let shape = Shape::new(kind, lines, places, store.len()).expect("a good shape");
    let due = due(&records[0]);
    let (gave, _) = ends(shape, due);
    let mut all = Vec::new();
    for line in 0..shape.lines {
        let gone = (gave == Some(line)) as usize;
        all.extend((gone..had(shape, store, due, line)).map(|place| shape.get(store, line, place)));
    }
    if let Due::Push { x, .. } | Due::Replace { x, .. } = due {
        all.push(x);
    }
    all
}

#[cfg(test)]
mod tests {
    use super::*;

    struct Machine([u32; 20], [Record; 1]);

    impl Machine {
        fn ask(&mut self, request: u32, rank: u32, tag: u32) -> (u32, [u32; 3]) {
            let mut out = [9; 3];
            let x = element(rank, tag, 10 * tag);
            let number = cycled(&mut self.0, 1, 2, 3, &mut self.1, request, x, &mut out);
            (number.map_or_else(No::number, |()| 0), out)
        }
        /// The counts, and the tags of both lines.
        fn seen(&self) -> ([u32; 2], [u32; 6]) {
            let tags = [3, 6, 9, 12, 15, 18].map(|at| self.0[at]);
            ([self.0[0], self.0[1]], tags)
        }
    }

    /// The rules' own table: pop, pop, replace 40000/41, idle.
    #[test]
    fn worked() {
        let mut m = Machine([7; 20], [[9; 5]]);
        assert_eq!(clear(&mut m.0, 1, 2, 3, &mut m.1), Ok(()));
        for (rank, tag) in [(5, 50), (40000, 40), (3, 30), (5, 51)] {
            assert_eq!(m.ask(1, rank, tag), (0, [0; 3]));
        }
        let mut out = [9; 2];
        assert_eq!(drain(&mut m.0, 1, 2, 3, &mut m.1, 9, &mut out), Ok(()));
        assert_eq!((out, m.seen(), m.1[0]), ([1, 0], ([3, 1], [30, 50, 51, 40, 0, 0]), [0; 5]));
        assert_eq!(m.ask(2, 0, 0), (0, [3, 30, 300]));
        assert_eq!((m.seen(), m.1[0]), (([2, 1], [30, 50, 51, 40, 0, 0]), [2, 0, 0, 0, 0]));
        assert_eq!(m.ask(2, 0, 0), (0, [5, 50, 500]));
        assert_eq!((m.seen(), m.1[0]), (([1, 1], [50, 51, 0, 40, 0, 0]), [2, 0, 0, 0, 0]));
        assert_eq!(m.ask(3, 40000, 41), (0, [5, 51, 510]));
        assert_eq!((m.seen(), m.1[0]), (([0, 2], [51, 0, 0, 40, 0, 0]), [3, 0, 40000, 41, 410]));
        assert_eq!(m.ask(0, 0, 0), (0, [0; 3]));
        assert_eq!((m.seen(), m.1[0]), (([0, 2], [0, 0, 0, 40, 41, 0]), [0; 5]));
    }
}
