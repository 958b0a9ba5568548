//! The text in which a testbench says what its logic did, line by line, and the model's own text of that form.
//!
//! ```text
//! dump 1
//! cycle 1 push 5 50 64
//! slot 1 0 0 5 50 64 1
//! mark 1
//! cycle 2
//! answer 3 0 0 0
//! mark 0
//! ```
//!
//! The first line says the form's number, and behind `without` what its author does not model. A line `cycle N` begins a cycle; what
//! stands behind the number is the request, which may be left out. The lines after it say what is so at that cycle's end, and only
//! what has changed needs a line: a slot, record, mark or held that is not named stands as it stood. A cycle with no `answer` line
//! answered 0 0 0 0. `#` begins a comment.

use crate::machine::{asked, Cycle, Form, Machine, Numbers};
use std::io::{self, Write};

/// The names of an answer's numbers.
pub const ANSWER: [&str; 4] = ["number", "rank", "tag", "length"];

/// What a dump may leave out.
pub const PARTS: [&str; 6] = ["answers", "slots", "records", "mark", "held", "lengths"];

/// What a dump says, and what not: in the order of [`PARTS`].
#[derive(Clone, Copy, PartialEq, Eq, Debug)]
pub struct Has(pub [bool; 6]);

impl Has {
    /// Everything.
    pub const ALL: Has = Has([true; 6]);

    /// Whether this part is there.
    pub fn part(self, name: &str) -> bool {
        PARTS.iter().position(|p| *p == name).map_or(false, |i| self.0[i])
    }
}

/// A number of a dump: none where a simulator printed an unknown one, `x` or `z`.
pub type Number = Option<u32>;

/// A line of a dump.
#[derive(Clone, PartialEq, Eq, Debug)]
pub enum Line {
    /// A cycle begins; the words of its request behind the number, if any.
    Cycle(u64, Vec<String>),
    /// Number, rank, tag and length of the answer.
    Answer(Vec<Number>),
    /// A slot's words behind its level, node and number.
    Slot([u32; 3], Vec<Number>),
    /// A record's numbers behind its level.
    Record(u32, Vec<Number>),
    /// The mark.
    Mark(Number),
    /// How many are held.
    Held(Number),
}

fn number(word: &str) -> Result<u32, String> {
    let digits = !word.is_empty() && word.bytes().all(|b| b.is_ascii_digit());
    word.parse().ok().filter(|_| digits).ok_or_else(|| format!("`{word}` is no number from 0 to {}", u32::MAX))
}

fn unknown(word: &str) -> bool {
    !word.is_empty() && word.bytes().all(|b| matches!(b, b'x' | b'X' | b'z' | b'Z'))
}

fn value(word: &str) -> Result<Number, String> {
    if unknown(word) {
        return Ok(None);
    }
    number(word).map(Some)
}

/// The values of these names; where lengths are not modelled there is none of a length, and it is unknown.
fn values(words: &[&str], says: &str, names: &[&str], lengths: bool) -> Result<Vec<Number>, String> {
    let there = |name: &&str| lengths || *name != "length";
    let takes = names.iter().filter(|n| there(n)).count();
    if words.len() != takes {
        return Err(format!("{says}{}: {} numbers, not {takes}", names.join(", "), words.len()));
    }
    let mut words = words.iter();
    names.iter().map(|name| if there(name) { value(words.next().unwrap_or(&"")) } else { Ok(None) }).collect()
}

/// The first line: what the dump says.
pub fn first(words: &[&str]) -> Result<Has, String> {
    let rest = match words {
        ["dump", "1"] => &[][..],
        ["dump", "1", "without", rest @ ..] if !rest.is_empty() => rest,
        ["dump", other, ..] if *other != "1" => return Err(format!("dump {other}: the form's number is 1")),
        _ => return Err(String::from("the first line is `dump 1`, or `dump 1 without` and what is left out")),
    };
    let mut has = Has::ALL;
    for word in rest {
        match PARTS.iter().position(|p| p == word) {
            Some(i) => has.0[i] = false,
            None => return Err(format!("`{word}` is none of {}", PARTS.join(", "))),
        }
    }
    Ok(has)
}

/// A line that is not empty.
pub fn line(words: &[&str], has: Has, form: &Form, order: u32) -> Result<Line, String> {
    let lengths = has.part("lengths");
    let modelled = |part: &str| match has.part(part) {
        true => Ok(()),
        false => Err(format!("`{}`, but the first line says `without {part}`", words[0])),
    };
    match words[0] {
        "cycle" => match words.get(1).map(|n| n.parse::<u64>()) {
            Some(Ok(n)) => Ok(Line::Cycle(n, words[2..].iter().map(|w| w.to_string()).collect())),
            _ => Err(String::from("cycle takes a number, and the request if it is to be compared")),
        },
        "answer" => {
            modelled("answers")?;
            Ok(Line::Answer(values(&words[1..], "answer takes ", &ANSWER, lengths)?))
        }
        "slot" => {
            modelled("slots")?;
            if words.len() < 4 {
                return Err(format!("slot takes level, {}, slot, {}", form.node, form.slot.join(", ")));
            }
            let at = [number(words[1])?, number(words[2])?, number(words[3])?];
            let says = format!("slot takes, behind level, {} and slot, ", form.node);
            Ok(Line::Slot(at, values(&words[4..], &says, form.fields(order, at[2]), lengths)?))
        }
        "record" => {
            modelled("records")?;
            if words.len() < 2 {
                return Err(format!("record takes level, {}", form.record.join(", ")));
            }
            Ok(Line::Record(
                number(words[1])?,
                values(&words[2..], "record takes, behind the level, ", form.record, lengths)?,
            ))
        }
        "mark" | "held" => {
            modelled(words[0])?;
            let [n] = match words {
                [_, n] => [value(n)?],
                _ => return Err(format!("{} takes a number", words[0])),
            };
            Ok(if words[0] == "mark" { Line::Mark(n) } else { Line::Held(n) })
        }
        other => Err(format!("`{other}` is none of cycle, answer, slot, record, mark, held")),
    }
}

fn listed(numbers: &[u32]) -> String {
    numbers.iter().map(|n| format!(" {n}")).collect()
}

/// What a dump said last of the records, the mark and held: only a change has a line.
pub struct Said {
    records: Vec<Numbers>,
    mark: bool,
    held: u32,
}

impl Said {
    /// Of a cleared machine nothing has to be said.
    pub fn new(machine: &Machine) -> Said {
        Said { records: vec![[0; 6]; machine.recorded().count()], mark: false, held: 0 }
    }

    /// Writes what a cycle did.
    pub fn write(&mut self, to: &mut (impl Write + ?Sized), cycle: &Cycle, machine: &Machine) -> io::Result<()> {
        writeln!(to, "cycle {} {}", cycle.number, asked(cycle.op))?;
        let a = cycle.answer;
        if (a.number, a.out) != (0, [0; 3]) {
            writeln!(to, "answer {} {} {} {}", a.number, a.out[0], a.out[1], a.out[2])?;
        }
        for w in &cycle.writes {
            let words = machine.form().fields(machine.order(), w.slot).len();
            writeln!(to, "slot {} {} {}{}", w.level, w.node, w.slot, listed(&w.new[..words]))?;
        }
        for (last, level) in self.records.iter_mut().zip(machine.recorded()) {
            let now = machine.record(level);
            if *last != now {
                *last = now;
                writeln!(to, "record {level}{}", listed(&now[..machine.form().record.len()]))?;
            }
        }
        if machine.form().marked && self.mark != machine.mark() {
            self.mark = machine.mark();
            writeln!(to, "mark {}", self.mark as u32)?;
        }
        if self.held != machine.held() {
            self.held = machine.held();
            writeln!(to, "held {}", self.held)?;
        }
        Ok(())
    }
}
