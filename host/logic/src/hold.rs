//! The scoreboard: a dump of the user's own logic, held against the model cycle by cycle.

use crate::dump::{self, Has, Line, Number, ANSWER, PARTS};
use crate::machine::{asked, Form, Machine};
use crate::run::Run;
use std::collections::{HashMap, VecDeque};
use std::fmt;
use std::io::BufRead;
use trace_text::{Fault, Lines};

/// How many cycles before the one that differs are shown.
const SHOWN: usize = 5;

/// The first cycle in which the logic and the model differ.
#[derive(Clone, PartialEq, Eq, Debug)]
pub struct Difference {
    /// The cycle, from 1.
    pub cycle: u64,
    /// The request of that cycle.
    pub asked: String,
    /// What differs in it, the first one first.
    pub fields: Vec<Field>,
    /// The cycles before it.
    pub before: Vec<String>,
}

/// One number that differs.
#[derive(Clone, PartialEq, Eq, Debug)]
pub struct Field {
    /// Where it stands: `level 2, node 1, slot 0`, `record of level 2`, `answer`, `mark`, `held`.
    pub place: String,
    /// Which of the numbers there.
    pub name: &'static str,
    /// The model's number.
    pub expected: u32,
    /// The dump's; none where it is unknown.
    pub found: Number,
    /// All numbers there, the model's and the dump's.
    pub words: Option<(String, String)>,
}

fn shown(n: Number) -> String {
    n.map_or_else(|| String::from("x"), |n| n.to_string())
}

impl fmt::Display for Difference {
    fn fmt(&self, f: &mut fmt::Formatter<'_>) -> fmt::Result {
        let mut last = "";
        for (i, field) in self.fields.iter().enumerate() {
            let lead = if i == 0 { format!("cycle {} differs", self.cycle) } else { String::from("and") };
            let name = if field.name.is_empty() { String::new() } else { format!(", {}", field.name) };
            writeln!(f, "{lead}: {}{name}: expected {}, found {}", field.place, field.expected, shown(field.found))?;
            if let (true, Some((expected, found))) = (last != field.place, &field.words) {
                writeln!(f, "  expected {expected}")?;
                writeln!(f, "  found    {found}")?;
            }
            last = &field.place;
        }
        writeln!(f, "the request of cycle {}: {}", self.cycle, self.asked)?;
        if !self.before.is_empty() {
            writeln!(f, "before it:")?;
        }
        for line in &self.before {
            writeln!(f, "  {line}")?;
        }
        Ok(())
    }
}

/// Why a dump does not agree.
#[derive(Clone, PartialEq, Eq, Debug)]
pub enum Fails {
    /// The trace is bad.
    Trace(Fault),
    /// The dump is bad: its line, and what is wrong.
    Dump(u64, String),
    /// The logic differs.
    Differs(Difference),
    /// The dump ends before the trace does.
    Short {
        /// The cycles of the dump.
        cycles: u64,
    },
}

impl From<Fault> for Fails {
    fn from(what: Fault) -> Fails {
        Fails::Trace(what)
    }
}

/// What agreed.
#[derive(Clone, Copy, PartialEq, Eq, Debug)]
pub struct Agrees {
    /// How many cycles.
    pub cycles: u64,
    /// How many of them behind the trace's last record, idle ones.
    pub behind: u64,
    /// What was compared.
    pub has: Has,
}

impl fmt::Display for Agrees {
    fn fmt(&self, f: &mut fmt::Formatter<'_>) -> fmt::Result {
        let said = |is: bool| -> Vec<&str> { (0..6).filter(|i| self.has.0[*i] == is).map(|i| PARTS[i]).collect() };
        write!(f, "{} cycles agree", self.cycles)?;
        if self.behind > 0 {
            write!(f, ", {} of them behind the trace's last record", self.behind)?;
        }
        writeln!(f)?;
        match said(true)[..] {
            [] => writeln!(f, "compared: nothing")?,
            ref parts => writeln!(f, "compared: {}", parts.join(", "))?,
        }
        match said(false)[..] {
            [] => Ok(()),
            ref parts => writeln!(f, "not compared: {}", parts.join(", ")),
        }
    }
}

/// A dump that is read as it is asked for.
struct Dump<R> {
    lines: Lines<R>,
}

impl<R: BufRead> Dump<R> {
    fn bad<T>(&self, what: impl Into<String>) -> Result<T, Fails> {
        Err(Fails::Dump(self.lines.seen(), what.into()))
    }

    fn next_line(&mut self) -> Result<Option<String>, Fails> {
        self.lines.next_line().or_else(|what| self.bad(what))
    }
}

/// What the dump has said so far: the slots that it named, the records, mark and held; and of this cycle the answer and the slots.
struct Image {
    slots: HashMap<[u32; 3], Vec<Number>>,
    records: Vec<Vec<Number>>,
    mark: Number,
    held: Number,
    answer: Vec<Number>,
    named: Vec<[u32; 3]>,
}

impl Image {
    fn new(machine: &Machine) -> Image {
        Image {
            slots: HashMap::new(),
            records: vec![vec![Some(0); 6]; machine.recorded().count()],
            mark: Some(0),
            held: Some(0),
            answer: vec![Some(0); 4],
            named: Vec::new(),
        }
    }

    /// A slot's words as the dump has them; one that it never named is as cleared.
    fn slot(&self, at: [u32; 3]) -> Vec<Number> {
        self.slots.get(&at).cloned().unwrap_or_else(|| vec![Some(0); 4])
    }

    /// Takes in a line of the running cycle.
    fn take(&mut self, line: Line, machine: &Machine) -> Result<(), String> {
        let levels = machine.levels();
        match line {
            Line::Cycle(..) => {}
            Line::Answer(a) => self.answer = a,
            Line::Slot(at, words) => {
                let [level, node, slot] = at;
                if level < 1 || level > levels {
                    return Err(format!("level {level}: there are levels 1 to {levels}"));
                }
                let (name, nodes) = (machine.form().node, machine.nodes(level));
                if node >= nodes {
                    return Err(format!("{name} {node}: level {level} has {name}s 0 to {}", nodes - 1));
                }
                let slots = machine.form().slots(machine.order());
                if slot >= slots {
                    return Err(format!("slot {slot}: a {name} has slots 0 to {}", slots - 1));
                }
                self.slots.insert(at, words);
                self.named.push(at);
            }
            Line::Record(level, numbers) => {
                let first = machine.form().first;
                if level < first || level > levels {
                    return Err(format!("level {level}: there are records of levels {first} to {levels}"));
                }
                self.records[(level - first) as usize] = numbers;
            }
            Line::Mark(n) => self.mark = n,
            Line::Held(n) => self.held = n,
        }
        Ok(())
    }
}

/// Compares the numbers at one place: those that are used, but for the length where lengths are not modelled.
fn compare(
    fields: &mut Vec<Field>,
    place: String,
    names: &[&'static str],
    numbers: (&[u32], &[Number]),
    used: impl Fn(usize) -> bool,
    lengths: bool,
) {
    let (expected, found) = numbers;
    let there: Vec<usize> = (0..names.len()).filter(|i| lengths || names[*i] != "length").collect();
    let listed = |number: &dyn Fn(usize) -> Number| -> String {
        there.iter().map(|i| shown(number(*i))).collect::<Vec<_>>().join(" ")
    };
    for i in there.iter().copied().filter(|i| used(*i) && found[*i] != Some(expected[*i])) {
        let words = if names.len() > 1 { Some((listed(&|i| Some(expected[i])), listed(&|i| found[i]))) } else { None };
        fields.push(Field { place: place.clone(), name: names[i], expected: expected[i], found: found[i], words });
    }
}

/// Holds a dump against the model that plays this trace. With `strict`, numbers that a record's kind does not use must be 0 too.
pub fn hold<T: BufRead, D: BufRead>(run: &mut Run<T>, dump: D, strict: bool) -> Result<Agrees, Fails> {
    let mut lines = Dump { lines: Lines::new(dump) };
    let has = match lines.next_line()? {
        Some(line) => dump::first(&line.split_whitespace().collect::<Vec<_>>()).or_else(|what| lines.bad(what))?,
        None => return lines.bad("there is no line `dump 1`"),
    };
    let (form, order) = (run.machine.form(), run.machine.order());
    let mut image = Image::new(&run.machine);
    let mut before: VecDeque<String> = VecDeque::new();
    let mut behind = 0;
    let mut ahead: Option<Line> = None;
    let mut cycles = 0;
    loop {
        let line = match ahead.take() {
            Some(line) => Some(line),
            None => next(&mut lines, has, form, order)?,
        };
        let request = match line {
            None => break,
            Some(Line::Cycle(n, request)) if n == cycles + 1 => request,
            Some(Line::Cycle(n, _)) => return lines.bad(format!("cycle {n}: cycle {} comes next", cycles + 1)),
            Some(_) => return lines.bad("a line `cycle N` comes first"),
        };
        cycles += 1;
        image.answer = vec![Some(0); 4];
        image.named.clear();
        let op = run.next_op()?;
        behind += run.ended() as u64;
        if !request.is_empty() && !same_request(&asked(op), &request, has.part("lengths") && run.has_lengths()) {
            let request = request.join(" ");
            return lines.bad(format!("cycle {cycles} is asked `{request}`, but the trace asks `{}`", asked(op)));
        }
        while let Some(line) = next(&mut lines, has, form, order)? {
            if let Line::Cycle(..) = line {
                ahead = Some(line);
                break;
            }
            image.take(line, &run.machine).or_else(|what| lines.bad(what))?;
        }
        let fields = differ(run, op, &image, has, strict);
        if !fields.is_empty() {
            let before = before.into_iter().collect();
            return Err(Fails::Differs(Difference { cycle: cycles, asked: asked(op), fields, before }));
        }
        if before.len() == SHOWN {
            before.pop_front();
        }
        before.push_back(recalled(run, cycles, op));
    }
    if !run.ended() {
        run.next_op()?;
    }
    if !run.ended() {
        return Err(Fails::Short { cycles });
    }
    Ok(Agrees { cycles, behind, has })
}

fn next<R: BufRead>(lines: &mut Dump<R>, has: Has, form: &Form, order: u32) -> Result<Option<Line>, Fails> {
    match lines.next_line()? {
        Some(line) => {
            let words: Vec<&str> = line.split_whitespace().collect();
            dump::line(&words, has, form, order).map(Some).or_else(|what| lines.bad(what))
        }
        None => Ok(None),
    }
}

/// Whether the request that a dump names is the trace's; a length may be left out where lengths are not compared.
fn same_request(asked: &str, request: &[String], lengths: bool) -> bool {
    let asked: Vec<&str> = asked.split(' ').collect();
    let all = asked.len() == request.len() && asked.iter().zip(request).all(|(a, b)| a == b);
    let short = asked.len() == 4 && request.len() == 3 && asked[..3].iter().zip(request).all(|(a, b)| a == b);
    all || (short && !lengths)
}

/// A cycle that agreed, in a line.
fn recalled<R: BufRead>(run: &Run<R>, cycle: u64, op: trace_text::Op) -> String {
    let machine = &run.machine;
    let form = machine.form();
    let pending: Vec<String> = machine
        .recorded()
        .map(|level| (level, machine.record(level)))
        .filter(|(_, r)| r[0] != 0)
        .map(|(level, r)| format!("level {level} {} at {} {}", form.kinds[r[0] as usize], form.node, r[1]))
        .collect();
    let pending = if pending.is_empty() { String::from("nothing") } else { pending.join(", ") };
    format!("cycle {cycle}: {} -> {}; pending: {pending}", asked(op), machine.last().answer.said(op))
}

/// Runs the cycle on the model and finds what differs: the answer, then level by level its slots and its record, then mark and held.
fn differ<R: BufRead>(run: &mut Run<R>, op: trace_text::Op, image: &Image, has: Has, strict: bool) -> Vec<Field> {
    let cycle = run.machine.run(op).clone();
    let machine = &run.machine;
    let (form, lengths) = (machine.form(), has.part("lengths"));
    let mut fields = Vec::new();
    if has.part("answers") {
        let a = cycle.answer;
        let expected = [a.number, a.out[0], a.out[1], a.out[2]];
        compare(&mut fields, String::from("answer"), &ANSWER, (&expected, &image.answer), |_| true, lengths);
    }
    for level in 1..=machine.levels() {
        if has.part("slots") {
            // the slots that either side wrote: all others agreed before and stand
            let written = cycle.writes.iter().map(|w| [w.level, w.node, w.slot]);
            let mut at: Vec<[u32; 3]> =
                written.chain(image.named.iter().copied()).filter(|at| at[0] == level).collect();
            at.sort_unstable();
            at.dedup();
            for at in at {
                let place = format!("level {}, {} {}, slot {}", at[0], form.node, at[1], at[2]);
                let (expected, found) = (machine.slot(at[0], at[1], at[2]), image.slot(at));
                let names = form.fields(machine.order(), at[2]);
                compare(&mut fields, place, names, (&expected, &found), |_| true, lengths);
            }
        }
        if level >= form.first && has.part("records") {
            let (expected, found) = (machine.record(level), &image.records[(level - form.first) as usize]);
            let used = |i: usize| strict || form.used[expected[0] as usize].contains(&i);
            compare(&mut fields, format!("record of level {level}"), form.record, (&expected, found), used, lengths);
        }
    }
    if form.marked && has.part("mark") {
        compare(&mut fields, String::from("mark"), &[""], (&[machine.mark() as u32], &[image.mark]), |_| true, lengths);
    }
    if has.part("held") {
        compare(&mut fields, String::from("held"), &[""], (&[machine.held()], &[image.held]), |_| true, lengths);
    }
    fields
}
