//! A run as a waveform: a value change dump, as GTKWave and other viewers read it.
//!
//! A cycle takes ten time steps of a nanosecond; the clock rises at its start. With the rising edge that ends cycle n (time 10 n) everything shows what that
//! cycle did: its request and answer, and what it left. Values that do not change are not written again, so a long trace streams.

use crate::machine::{Cycle, Machine, Numbers};
use crate::run::Run;
use std::collections::HashMap;
use std::io::{self, BufRead, Write};
use trace_text::{Fault, Op};

/// Why no waveform came out.
#[derive(Debug)]
pub enum Fails {
    /// The trace is bad.
    Trace(Fault),
    /// It could not be written.
    Write(io::Error),
}

impl From<Fault> for Fails {
    fn from(what: Fault) -> Fails {
        Fails::Trace(what)
    }
}

impl From<io::Error> for Fails {
    fn from(what: io::Error) -> Fails {
        Fails::Write(what)
    }
}

/// A signal's name in the file: letters and signs, as few as will do.
fn short(mut n: usize) -> String {
    let mut name = String::new();
    loop {
        name.push((b'!' + (n % 94) as u8) as char);
        n /= 94;
        if n == 0 {
            return name;
        }
        n -= 1;
    }
}

/// A value: bits, or a word that viewers show as text.
#[derive(Clone, PartialEq, Eq)]
enum Value {
    Bits(u32),
    Word(&'static str),
}

/// Writes signals as they change.
struct Signals<W> {
    to: W,
    ids: HashMap<String, usize>,
    last: Vec<Option<Value>>,
    widths: Vec<u32>,
    /// The time that was written last, and the one that holds now.
    written: Option<u64>,
    now: u64,
}

impl<W: Write> Signals<W> {
    fn scope(&mut self, name: &str) -> io::Result<()> {
        writeln!(self.to, "$scope module {name} $end")
    }

    fn end(&mut self) -> io::Result<()> {
        writeln!(self.to, "$upscope $end")
    }

    /// Declares a signal; width 0 is a word.
    fn declare(&mut self, scope: &str, name: &str, width: u32) -> io::Result<()> {
        let id = self.widths.len();
        self.ids.insert(format!("{scope}.{name}"), id);
        self.widths.push(width);
        self.last.push(None);
        match width {
            0 => writeln!(self.to, "$var string 1 {} {name} $end", short(id)),
            1 => writeln!(self.to, "$var wire 1 {} {name} $end", short(id)),
            _ => writeln!(self.to, "$var wire {width} {} {name} [{}:0] $end", short(id), width - 1),
        }
    }

    fn set(&mut self, id: usize, value: Value) -> io::Result<()> {
        if self.last[id].as_ref() == Some(&value) {
            return Ok(());
        }
        if self.written != Some(self.now) {
            writeln!(self.to, "#{}", self.now)?;
            self.written = Some(self.now);
        }
        let name = short(id);
        match &value {
            Value::Bits(n) if self.widths[id] == 1 => writeln!(self.to, "{n}{name}")?,
            Value::Bits(n) => writeln!(self.to, "b{n:b} {name}")?,
            Value::Word(word) => writeln!(self.to, "s{word} {name}")?,
        }
        self.last[id] = Some(value);
        Ok(())
    }

    fn id(&self, scope: &str, name: &str) -> usize {
        self.ids[&format!("{scope}.{name}")]
    }
}

/// The numbers of the signals of one level.
struct Level {
    /// What was shown last: the record, and whether there was a write.
    shown: Option<(Numbers, bool)>,
    record: Vec<usize>,
    kind: usize,
    writes: Vec<Written>,
}

/// The numbers of the signals of one write: on, node and slot, then the words before and after.
struct Written {
    at: Vec<usize>,
    old: Vec<usize>,
    new: Vec<usize>,
}

/// The numbers of all signals.
struct Ids {
    clock: usize,
    cycle: usize,
    asked: [usize; 4],
    name: usize,
    answer: [usize; 4],
    said: usize,
    mark: Option<usize>,
    held: usize,
    levels: Vec<Level>,
}

const ELEMENT: [&str; 3] = ["rank", "tag", "length"];

fn head<W: Write>(s: &mut Signals<W>, machine: &Machine) -> io::Result<Ids> {
    let form = machine.form();
    writeln!(s.to, "$comment {} $end", machine.title())?;
    writeln!(s.to, "$timescale 1 ns $end")?;
    s.scope("card")?;
    for (name, width) in [("clock", 1), ("cycle", 32), ("mark", 1), ("held", 32)] {
        if name != "mark" || form.marked {
            s.declare("card", name, width)?;
        }
    }
    for (scope, first, width) in [("request", "code", 2), ("answer", "number", 4)] {
        s.scope(scope)?;
        s.declare(scope, "name", 0)?;
        s.declare(scope, first, width)?;
        for name in ELEMENT {
            s.declare(scope, name, 32)?;
        }
        s.end()?;
    }
    let mut levels = Vec::new();
    for level in 1..=machine.levels() {
        levels.push(level_head(s, machine, level)?);
    }
    s.end()?;
    writeln!(s.to, "$enddefinitions $end")?;
    let four =
        |scope: &str, first: &str| [s.id(scope, first), s.id(scope, "rank"), s.id(scope, "tag"), s.id(scope, "length")];
    Ok(Ids {
        clock: s.id("card", "clock"),
        cycle: s.id("card", "cycle"),
        mark: if form.marked { Some(s.id("card", "mark")) } else { None },
        held: s.id("card", "held"),
        asked: four("request", "code"),
        name: s.id("request", "name"),
        answer: four("answer", "number"),
        said: s.id("answer", "name"),
        levels,
    })
}

fn level_head<W: Write>(s: &mut Signals<W>, machine: &Machine, level: u32) -> io::Result<Level> {
    let (scope, form, writes) = (format!("level{level}"), machine.form(), machine.writes());
    let mut found = Level { shown: None, record: Vec::new(), kind: 0, writes: Vec::new() };
    s.scope(&scope)?;
    if level >= form.first {
        let scope = format!("{scope}.record");
        s.scope("record")?;
        s.declare(&scope, "name", 0)?;
        found.kind = s.id(&scope, "name");
        for name in form.record {
            s.declare(&scope, name, if *name == "kind" { 2 } else { 32 })?;
            found.record.push(s.id(&scope, name));
        }
        s.end()?;
    }
    for i in 0..writes {
        let name = if writes == 1 { String::from("write") } else { format!("write{i}") };
        let scope = format!("{scope}.{name}");
        s.scope(&name)?;
        let mut one = Written { at: Vec::new(), old: Vec::new(), new: Vec::new() };
        for (name, width) in [("on", 1), (form.node, 32), ("slot", 32)] {
            s.declare(&scope, name, width)?;
            one.at.push(s.id(&scope, name));
        }
        for (ids, when) in [(&mut one.old, "old"), (&mut one.new, "new")] {
            for name in form.slot {
                let name = format!("{when}_{name}");
                s.declare(&scope, &name, 32)?;
                ids.push(s.id(&scope, &name));
            }
        }
        s.end()?;
        found.writes.push(one);
    }
    s.end()?;
    Ok(found)
}

fn said(cycle: &Cycle) -> &'static str {
    match (card_host::Refusal::of(cycle.answer.number), cycle.op) {
        (Some(card_host::Refusal::TooSoon), _) => "too_soon",
        (Some(card_host::Refusal::BadRank), _) => "bad_rank",
        (Some(card_host::Refusal::Full), _) => "full",
        (Some(card_host::Refusal::Empty), _) => "empty",
        (Some(card_host::Refusal::NoTag), _) => "no_tag",
        (Some(_), _) => "refused",
        (None, Op::Idle) => "idle",
        (None, Op::Push(_)) => "pushed",
        (None, _) => "out",
    }
}

/// Everything as it is after a cycle; at first as cleared.
fn show<W: Write>(s: &mut Signals<W>, ids: &mut Ids, cycle: &Cycle, machine: &Machine) -> io::Result<()> {
    let (code, x) = cycle.op.coded();
    s.set(ids.cycle, Value::Bits(cycle.number as u32))?;
    s.set(ids.name, Value::Word(cycle.op.name()))?;
    s.set(ids.said, Value::Word(said(cycle)))?;
    let a = cycle.answer;
    for i in 0..4 {
        s.set(ids.asked[i], Value::Bits(if i == 0 { code as u32 } else { x[i - 1] }))?;
        s.set(ids.answer[i], Value::Bits(if i == 0 { a.number } else { a.out[i - 1] }))?;
    }
    if let Some(mark) = ids.mark {
        s.set(mark, Value::Bits(machine.mark() as u32))?;
    }
    s.set(ids.held, Value::Bits(machine.held()))?;
    for (i, level) in ids.levels.iter_mut().enumerate() {
        let recorded = machine.recorded().contains(&(i as u32 + 1));
        let record = if recorded { machine.record(i as u32 + 1) } else { [0; 6] };
        let mut writes = cycle.writes.iter().filter(|w| w.level == i as u32 + 1).peekable();
        let wrote = writes.peek().is_some();
        // most levels rest in most cycles
        if level.shown == Some((record, false)) && !wrote {
            continue;
        }
        level.shown = Some((record, wrote));
        if recorded {
            s.set(level.kind, Value::Word(machine.form().kinds[record[0] as usize]))?;
            for (id, n) in level.record.iter().zip(record) {
                s.set(*id, Value::Bits(n))?;
            }
        }
        for one in &level.writes {
            let (at, old, new) =
                writes.next().map_or(([0; 3], [0; 4], [0; 4]), |w| ([1, w.node, w.slot], w.old, w.new));
            let words = one.at.iter().zip(at).chain(one.old.iter().zip(old)).chain(one.new.iter().zip(new));
            for (id, n) in words {
                s.set(*id, Value::Bits(n))?;
            }
        }
    }
    Ok(())
}

/// Writes the waveform of a trace, its drain included, and says how many cycles it has.
pub fn wave<R: BufRead, W: Write>(run: &mut Run<R>, to: W) -> Result<u64, Fails> {
    let mut s = Signals { to, ids: HashMap::new(), last: Vec::new(), widths: Vec::new(), written: None, now: 0 };
    let mut ids = head(&mut s, &run.machine)?;
    s.set(ids.clock, Value::Bits(1))?;
    let cleared = run.machine.last().clone();
    show(&mut s, &mut ids, &cleared, &run.machine)?;
    let mut cycles = 0;
    loop {
        s.now = 10 * cycles + 5;
        s.set(ids.clock, Value::Bits(0))?;
        match run.next_cycle()? {
            None => break,
            Some(_) => cycles += 1,
        }
        s.now = 10 * cycles;
        s.set(ids.clock, Value::Bits(1))?;
        show(&mut s, &mut ids, run.machine.last(), &run.machine)?;
    }
    s.to.flush()?;
    Ok(cycles)
}
