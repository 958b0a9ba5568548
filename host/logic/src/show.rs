//! A run as a page that stands alone, and one cycle of it as a picture.

use crate::machine::{asked, Form, Machine, Numbers};
use crate::run::Run;
use std::fmt::Write as _;
use std::io::{self, BufRead, Write};
use trace_text::Fault;

/// The most cycles that a page has: it is one file that a browser holds whole.
pub const CYCLES: u64 = 20_000;

/// Why there is no page or picture.
#[derive(Debug)]
pub enum Fails {
    /// The trace is bad.
    Trace(Fault),
    /// It could not be written.
    Write(io::Error),
    /// What was asked for is not there.
    Asked(String),
}

impl From<Fault> for Fails {
    fn from(what: Fault) -> Fails {
        Fails::Trace(what)
    }
}

impl From<io::Error> for Fails {
    fn from(what: io::Error) -> Fails {
        Fails::Write(what)
    }
}

fn list(numbers: &[u32]) -> String {
    let words: Vec<String> = numbers.iter().map(u32::to_string).collect();
    format!("[{}]", words.join(","))
}

/// Runs until this cycle, which must be one of the run's.
fn forward<R: BufRead>(run: &mut Run<R>, to: u64) -> Result<(), Fails> {
    while run.machine.last().number < to {
        if run.next_cycle()?.is_none() {
            let last = run.machine.last().number;
            return Err(Fails::Asked(format!("cycle {to}: the run has cycles 0 to {last}")));
        }
    }
    Ok(())
}

/// The state at the page's first cycle.
fn begin(machine: &Machine, to: &mut impl Write) -> io::Result<()> {
    let (order, levels, from, form) = (machine.order(), machine.levels(), machine.last().number, machine.form());
    let nodes: Vec<u32> = (1..=levels).map(|level| machine.nodes(level)).collect();
    write!(
        to,
        "{{name:\"{}\",node:\"{}\",first:{},counted:{},",
        machine.title(),
        form.node,
        form.first,
        form.slot.len() > 3
    )?;
    write!(to, "order:{order},slotted:{},nodes:{nodes:?},levels:{levels},", form.slots(order))?;
    let quoted = |names: &[&str]| -> String { names.iter().map(|n| format!("\"{n}\",")).collect() };
    write!(to, "kinds:[{}],record:[{}],own:[{}],", quoted(&form.kinds), quoted(form.record), quoted(form.own))?;
    let used: Vec<String> = form.used.iter().map(|u| format!("{u:?}")).collect();
    write!(to, "used:[{}],above:{:?},marked:{},", used.join(","), form.above, form.marked)?;
    write!(to, "from:{from},mark:{},held:{},slots:[", machine.mark(), machine.held())?;
    for level in 1..=levels {
        write!(to, "{}[", if level > 1 { "," } else { "" })?;
        for node in 0..machine.nodes(level) {
            for slot in 0..form.slots(order) {
                let comma = if node + slot > 0 { "," } else { "" };
                write!(to, "{comma}{}", list(&machine.slot(level, node, slot)))?;
            }
        }
        write!(to, "]")?;
    }
    let records: Vec<String> = machine.recorded().map(|level| list(&machine.record(level))).collect();
    write!(to, "],records:[{}],cycles:[", records.join(","))
}

/// Writes a page of the cycles behind `from`, up to and with `upto`, and says how many there are. Without `upto` the page goes on to
/// the run's end, and must then have no more than [`CYCLES`] cycles.
pub fn page<R: BufRead, W: Write>(run: &mut Run<R>, mut to: W, from: u64, upto: Option<u64>) -> Result<u64, Fails> {
    let (head, tail) = include_str!("page.html").split_once("/*RUN*/").expect("the page has a place for the run");
    forward(run, from)?;
    to.write_all(head.as_bytes())?;
    begin(&run.machine, &mut to)?;
    let mut last: Vec<Numbers> = run.machine.recorded().map(|level| run.machine.record(level)).collect();
    let mut cycles = 0;
    while upto.map_or(true, |upto| from + cycles < upto) && run.next_cycle()?.is_some() {
        if cycles == CYCLES {
            return Err(Fails::Asked(format!(
                "a page has {CYCLES} cycles at most: take a part, as in --from 0 --to {CYCLES}"
            )));
        }
        let (machine, did) = (&run.machine, run.machine.last());
        let comma = if cycles > 0 { ",\n" } else { "\n" };
        let (ask, said) = (asked(did.op), did.answer.said(did.op));
        write!(
            to,
            "{comma}{{asked:\"{ask}\",said:\"{said}\",mark:{},held:{},writes:[",
            machine.mark(),
            machine.held()
        )?;
        let writes: Vec<String> = did
            .writes
            .iter()
            .map(|w| list(&[w.level, w.node, w.slot, w.new[0], w.new[1], w.new[2], w.new[3]]))
            .collect();
        write!(to, "{}],records:[", writes.join(","))?;
        let mut changed = Vec::new();
        for (last, level) in last.iter_mut().zip(machine.recorded()) {
            let r = machine.record(level);
            if r != *last {
                *last = r;
                changed.push(list(&[level, r[0], r[1], r[2], r[3], r[4], r[5]]));
            }
        }
        write!(to, "{}]}}", changed.join(","))?;
        cycles += 1;
    }
    if let Some(upto) = upto.filter(|upto| from + cycles < *upto) {
        return Err(Fails::Asked(format!("cycle {upto}: the run has cycles 0 to {}", from + cycles)));
    }
    to.write_all(b"]}")?;
    to.write_all(tail.as_bytes())?;
    to.flush()?;
    Ok(cycles)
}

/// The most slots of the last level that a picture has room for.
const WIDE: u32 = 32;

const SLOT: u32 = 66;
const GAP: u32 = 18;
const ROW: u32 = 118;

/// Where a node begins: nodes of the last level stand side by side, each other one above the middle of those under it.
fn left(machine: &Machine, level: u32, node: u32) -> u32 {
    let width = machine.form().slots(machine.order()) * SLOT;
    let under = machine.nodes(machine.levels()) / machine.nodes(level);
    let span = under * (width + GAP) - GAP;
    12 + node * (span + GAP) + (span - width) / 2
}

/// A slot's words in two lines.
fn two_lines(form: &Form, order: u32, slot: u32, words: [u32; 4]) -> [String; 2] {
    if slot >= order {
        let own = |i: usize| form.own.get(i).map_or_else(String::new, |name| format!("{name} {}", words[i]));
        return [own(0), own(1)];
    }
    if words == [0; 4] {
        return [String::from("empty"), String::new()];
    }
    let count = if form.slot.len() > 3 { format!(" ×{}", words[3]) } else { String::new() };
    [format!("{}/{}", words[0], words[1]), format!("{}{count}", words[2])]
}

fn slot(svg: &mut String, machine: &Machine, at: [u32; 3], x: u32, y: u32) {
    let [level, node, j] = at;
    let (form, order) = (machine.form(), machine.order());
    let wrote = machine.last().writes.iter().find(|w| [w.level, w.node, w.slot] == at);
    let (fill, thick) = if wrote.is_some() { ("#fff3c4", 3) } else { ("#fff", 1) };
    let _ = writeln!(
        svg,
        "<rect x=\"{x}\" y=\"{y}\" width=\"{SLOT}\" height=\"36\" fill=\"{fill}\" stroke=\"#000\" stroke-width=\"{thick}\"/>"
    );
    let mut line = |dy: u32, text: String| {
        let _ = writeln!(svg, "<text x=\"{}\" y=\"{}\" text-anchor=\"middle\">{text}</text>", x + SLOT / 2, y + dy);
    };
    let [first, second] = two_lines(form, order, j, machine.slot(level, node, j));
    line(15, format!("{}{first}", if wrote.is_some() { "● " } else { "" }));
    if !second.is_empty() {
        line(30, second);
    }
    if let Some(w) = wrote {
        line(50, format!("was {}", two_lines(form, order, j, w.old)[0]));
    }
}

/// The lines from a node to those under it: from each slot of a tree to its own, else from the middle.
fn lines(svg: &mut String, machine: &Machine, level: u32, node: u32, y: u32) {
    let slots = machine.form().slots(machine.order());
    for j in 0..machine.fan() {
        let part = if machine.fan() == slots { j * SLOT + SLOT / 2 } else { slots * SLOT / 2 };
        let from = left(machine, level, node) + part;
        let under = left(machine, level + 1, node * machine.fan() + j) + slots * SLOT / 2;
        let (top, end) = (y + 54, y + ROW - 24);
        let _ = writeln!(svg, "<line x1=\"{from}\" y1=\"{top}\" x2=\"{under}\" y2=\"{end}\" stroke=\"#999\"/>");
    }
}

/// Draws the tree behind one cycle: slots, what was written in it, and the pending records between the levels.
pub fn picture<R: BufRead>(run: &mut Run<R>, cycle: u64) -> Result<String, Fails> {
    forward(run, cycle)?;
    let machine = &run.machine;
    let (levels, slots) = (machine.levels(), machine.form().slots(machine.order()));
    let last = machine.nodes(levels) * slots;
    if last > WIDE {
        return Err(Fails::Asked(format!(
            "a picture has room for {WIDE} slots of the last level, and here are {last}"
        )));
    }
    let width = (left(machine, levels, machine.nodes(levels) - 1) + slots * SLOT + 12).max(620);
    let height = 110 + (levels - 1) * ROW;
    let mut svg = format!(
        "<svg xmlns=\"http://www.w3.org/2000/svg\" width=\"{width}\" height=\"{height}\" viewBox=\"0 0 {width} {height}\" \
         font-family=\"monospace\" font-size=\"12\">\n<rect width=\"{width}\" height=\"{height}\" fill=\"#fff\"/>\n"
    );
    let did = machine.last();
    let (ask, said) = (asked(did.op), did.answer.said(did.op));
    let mark = match (machine.form().marked, machine.mark()) {
        (false, _) => "",
        (true, true) => "mark on, ",
        (true, false) => "mark off, ",
    };
    let held = machine.held();
    let _ = writeln!(
        svg,
        "<text x=\"12\" y=\"22\" font-weight=\"bold\">cycle {cycle}: {ask} → {said}; {mark}held {held}</text>"
    );
    let due: Vec<(String, u32, u32)> = machine.recorded().filter_map(|level| machine.due(level)).collect();
    for level in 1..=levels {
        let y = 44 + (level - 1) * ROW;
        for node in 0..machine.nodes(level) {
            let x = left(machine, level, node);
            for j in 0..slots {
                slot(&mut svg, machine, [level, node, j], x + j * SLOT, y);
            }
            for (text, _, _) in due.iter().filter(|d| (d.1, d.2) == (level, node)) {
                let (left, top, wide) = (x - 4, y - 4, slots * SLOT + 8);
                let _ = writeln!(
                    svg,
                    "<rect x=\"{left}\" y=\"{top}\" width=\"{wide}\" height=\"44\" fill=\"none\" stroke=\"#000\" stroke-dasharray=\"4 3\"/>"
                );
                let _ = writeln!(svg, "<text x=\"{x}\" y=\"{}\">▶ pending: {text}</text>", y - 9);
            }
            if level < levels {
                lines(&mut svg, machine, level, node, y);
            }
        }
    }
    svg += "</svg>\n";
    Ok(svg)
}
