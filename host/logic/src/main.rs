//! Waveforms, pictures and a scoreboard for logic that is held against the clocked tree, and traces from text and back.
//!
//! Where the first words are `--heap PLACES LEVELS` the trace's records are played on the clocked cluster heap of that shape, where they are
//! `--lines KIND LINES PLACES` on the clocked lines of that shape.
//!
//! `-` is standard input; where no second name is given the result goes to standard output. Where anything is wrong a line on standard
//! error says what and where, and the exit status is 1 (2 where the words of the call are wrong). No file is left half written.

use logic::{hold, run::Run, show, wave};
use std::fs::File;
use std::io::{BufRead, BufReader, BufWriter, Read, Write};
use std::process::exit;

const USE: &str = "\
logic to-trace TEXT [TRACE]       a trace from lines of text
logic to-text TRACE [TEXT]        and back
logic wave TRACE [VCD]            the run as a waveform
logic show [--from A] [--to B] TRACE [HTML]
                                  the run as a page for a browser
logic show --svg CYCLE TRACE [SVG]
                                  one cycle as a picture
logic dump TRACE [DUMP]           what the model does, as a testbench would print it
logic hold [--strict] TRACE DUMP  a testbench's dump held against the model
logic --heap PLACES LEVELS PART ..
                                  any of the last four parts on a clocked cluster heap of this shape
logic --lines KIND LINES PLACES PART ..
                                  and on clocked lines of this shape";

/// What the trace is played on.
#[derive(Clone, Copy, PartialEq)]
enum On {
    /// The tree of the trace's own shape.
    Tree,
    Heap(u32, u32),
    Lines(u32, u32, u32),
}

impl On {
    /// What the first words ask for, and how many they are.
    fn asked(words: &[String]) -> (On, usize) {
        let number = |i: usize| words.get(i).and_then(|word| word.parse().ok()).unwrap_or_else(|| usage());
        match words.first().map(String::as_str) {
            Some("--heap") => (On::Heap(number(1), number(2)), 3),
            Some("--lines") => (On::Lines(number(1), number(2), number(3)), 4),
            _ => (On::Tree, 0),
        }
    }
}

fn fail(what: impl std::fmt::Display) -> ! {
    eprintln!("logic: {what}");
    exit(1)
}

fn usage() -> ! {
    eprintln!("{USE}");
    exit(2)
}

fn open(name: &str) -> Box<dyn BufRead> {
    if name == "-" {
        return Box::new(BufReader::new(std::io::stdin()));
    }
    match File::open(name) {
        Ok(file) => Box::new(BufReader::with_capacity(1 << 16, file)),
        Err(error) => fail(format!("{name}: {error}")),
    }
}

fn read(name: &str) -> Vec<u8> {
    let mut bytes = Vec::new();
    match open(name).read_to_end(&mut bytes) {
        Ok(_) => bytes,
        Err(error) => fail(format!("{name}: {error}")),
    }
}

/// Writes a file whole, or not at all: it is written beside its place first. With no name it goes to standard output as it comes.
fn write_to(to: Option<&String>, make: impl FnOnce(&mut dyn Write) -> Result<(), String>) {
    let done = match to {
        None => {
            let mut out = BufWriter::with_capacity(1 << 16, std::io::stdout());
            make(&mut out).and_then(|()| out.flush().map_err(|error| format!("standard output: {error}")))
        }
        Some(name) => {
            let part = format!("{name}.part");
            let made = match File::create(&part) {
                Ok(file) => {
                    let mut out = BufWriter::with_capacity(1 << 16, file);
                    make(&mut out).and_then(|()| out.flush().map_err(|error| format!("{name}: {error}")))
                }
                Err(error) => Err(format!("{name}: {error}")),
            };
            let made = made.and_then(|()| std::fs::rename(&part, name).map_err(|error| format!("{name}: {error}")));
            if made.is_err() {
                let _ = std::fs::remove_file(&part);
            }
            made
        }
    };
    if let Err(what) = done {
        fail(what);
    }
}

fn traced(kind: &str, from: &str, to: Option<&String>) {
    let made = match kind {
        "to-trace" => trace_text::to_trace(&read(from)),
        _ => trace_text::to_text(&read(from)).map(String::into_bytes),
    };
    let bytes = made.unwrap_or_else(|what| fail(format!("{from}: {what}")));
    write_to(to, |out| out.write_all(&bytes).map_err(|error| error.to_string()));
}

/// The run of a trace; where the trace is bad from its beginning the tool ends here.
fn run(from: &str, on: On) -> Run<Box<dyn BufRead>> {
    let begun = match on {
        On::Tree => Run::new(open(from)).map_err(|what| what.to_string()),
        On::Heap(places, levels) => Run::on_heap(open(from), places, levels),
        On::Lines(kind, lines, places) => Run::on_lines(open(from), kind, lines, places),
    };
    begun.unwrap_or_else(|what| fail(format!("{from}: {what}")))
}

fn waved(from: &str, to: Option<&String>, on: On) {
    write_to(to, |out| match wave::wave(&mut run(from, on), out) {
        Ok(_) => Ok(()),
        Err(wave::Fails::Trace(what)) => Err(format!("{from}: {what}")),
        Err(wave::Fails::Write(error)) => Err(error.to_string()),
    });
}

/// What `show` was asked for.
#[derive(Default)]
struct Shown {
    from: u64,
    upto: Option<u64>,
    svg: Option<u64>,
}

fn shown(words: &[String], on: On) {
    let (mut asked, mut names) = (Shown::default(), words);
    while let [name, number, rest @ ..] = names {
        if !name.starts_with("--") {
            break;
        }
        let n: u64 = number.parse().unwrap_or_else(|_| usage());
        match name.as_str() {
            "--from" => asked.from = n,
            "--to" => asked.upto = Some(n),
            "--svg" => asked.svg = Some(n),
            _ => usage(),
        }
        names = rest;
    }
    let (from, to) = match names {
        [from] => (from, None),
        [from, to] => (from, Some(to)),
        _ => usage(),
    };
    if asked.upto.map_or(false, |upto| upto < asked.from) {
        fail(format!("--to {} is before --from {}", asked.upto.unwrap_or(0), asked.from));
    }
    write_to(to, |out| {
        let done = match asked.svg {
            Some(cycle) => show::picture(&mut run(from, on), cycle).and_then(|svg| Ok(out.write_all(svg.as_bytes())?)),
            None => show::page(&mut run(from, on), out, asked.from, asked.upto).map(|_| ()),
        };
        done.map_err(|fails| match fails {
            show::Fails::Trace(what) => format!("{from}: {what}"),
            show::Fails::Write(error) => error.to_string(),
            show::Fails::Asked(what) => format!("{from}: {what}"),
        })
    });
}

fn dumped(from: &str, to: Option<&String>, on: On) {
    write_to(to, |out| {
        let mut run = run(from, on);
        let mut said = logic::dump::Said::new(&run.machine);
        writeln!(out, "dump 1").map_err(|error| error.to_string())?;
        while run.next_cycle().map_err(|what| format!("{from}: {what}"))?.is_some() {
            said.write(out, run.machine.last(), &run.machine).map_err(|error| error.to_string())?;
        }
        Ok(())
    });
}

fn held(trace: &str, dump: &str, strict: bool, on: On) {
    match hold::hold(&mut run(trace, on), open(dump), strict) {
        Ok(agrees) => print!("{agrees}"),
        Err(hold::Fails::Trace(what)) => fail(format!("{trace}: {what}")),
        Err(hold::Fails::Dump(line, what)) => fail(format!("{dump}: line {line}: {what}")),
        Err(hold::Fails::Short { cycles }) => {
            fail(format!("{dump}: it ends behind cycle {cycles}, and the trace goes on"))
        }
        Err(hold::Fails::Differs(what)) => {
            print!("{what}");
            exit(1)
        }
    }
}

fn main() {
    let mut words: Vec<String> = std::env::args().skip(1).collect();
    let (on, asked) = On::asked(&words);
    words.drain(..asked);
    let parts: Vec<&str> = words.iter().map(String::as_str).collect();
    match parts[..] {
        [kind @ ("to-trace" | "to-text"), from] if on == On::Tree => traced(kind, from, None),
        [kind @ ("to-trace" | "to-text"), from, _] if on == On::Tree => traced(kind, from, words.get(2)),
        ["wave", from] => waved(from, None, on),
        ["wave", from, _] => waved(from, words.get(2), on),
        ["show", ..] => shown(&words[1..], on),
        ["dump", from] => dumped(from, None, on),
        ["dump", from, _] => dumped(from, words.get(2), on),
        ["hold", "--strict", trace, dump] => held(trace, dump, true, on),
        ["hold", trace, dump] => held(trace, dump, false, on),
        _ => usage(),
    }
}
