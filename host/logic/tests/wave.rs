//! The waveform, read back by a little reader of its own and held to the library cycle by cycle; and a long trace in constant memory.

mod traces;

use card_host::{ClockedTree, Element, Length, Rank, Request, Tag};
use std::collections::HashMap;
use std::io::Write;
use std::process::{Command, Stdio};
use trace_text::{Op, Trace};
use traces::random;

/// What a viewer would show: each signal's value by its full name, and the values at each time.
struct Wave {
    ids: HashMap<String, String>,
    /// The values behind each time, as changes: time, then id and value.
    times: Vec<(u64, Vec<(String, String)>)>,
}

/// Reads a value change dump, strictly: every line must be one of those that the form has.
fn read(text: &str) -> Wave {
    let (mut scopes, mut ids, mut times) = (Vec::new(), HashMap::new(), Vec::new());
    let mut widths = HashMap::new();
    let mut lines = text.lines();
    for line in &mut lines {
        let words: Vec<&str> = line.split(' ').collect();
        match words[..] {
            ["$comment", .., "$end"] => {}
            ["$timescale", "1", "ns", "$end"] => {}
            ["$scope", "module", name, "$end"] => scopes.push(name),
            ["$upscope", "$end"] => assert!(scopes.pop().is_some()),
            ["$var", kind, width, id, name, ref range @ .., "$end"] => {
                let width: u32 = width.parse().unwrap();
                assert!(kind == "wire" || (kind == "string" && width == 1), "{line}");
                let bits = format!("[{}:0]", width - 1);
                assert_eq!(range.to_vec(), if width > 1 { vec![bits.as_str()] } else { vec![] }, "{line}");
                let full = [&scopes[..], &[name]].concat().join(".");
                assert!(ids.insert(full, id.to_string()).is_none(), "{line}: declared twice");
                assert!(widths.insert(id.to_string(), if kind == "string" { 0 } else { width }).is_none(), "{line}");
            }
            ["$enddefinitions", "$end"] => break,
            _ => panic!("{line}"),
        }
    }
    assert!(scopes.is_empty());
    for line in lines {
        if let Some(time) = line.strip_prefix('#') {
            let time = time.parse().unwrap();
            assert!(times.last().map_or(true, |(t, _)| *t < time), "{line}: time runs on");
            times.push((time, Vec::new()));
            continue;
        }
        let (id, value) = match line.split_once(' ') {
            Some((value, id)) if value.starts_with('b') => {
                let n = u64::from_str_radix(&value[1..], 2).unwrap();
                assert!(n < 1 << widths[id], "{line}: wider than its signal");
                (id, n.to_string())
            }
            Some((value, id)) if value.starts_with('s') => {
                assert_eq!(widths[id], 0, "{line}");
                (id, value[1..].to_string())
            }
            _ => {
                assert_eq!(widths[&line[1..]], 1, "{line}");
                (&line[1..], line[..1].to_string())
            }
        };
        times.last_mut().unwrap().1.push((id.to_string(), value));
    }
    Wave { ids, times }
}

/// The library's own machine, and what one cycle did to it by comparing every word.
struct Plain {
    tree: ClockedTree,
    order: u32,
}

impl Plain {
    /// The values that the wave must show behind this cycle.
    fn run(&mut self, number: u64, op: Op) -> HashMap<String, String> {
        let old = self.tree.words().to_vec();
        let x = |x: [u32; 3]| Element::new(Rank(x[0]), Tag(x[1]), Length(x[2]));
        let (name, code, e) = match op {
            Op::Idle => ("idle", 0, [0; 3]),
            Op::Push(e) => ("push", 1, e),
            Op::Pop => ("pop", 2, [0; 3]),
            Op::Replace(e) => ("replace", 3, e),
        };
        let answer = self.tree.cycle(match op {
            Op::Idle => Request::Idle,
            Op::Push(e) => Request::Push(x(e)),
            Op::Pop => Request::Pop,
            Op::Replace(e) => Request::Replace(x(e)),
        });
        let mut values = HashMap::new();
        let mut says = |name: String, value: String| assert!(values.insert(format!("card.{name}"), value).is_none());
        let (refused, out, said) = match answer {
            Ok(e) if code == 2 || code == 3 => (0, [e.rank.0, e.tag.0, e.length.0], String::from("out")),
            Ok(_) => (0, [0; 3], String::from(if code == 0 { "idle" } else { "pushed" })),
            Err(no) => (no.number(), [0; 3], no.name().replace(' ', "_")),
        };
        for (scope, numbers, name, first) in [
            ("request", [code, e[0], e[1], e[2]], name.to_string(), "code"),
            ("answer", [refused, out[0], out[1], out[2]], said, "number"),
        ] {
            says(format!("{scope}.name"), name);
            for (field, n) in [first, "rank", "tag", "length"].iter().zip(numbers) {
                says(format!("{scope}.{field}"), n.to_string());
            }
        }
        says(String::from("cycle"), number.to_string());
        says(String::from("clock"), String::from("1"));
        says(String::from("mark"), (self.tree.mark() as u32).to_string());
        says(String::from("held"), self.tree.held().unwrap().to_string());
        let (mut at, mut nodes) = (0, 1);
        for level in 1..=self.tree.records().len() + 1 {
            if level > 1 {
                let r = self.tree.records()[level - 2];
                let kind = ["nothing", "put", "take", "swap"][r.kind as usize];
                says(format!("level{level}.record.name"), kind.to_string());
                for (field, n) in ["kind", "node", "rank", "tag", "length"].iter().zip(<[u32; 5]>::from(r)) {
                    says(format!("level{level}.record.{field}"), n.to_string());
                }
            }
            // the slots of this level whose words changed: one at most
            let words = self.tree.words();
            let slots = nodes * self.order as usize;
            let changed: Vec<usize> =
                (0..slots).filter(|s| (0..4).any(|i| old[at + 4 * s + i] != words[at + 4 * s + i])).collect();
            assert!(changed.len() <= 1);
            says(format!("level{level}.write.on"), changed.len().to_string());
            let slot = changed.first().copied();
            says(format!("level{level}.write.node"), slot.map_or(0, |s| s / self.order as usize).to_string());
            says(format!("level{level}.write.slot"), slot.map_or(0, |s| s % self.order as usize).to_string());
            for (i, field) in ["rank", "tag", "length", "count"].iter().enumerate() {
                says(format!("level{level}.write.old_{field}"), slot.map_or(0, |s| old[at + 4 * s + i]).to_string());
                says(format!("level{level}.write.new_{field}"), slot.map_or(0, |s| words[at + 4 * s + i]).to_string());
            }
            at += 4 * slots;
            nodes = slots;
        }
        values
    }
}

#[test]
fn the_wave_is_what_the_machine_did() {
    for (order, levels) in [(2, 1), (2, 4), (4, 3), (8, 2)] {
        let text = random(order, levels, 600, 11 + order as u64);
        let mut file = Vec::new();
        let cycles = logic::wave::wave(&mut logic::run::Run::new(text.as_bytes()).unwrap(), &mut file).unwrap();
        let wave = read(std::str::from_utf8(&file).unwrap());
        let mut plain = Plain { tree: ClockedTree::new(order, levels).unwrap(), order };
        let mut trace = Trace::open(text.as_bytes()).unwrap();
        let mut now: HashMap<&str, &str> = HashMap::new();
        let mut seen = 0;
        for (time, changes) in &wave.times {
            for (id, value) in changes {
                assert_ne!(now.insert(id, value), Some(value.as_str()), "at {time}: written again");
            }
            let shown = |name: &str| now[wave.ids[name].as_str()];
            if time % 10 == 5 {
                assert_eq!(shown("card.clock"), "0");
                continue;
            }
            assert_eq!(*time, 10 * seen);
            if seen > 0 {
                let op = trace.next_op().unwrap().unwrap_or(Op::Idle);
                let expected = plain.run(seen, op);
                assert_eq!(expected.len(), wave.ids.len());
                for (name, value) in &expected {
                    assert_eq!(shown(name), value, "order {order}, levels {levels}, cycle {seen}, {name}");
                }
            }
            seen += 1;
        }
        assert_eq!(seen, cycles + 1);
        assert_eq!(trace.next_op().unwrap(), None);
        assert!(plain.tree.records().iter().all(|r| r.kind == 0), "all is drained");
    }
}

/// How much memory a process has, in KiB.
fn resident(process: u32) -> u64 {
    let status = std::fs::read_to_string(format!("/proc/{process}/status")).unwrap();
    let line = status.lines().find(|l| l.starts_with("VmRSS:")).unwrap();
    line.split_whitespace().nth(1).unwrap().parse().unwrap()
}

/// Ten million records go through in constant memory: what the tool has behind the last is what it had behind the first hundred thousand,
/// within a mebibyte. The trace comes through a pipe, so the tool has read all of it but what the pipe holds. Every 64th record is work.
#[test]
fn ten_million_records_in_constant_memory() {
    let records = 10_000_000;
    let mut command = Command::new(env!("CARGO_BIN_EXE_logic"));
    let mut child = command.args(["wave", "-"]).stdin(Stdio::piped()).stdout(Stdio::null()).spawn().unwrap();
    let mut to = child.stdin.take().unwrap();
    to.write_all(b"PFT\x02\x00\x04\x05").unwrap();
    // a block of 64 records: pushes and pops in turn, and idle ones
    let block = |n: u32| {
        let mut bytes = vec![0; 13 * 64];
        bytes[0] = if n % 3 == 2 { 2 } else { 1 };
        if bytes[0] == 1 {
            bytes[1..5].copy_from_slice(&(n.wrapping_mul(2654435761) >> 12).to_le_bytes());
            bytes[5..9].copy_from_slice(&(n + 1).to_le_bytes());
        }
        bytes
    };
    let blocks = records / 64;
    let mut first = 0;
    for n in 0..blocks {
        to.write_all(&block(n)).unwrap();
        if n == 100_000 / 64 {
            first = resident(child.id());
        }
    }
    let last = resident(child.id());
    drop(to);
    assert!(child.wait().unwrap().success());
    assert!(last <= first + 1024, "{first} KiB behind 100,000 records, {last} KiB behind {records}");
}
