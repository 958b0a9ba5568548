//! The scoreboard: logic that is right agrees, each planted fault is found where it stands, and bad input is named by its line.

mod dut;
mod traces;

use dut::{dump, Fault};
use logic::hold::{hold, Agrees, Fails};
use logic::run::Run;
use std::process::{Command, Output, Stdio};
use traces::random;

/// Four pushes and an idle cycle: the tree of the rules' page.
const BASE: &str = "version 2\norder 2 levels 2\npush 5 50 64\npush 3 30 72\npush 8 80 96\npush 1 10 40\nidle\n";

fn held(text: &str, dump: &str) -> Result<Agrees, Fails> {
    hold(&mut Run::new(text.as_bytes()).unwrap(), dump.as_bytes(), false)
}

#[test]
fn right_logic_agrees() {
    for (order, levels) in [(2, 1), (2, 2), (2, 5), (4, 3), (8, 2), (8, 3)] {
        let text = random(order, levels, 2000, 7 + order as u64 * 31 + levels as u64);
        let agrees = held(&text, &dump(&text, Fault::None)).unwrap_or_else(|what| panic!("{order} {levels}: {what:?}"));
        assert_eq!(agrees.cycles, 2000 + agrees.behind);
        assert!(agrees.behind < levels as u64);
    }
}

/// Each planted fault: the trace that shows it, and the first line that is said of it.
#[test]
fn each_fault_is_found_where_it_stands() {
    let base = |more: &str| format!("{BASE}{more}");
    let small = |more: &str| format!("version 2\norder 2 levels 2\n{more}");
    for (fault, text, says) in [
        (Fault::Exchanged, base(""), "cycle 1 differs: level 1, node 0, slot 0, rank: expected 5, found 50"),
        (Fault::PopTooSoon, small("push 5 50 64\npop\n"), "cycle 2 differs: answer, number: expected 3, found 0"),
        (Fault::LiftRemovedEarly, base("pop\n"), "cycle 6 differs: level 2, node 1, slot 0, rank: expected 3, found 0"),
        (Fault::Rightmost, base(""), "cycle 3 differs: level 1, node 0, slot 0, count: expected 2, found 1"),
        (
            Fault::TagIgnored,
            small("push 5 50 1\npush 5 30 2\nidle\npop\n"),
            "cycle 4 differs: answer, tag: expected 30, found 50",
        ),
        (Fault::GreatestCount, base(""), "cycle 4 differs: level 1, node 0, slot 0, rank: expected 5, found 1"),
        (
            Fault::PutOnEqual,
            small("push 5 50 1\npush 3 30 2\npush 5 80 3\n"),
            "cycle 3 differs: level 1, node 0, slot 0, tag: expected 50, found 80",
        ),
        (Fault::CountStays, base("pop\n"), "cycle 6 differs: level 1, node 0, slot 1, count: expected 1, found 2"),
        (
            Fault::LengthStays,
            base("pop\nidle\n"),
            "cycle 7 differs: level 2, node 1, slot 0, length: expected 0, found 72",
        ),
        (
            Fault::FullUnsaid,
            String::from("version 2\norder 2 levels 1\npush 1 1 1\npush 2 2 2\npush 3 3 3\n"),
            "cycle 3 differs: answer, number: expected 5, found 0",
        ),
        (Fault::WrongNode, base(""), "cycle 3 differs: record of level 2, node: expected 0, found 1"),
        (Fault::MarkStays, small("push 5 50 64\npop\n"), "cycle 2 differs: mark: expected 0, found 1"),
        (Fault::PushThenPop, base("replace 0 7 9\n"), "cycle 6 differs: answer, rank: expected 1, found 0"),
        (Fault::EmptyUnsaid, small("pop\n"), "cycle 1 differs: answer, number: expected 6, found 0"),
        (
            Fault::LiftOnEqual,
            base("replace 3 7 9\n"),
            "cycle 6 differs: level 1, node 0, slot 1, tag: expected 7, found 30",
        ),
        (Fault::NoTagTaken, small("push 5 0 64\n"), "cycle 1 differs: answer, number: expected 7, found 0"),
        (Fault::RecordStays, base(""), "cycle 5 differs: record of level 2, kind: expected 0, found 1"),
        (Fault::Unknown, base(""), "cycle 1 differs: level 1, node 0, slot 0, tag: expected 50, found x"),
    ] {
        let said = match held(&text, &dump(&text, fault)) {
            Err(Fails::Differs(what)) => what.to_string(),
            other => panic!("{fault:?}: {other:?}"),
        };
        assert_eq!(said.lines().next(), Some(says), "{fault:?}\n{said}");
    }
}

/// What is said of a difference, whole (words, request and the cycles before it), is what the page shows.
#[test]
fn a_difference_is_told_whole() {
    let text = format!("{BASE}pop\n");
    let said = match held(&text, &dump(&text, Fault::LiftRemovedEarly)) {
        Err(Fails::Differs(what)) => what.to_string(),
        other => panic!("{other:?}"),
    };
    let page = include_str!("../../../docs/HARDWARE.md");
    assert!(page.contains(&format!("```text\n{said}```\n")), "{said}");
}

/// A dump that leaves out what its author does not model is compared in the rest, and says what was not compared.
#[test]
fn parts_may_be_left_out() {
    let text = random(4, 3, 500, 3);
    let whole = dump(&text, Fault::None);
    let without = |part: &str, word: &str| -> String {
        let lines = whole.lines().filter(|l| l.split(' ').next() != Some(word));
        lines.map(|l| if l == "dump 1" { format!("dump 1 without {part}\n") } else { format!("{l}\n") }).collect()
    };
    for (part, word) in
        [("answers", "answer"), ("slots", "slot"), ("records", "record"), ("mark", "mark"), ("held", "held")]
    {
        let agrees = held(&text, &without(part, word)).unwrap().to_string();
        assert!(agrees.contains(&format!("not compared: {part}\n")), "{agrees}");
    }
    // without lengths each line is one number shorter
    let short: String = whole
        .lines()
        .map(|l| {
            let words: Vec<&str> = l.split(' ').collect();
            let cut = match words[0] {
                "answer" => 4,
                "slot" => 6,
                "record" => 6,
                "cycle" if words.len() == 6 => 5,
                "dump" => return String::from("dump 1 without lengths\n"),
                _ => return format!("{l}\n"),
            };
            let kept: Vec<&str> = (0..words.len()).filter(|i| *i != cut).map(|i| words[i]).collect();
            kept.join(" ") + "\n"
        })
        .collect();
    assert_eq!(held(&text, &short).unwrap().to_string().lines().last(), Some("not compared: lengths"));
    // the requests may be left out too
    let bare: String = whole
        .lines()
        .map(|l| l.split(' ').take(if l.starts_with("cycle") { 2 } else { 9 }).collect::<Vec<_>>().join(" ") + "\n")
        .collect();
    assert!(held(&text, &bare).is_ok());
    // what is left out without a word differs
    let silent = without("slots", "slot").replacen(" without slots", "", 1);
    assert!(matches!(held(&text, &silent), Err(Fails::Differs(_))));
}

/// With `--strict`, numbers that a record's kind does not use must be 0.
#[test]
fn unused_numbers() {
    let text = format!("{BASE}pop\nidle\n");
    let odd = dump(&text, Fault::None).replacen("record 2 2 1 0 0 0", "record 2 2 1 0 9 0", 1);
    assert!(odd.contains("record 2 2 1 0 9 0"));
    assert!(held(&text, &odd).is_ok());
    match hold(&mut Run::new(text.as_bytes()).unwrap(), odd.as_bytes(), true) {
        Err(Fails::Differs(what)) => {
            assert_eq!(
                what.to_string().lines().next(),
                Some("cycle 6 differs: record of level 2, tag: expected 0, found 9")
            )
        }
        other => panic!("{other:?}"),
    }
}

#[test]
fn bad_dumps_are_named_by_their_line() {
    let text = "order 2 levels 2\npush 5 50\npop\n";
    for (dump, line, says) in [
        ("", 1, "there is no line `dump 1`"),
        ("cycle 1\n", 1, "the first line is `dump 1`, or `dump 1 without` and what is left out"),
        ("dump 2\n", 1, "dump 2: the form's number is 1"),
        ("dump 1 without\n", 1, "the first line is `dump 1`, or `dump 1 without` and what is left out"),
        ("dump 1 without clocks\n", 1, "`clocks` is none of answers, slots, records, mark, held, lengths"),
        ("dump 1\nmark 1\n", 2, "a line `cycle N` comes first"),
        ("dump 1\n\n# none\ncycle 2\n", 4, "cycle 2: cycle 1 comes next"),
        ("dump 1\ncycle one\n", 2, "cycle takes a number, and the request if it is to be compared"),
        ("dump 1\ncycle 1 pop\n", 2, "cycle 1 is asked `pop`, but the trace asks `push 5 50 0`"),
        (
            "dump 1\ncycle 1\nslot 1 0 0 5 50 0\n",
            3,
            "slot takes, behind level, node and slot, rank, tag, length, count: 3 numbers, not 4",
        ),
        ("dump 1\ncycle 1\nslot 1 0\n", 3, "slot takes level, node, slot, rank, tag, length, count"),
        ("dump 1\ncycle 1\nslot 3 0 0 5 50 0 1\n", 3, "level 3: there are levels 1 to 2"),
        ("dump 1\ncycle 1\nslot 0 0 0 5 50 0 1\n", 3, "level 0: there are levels 1 to 2"),
        ("dump 1\ncycle 1\nslot 2 2 0 5 50 0 1\n", 3, "node 2: level 2 has nodes 0 to 1"),
        ("dump 1\ncycle 1\nslot 2 1 2 5 50 0 1\n", 3, "slot 2: a node has slots 0 to 1"),
        ("dump 1\ncycle 1\nslot 1 x 0 5 50 0 1\n", 3, "`x` is no number from 0 to 4294967295"),
        ("dump 1\ncycle 1\nrecord 1 0 0 0 0 0\n", 3, "level 1: there are records of levels 2 to 2"),
        ("dump 1\ncycle 1\nrecord\n", 3, "record takes level, kind, node, rank, tag, length"),
        ("dump 1\ncycle 1\nanswer 0\n", 3, "answer takes number, rank, tag, length: 1 numbers, not 4"),
        ("dump 1\ncycle 1\nmark\n", 3, "mark takes a number"),
        ("dump 1\ncycle 1\nmark 4294967296\n", 3, "`4294967296` is no number from 0 to 4294967295"),
        ("dump 1\ncycle 1\nheld -1\n", 3, "`-1` is no number from 0 to 4294967295"),
        ("dump 1\ncycle 1\nflag 1\n", 3, "`flag` is none of cycle, answer, slot, record, mark, held"),
        ("dump 1 without mark\ncycle 1\nmark 1\n", 3, "`mark`, but the first line says `without mark`"),
    ] {
        match held(text, dump) {
            Err(Fails::Dump(at, what)) => assert_eq!((at, what.as_str()), (line, says), "{dump}"),
            other => panic!("{dump}: {other:?}"),
        }
    }
    let long = format!("dump 1\ncycle 1 {}\n", "x".repeat(2000));
    assert_eq!(held(text, &long), Err(Fails::Dump(2, String::from("this line is longer than 1024 bytes"))));
    assert_eq!(
        hold(&mut Run::new(text.as_bytes()).unwrap(), &b"dump 1\n\xff\n"[..], false),
        Err(Fails::Dump(2, String::from("this is no text")))
    );
}

fn tool(words: &[&str], input: &str) -> Output {
    let mut command = Command::new(env!("CARGO_BIN_EXE_logic"));
    command.args(words).stdin(Stdio::piped()).stdout(Stdio::piped()).stderr(Stdio::piped());
    let mut child = command.spawn().unwrap();
    std::io::Write::write_all(&mut child.stdin.take().unwrap(), input.as_bytes()).unwrap();
    child.wait_with_output().unwrap()
}

/// The tool as its users run it: status and where it speaks.
#[test]
fn the_tool_ends_with_its_status() {
    let folder = std::path::PathBuf::from(env!("CARGO_TARGET_TMPDIR")).join("hold");
    let _ = std::fs::remove_dir_all(&folder);
    std::fs::create_dir_all(&folder).unwrap();
    let at = |name: &str| folder.join(name).to_str().unwrap().to_string();
    std::fs::write(at("t"), BASE).unwrap();
    let said = |o: &Output| {
        (
            o.status.code(),
            String::from_utf8_lossy(&o.stdout).into_owned(),
            String::from_utf8_lossy(&o.stderr).into_owned(),
        )
    };
    // the model's own dump agrees with it
    let own = tool(&["dump", &at("t"), &at("own")], "");
    assert_eq!(said(&own), (Some(0), String::new(), String::new()));
    let agrees = "5 cycles agree\ncompared: answers, slots, records, mark, held, lengths\n";
    assert_eq!(said(&tool(&["hold", &at("t"), &at("own")], "")), (Some(0), agrees.to_string(), String::new()));
    let own = std::fs::read_to_string(at("own")).unwrap();
    assert_eq!(said(&tool(&["hold", "--strict", &at("t"), "-"], &own)), (Some(0), agrees.to_string(), String::new()));
    // a difference is an answer and status 1; bad input is a line on standard error
    let (status, out, err) = said(&tool(&["hold", &at("t"), "-"], &dump(BASE, Fault::Exchanged)));
    assert_eq!((status, err.as_str()), (Some(1), ""));
    assert!(out.starts_with("cycle 1 differs: "), "{out}");
    let bad = |words: &[&str], input: &str| said(&tool(words, input));
    let none = String::new;
    let t = at("t");
    assert_eq!(bad(&["hold", &t, "-"], "dump 1\ncycle 1\n"), (Some(1), String::from("cycle 1 differs: level 1, node 0, slot 0, rank: expected 5, found 0\n  expected 5 50 64 1\n  found    0 0 0 0\nand: level 1, node 0, slot 0, tag: expected 50, found 0\nand: level 1, node 0, slot 0, length: expected 64, found 0\nand: level 1, node 0, slot 0, count: expected 1, found 0\nand: mark: expected 1, found 0\nand: held: expected 1, found 0\nthe request of cycle 1: push 5 50 64\n"), none()));
    assert_eq!(
        bad(&["hold", &t, "-"], "dump 1\n"),
        (Some(1), none(), String::from("logic: -: it ends behind cycle 0, and the trace goes on\n"))
    );
    assert_eq!(
        bad(&["hold", &t, "-"], "dump 1\nx\n"),
        (Some(1), none(), String::from("logic: -: line 2: `x` is none of cycle, answer, slot, record, mark, held\n"))
    );
    assert_eq!(
        bad(&["hold", "-", &at("own")], "order 3 levels 2\n"),
        (Some(1), none(), String::from("logic: -: line 1: order 3: it is 2, 4 or 8\n"))
    );
    assert_eq!(bad(&["wave", "-"], "order 2 levels 2\npush 5\n").0, Some(1));
    assert_eq!(
        bad(&["wave", "-", &at("w")], "order 2 levels 2\npush 5\n").2,
        "logic: -: line 2: push takes a rank and a tag\n"
    );
    assert!(!folder.join("w").exists() && !folder.join("w.part").exists());
    assert_eq!(bad(&["wave", &at("nothing")], "").0, Some(1));
    assert_eq!(bad(&["waves", &t], "").0, Some(2));
    assert_eq!(bad(&[], "").0, Some(2));
    // traces from text and back are parts of it
    let trace = tool(&["to-trace", "-"], BASE).stdout;
    assert_eq!(&trace[..7], b"PFT\x02\x00\x02\x02");
    std::fs::write(at("b"), &trace).unwrap();
    assert_eq!(said(&tool(&["to-text", &at("b")], "")), (Some(0), BASE.to_string(), none()));
    assert_eq!(said(&tool(&["hold", &at("b"), &at("own")], "")), (Some(0), agrees.to_string(), none()));
}
