//! The tool on the clocked lines.

mod traces;

use logic::dump::Said;
use logic::hold::{hold, Fails};
use logic::machine::Machine;
use logic::run::Run;
use trace_text::Op;
use traces::random;

type Shape = (u32, u32, u32);

fn run(text: &str, (kind, lines, places): Shape) -> Run<&[u8]> {
    Run::on_lines(text.as_bytes(), kind, lines, places).unwrap()
}

/// A trace whose ranks are spread over the lines of kind 1.
fn spread(text: &str) -> String {
    let line = |line: &str| match line.split(' ').collect::<Vec<_>>()[..] {
        [op @ ("push" | "replace"), rank, tag, length] => {
            format!("{op} {} {tag} {length}\n", rank.parse::<u32>().unwrap() * 3301)
        }
        _ => format!("{line}\n"),
    };
    text.lines().map(line).collect()
}

/// All slots of the store: the places of each line, and its count.
fn slots(machine: &Machine) -> Vec<([u32; 3], [u32; 4])> {
    let all = (0..machine.nodes(1)).flat_map(|line| (0..=machine.order()).map(move |slot| [1, line, slot]));
    all.map(|at| (at, machine.slot(at[0], at[1], at[2]))).collect()
}

/// The writes of a cycle are all that it wrote, and no more than are said; nothing is ever too soon.
#[test]
fn the_writes_are_all_that_is_written() {
    for shape in [(1, 1, 1), (1, 4, 3), (1, 16, 6), (2, 1, 4), (2, 4, 3), (2, 8, 8)] {
        let text = spread(&random(2, 1, 800, shape.1 as u64));
        let mut run = run(&text, shape);
        let mut image = slots(&run.machine);
        let (most, mut popped, mut both) = (run.machine.writes(), Vec::new(), 0);
        while let Some(cycle) = run.next_cycle().unwrap() {
            assert!(cycle.writes.len() <= most, "{} writes", cycle.writes.len());
            both = both.max(cycle.writes.len());
            for w in &cycle.writes {
                let at = image.iter_mut().find(|(at, _)| *at == [w.level, w.node, w.slot]).unwrap();
                assert_eq!(at.1, w.old);
                at.1 = w.new;
            }
            assert!(![1, 2, 3].contains(&cycle.answer.number), "{:?}", cycle.answer);
            if matches!(cycle.op, Op::Pop) && cycle.answer.number == 0 {
                popped.push(cycle.answer.out[0]);
            }
            assert_eq!(image, slots(&run.machine));
        }
        assert!(popped.len() > 50 && both > 1);
        assert!(!run.machine.pending());
    }
}

/// The model's own dump of a run.
fn dumped(text: &str, shape: Shape) -> String {
    let mut run = run(text, shape);
    let (mut said, mut file) = (Said::new(&run.machine), b"dump 1\n".to_vec());
    while run.next_cycle().unwrap().is_some() {
        said.write(&mut file, run.machine.last(), &run.machine).unwrap();
    }
    String::from_utf8(file).unwrap()
}

/// The rules' table: pushes of 5/50, 40000/40, 3/30, 5/51, idle, pop, pop, replace 40000/41, idle.
const TABLE: &str =
    "version 2\norder 2 levels 1\npush 5 50 500\npush 40000 40 400\npush 3 30 300\npush 5 51 510\nidle\npop\npop\n\
                     replace 40000 41 410\nidle\n";

/// A dump of the lines agrees with them, and what is spoilt in it is named: a place, a count, the record, an answer.
#[test]
fn the_scoreboard_holds_lines() {
    for shape in [(1, 4, 8), (2, 4, 8)] {
        let text = spread(&random(2, 1, 400, 5));
        let dump = dumped(&text, shape);
        let agrees = hold(&mut run(&text, shape), dump.as_bytes(), true).unwrap();
        assert!(agrees.cycles >= 400);
        assert!(!dump.contains("mark"), "lines have no mark");
    }
    let dump = dumped(TABLE, (1, 2, 3));
    for (right, wrong, says) in [
        // the newcomer before its equals
        (
            "slot 1 0 2 5 51 510\n",
            "slot 1 0 2 5 50 510\n",
            "cycle 5 differs: level 1, line 0, slot 2, tag: expected 51, found 50",
        ),
        // counts a cycle late
        (
            "slot 1 0 3 2\nrecord 1 2 0 0 0 0\n",
            "record 1 2 0 0 0 0\n",
            "cycle 6 differs: level 1, line 0, slot 3, count: expected 2, found 3",
        ),
        // the choice by the old first place
        ("answer 0 5 50 500\n", "answer 0 3 30 300\n", "cycle 7 differs: answer, rank: expected 5, found 3"),
        // the old last place left
        ("slot 1 0 2 0 0 0\n", "", "cycle 7 differs: level 1, line 0, slot 2, rank: expected 0, found 5"),
        (
            "record 1 3 0 40000 41 410\n",
            "record 1 3 1 40000 41 410\n",
            "cycle 8 differs: record of level 1, line: expected 0, found 1",
        ),
    ] {
        assert!(dump.contains(right), "{right} is not in\n{dump}");
        match hold(&mut run(TABLE, (1, 2, 3)), dump.replacen(right, wrong, 1).as_bytes(), false) {
            Err(Fails::Differs(what)) => assert_eq!(what.to_string().lines().next(), Some(says)),
            other => panic!("{says}: {other:?}"),
        }
    }
    for (line, says) in [
        ("slot 1 2 0 1 1 1", "line 2: level 1 has lines 0 to 1"),
        ("slot 1 0 3 1 1", "slot takes, behind level, line and slot, count: 2 numbers, not 1"),
        ("slot 1 0 9 1", "slot 9: a line has slots 0 to 3"),
        ("slot 2 0 0 1 1 1", "level 2: there are levels 1 to 1"),
        ("record 2 0 0 0 0 0", "level 2: there are records of levels 1 to 1"),
        ("record 1 0 0 0 0", "record takes, behind the level, kind, line, rank, tag, length: 4 numbers, not 5"),
    ] {
        let dump = format!("dump 1\ncycle 1\n{line}\n");
        match hold(&mut run(TABLE, (1, 2, 3)), dump.as_bytes(), false) {
            Err(Fails::Dump(3, what)) => assert!(what.starts_with(says), "{line}: {what}"),
            other => panic!("{line}: {other:?}"),
        }
    }
}

/// The docs' picture of the replace in flight is the tool's.
#[test]
fn the_docs_have_the_picture() {
    let trace = include_str!("../../examples/lines.txt");
    assert_eq!(trace, TABLE);
    let svg = logic::show::picture(&mut run(trace, (1, 2, 3)), 8).unwrap();
    assert!(
        svg == include_str!("../../../docs/lines.svg"),
        "docs/lines.svg: `host/logic.sh --lines 1 2 3 show --svg 8` draws it anew"
    );
}

/// Waveform, page and picture of lines are made: the wave has a write of each place that a sorted line changes, and no mark.
#[test]
fn lines_are_shown() {
    let text = spread(&random(2, 1, 100, 9));
    for (shape, last) in [((1, 2, 3), "write7"), ((2, 2, 3), "write3")] {
        let mut file = Vec::new();
        logic::wave::wave(&mut run(&text, shape), &mut file).unwrap();
        let wave = String::from_utf8(file).unwrap();
        let more = format!("write{}", last[5..].parse::<u32>().unwrap() + 1);
        assert!(wave.contains(&format!("$scope module {last} $end")) && !wave.contains(&format!("module {more} ")));
        assert!(!wave.contains(" mark ") && wave.contains("$var wire 32 ") && wave.contains(" line [31:0]"));
    }
    let mut file = Vec::new();
    logic::show::page(&mut run(&text, (1, 2, 3)), &mut file, 0, None).unwrap();
    let page = String::from_utf8(file).unwrap();
    assert!(page.contains("clocked lines, kind 1, lines 2, places 3"));
    assert!(page.contains("node:\"line\",first:1,counted:false,") && page.contains("nodes:[2],"));
    let svg = logic::show::picture(&mut run(TABLE, (1, 2, 3)), 8).unwrap();
    assert!(svg.contains("cycle 8: replace 40000 41 410 → out 5 51 510; held 2"));
    assert!(svg.contains("▶ pending: replace rank 40000, tag 41, length 410") && svg.contains("count 0"));
    match Run::on_lines(text.as_bytes(), 1, 3, 2) {
        Err(what) => assert_eq!(
            what,
            "kind 1, lines 3, places 2: the kind is 1 or 2, the lines are a power of two up to 512, and a line has 1 to 1,024 places"
        ),
        Ok(_) => panic!("3 lines"),
    }
}
