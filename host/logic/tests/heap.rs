//! The tool on the clocked cluster heap.

mod traces;

use logic::dump::Said;
use logic::hold::{hold, Fails};
use logic::machine::Machine;
use logic::run::Run;
use trace_text::Op;
use traces::random;

fn run(text: &str, places: u32, levels: u32) -> Run<&[u8]> {
    Run::on_heap(text.as_bytes(), places, levels).unwrap()
}

/// All slots of the store.
fn slots(machine: &Machine) -> Vec<([u32; 3], [u32; 4])> {
    let mut all = Vec::new();
    for level in 1..=machine.levels() {
        for node in 0..machine.nodes(level) {
            for slot in 0..=machine.order() {
                all.push(([level, node, slot], machine.slot(level, node, slot)));
            }
        }
    }
    all
}

/// The writes of a cycle are all that it wrote: four slots of a level at most, and every other slot stands.
#[test]
fn the_writes_are_all_that_is_written() {
    for (places, levels) in [(2, 1), (2, 4), (3, 3), (16, 2)] {
        let text = random(2, 1, 800, places as u64);
        let mut run = run(&text, places, levels);
        let mut image = slots(&run.machine);
        let mut popped = Vec::new();
        while let Some(cycle) = run.next_cycle().unwrap() {
            for level in 1..=levels {
                assert!(cycle.writes.iter().filter(|w| w.level == level).count() <= 4);
            }
            for w in &cycle.writes {
                let at = image.iter_mut().find(|(at, _)| *at == [w.level, w.node, w.slot]).unwrap();
                assert_eq!(at.1, w.old);
                at.1 = w.new;
            }
            assert_ne!(cycle.answer.number, 3, "nothing is too soon");
            if matches!(cycle.op, Op::Pop) && cycle.answer.number == 0 {
                popped.push(cycle.answer.out[0]);
            }
            assert_eq!(image, slots(&run.machine));
        }
        assert!(popped.len() > 50);
        assert!(!run.machine.pending());
    }
}

/// The model's own dump of a run.
fn dumped(text: &str, places: u32, levels: u32) -> String {
    let mut run = run(text, places, levels);
    let (mut said, mut file) = (Said::new(&run.machine), b"dump 1\n".to_vec());
    while run.next_cycle().unwrap().is_some() {
        said.write(&mut file, run.machine.last(), &run.machine).unwrap();
    }
    String::from_utf8(file).unwrap()
}

/// A heap's dump agrees with the heap, and what is spoilt in it is named: a place, a count, a record.
#[test]
fn the_scoreboard_holds_a_heap() {
    let text = random(2, 1, 400, 5);
    let dump = dumped(&text, 2, 3);
    let agrees = hold(&mut run(&text, 2, 3), dump.as_bytes(), true).unwrap();
    assert!(agrees.cycles >= 400);
    assert!(!dump.contains("mark"), "a heap has no mark");
    // pushes 5, 3, 8: the third finds the root full, passes 8 on and counts it to the left
    let text = "version 2\norder 2 levels 1\npush 5 50 64\npush 3 30 72\npush 8 80 96\nidle\npop\nidle\n";
    let dump = dumped(text, 2, 2);
    for (right, wrong, says) in [
        (
            "slot 1 0 1 3 30 72 1",
            "slot 1 0 1 30 3 72 1",
            "cycle 2 differs: level 1, node 0, slot 1, rank: expected 3, found 30",
        ),
        ("slot 1 0 2 1 0", "slot 1 0 2 0 1", "cycle 3 differs: level 1, node 0, slot 2, left: expected 1, found 0"),
        (
            "record 2 1 0 0 8 80 96",
            "record 2 1 1 0 8 80 96",
            "cycle 3 differs: record of level 2, node: expected 0, found 1",
        ),
        (
            "record 2 2 0 1 0 0 0",
            "record 2 2 0 0 0 0 0",
            "cycle 5 differs: record of level 2, place: expected 1, found 0",
        ),
    ] {
        assert!(dump.contains(right), "{right} is not in\n{dump}");
        match hold(&mut run(text, 2, 2), dump.replacen(right, wrong, 1).as_bytes(), false) {
            Err(Fails::Differs(what)) => assert_eq!(what.to_string().lines().next(), Some(says)),
            other => panic!("{says}: {other:?}"),
        }
    }
}

/// Waveform, page and picture of a heap are made; the wave has four writes of each level, and no mark.
#[test]
fn a_heap_is_shown() {
    let text = random(2, 1, 100, 9);
    let mut file = Vec::new();
    logic::wave::wave(&mut run(&text, 4, 2), &mut file).unwrap();
    let wave = String::from_utf8(file).unwrap();
    assert!(wave.contains("$scope module write3 $end") && !wave.contains(" mark "), "{}", &wave[..2000]);
    let mut file = Vec::new();
    logic::show::page(&mut run(&text, 4, 2), &mut file, 0, None).unwrap();
    let page = String::from_utf8(file).unwrap();
    assert!(page.contains("clocked cluster heap, places 4, levels 2"));
    let svg = logic::show::picture(&mut run(&text, 2, 3), 50).unwrap();
    assert!(svg.contains("left ") && svg.contains("cycle 50: "));
    match Run::on_heap(text.as_bytes(), 17, 2) {
        Err(what) => assert_eq!(what, "places 17, levels 2: a heap has 2 to 16 places a node and at most 5,460 in all"),
        Ok(_) => panic!("17 places"),
    }
}
