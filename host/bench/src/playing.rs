//! The trace program beside one in plain C: both read the same file and write the same lines. Times are for one record.

use crate::clock::Clock;
use crate::contest::{contest, Line, Named, PLAIN_C};
use crate::measure::{Contestant, Rng, Work};
use crate::page::about;
use crate::table::Plan;
use std::fs::File;
use std::path::{Path, PathBuf};
use std::process::{Command, Stdio};

const ORDER: u8 = 4;
const LEVELS: u8 = 5;

/// A program on a file that has the records.
struct Program<'p> {
    command: Vec<String>,
    file: &'p Path,
}

impl<'p> Contestant<()> for Program<'p> {
    fn ready(&mut self, _: &[()]) {}
    fn run(&mut self, _: &[()]) -> u64 {
        let input = File::open(self.file).expect("the trace");
        let mut play = Command::new(&self.command[0]);
        play.args(&self.command[1..]).stdin(input).stdout(Stdio::piped());
        let output = play.output().expect("the program runs");
        assert!(output.status.success(), "{:?} ended with {}", self.command, output.status);
        output.stdout.iter().fold(0, |sum: u64, b| sum.wrapping_mul(31).wrapping_add(*b as u64))
    }
}

/// The bytes of a trace with records of every kind: of version 1, which has no lengths.
fn trace(count: usize) -> Vec<u8> {
    let mut rng = Rng::new(4);
    let mut bytes = vec![b'P', b'F', b'T', 1, 0, ORDER, LEVELS];
    for n in 0..count {
        let (rank, tag) = (rng.below(1 << 20), n as u32 + 1);
        let (code, rank, tag) = match rng.below(10) {
            0 | 1 => (0, 0, 0),
            2..=5 => (1, rank, tag),
            6..=8 => (2, 0, 0),
            _ => (3, rank, tag),
        };
        bytes.push(code);
        bytes.extend_from_slice(&rank.to_le_bytes());
        bytes.extend_from_slice(&tag.to_le_bytes());
    }
    bytes
}

/// The program's line, where a program is named.
pub fn lines(plan: &Plan, program: Option<&str>, count: usize) -> Vec<Line> {
    let about = about("play", &format!("a record, order {ORDER} x {LEVELS}"), Some((1.5, PLAIN_C)));
    let program = match program {
        Some(program) if plan.wants(&about.name) => program,
        _ => return Vec::new(),
    };
    let file: PathBuf = std::env::temp_dir().join(format!("bench-{}.pft", std::process::id()));
    std::fs::write(&file, trace(count)).expect("a file for the trace");
    let mut command: Vec<String> =
        std::env::var("RUNNER").unwrap_or_default().split_whitespace().map(String::from).collect();
    command.push(program.to_string());
    let mut card = Program { command, file: &file };
    let mut plain = Program { command: vec![env!("BENCH_PLAIN_PLAY").to_string()], file: &file };
    let peers: &mut [Named<()>] = &mut [(PLAIN_C, &mut plain)];
    let rounds = (plan.rounds / 5).max(3);
    let work = || Work { fill: Vec::new(), trace: vec![(); count] };
    let (card, peers) = contest(rounds, Clock::Children, &mut card, peers, work);
    std::fs::remove_file(&file).expect("the trace goes");
    vec![Line { group: about.group, name: about.name, unit: "ns", card, peers, asked: about.asked }]
}
