//! The card beside several peers at once: all in one process, in turn, on the same work, and the table of the page.

use crate::clock::Clock;
use crate::measure::{median, timed, Contestant, Work};

/// What a peer took, and how many times that the card took: medians of the rounds.
pub struct Peer {
    pub name: &'static str,
    pub time: f64,
    pub times: f64,
}

/// What the page asks for: at most so many times what a peer takes.
#[derive(Clone, Copy)]
pub struct Asked {
    pub times: f64,
    pub peer: &'static str,
}

/// A line of the page's table.
pub struct Line {
    /// What it is a line of: the chart has a scale for each.
    pub group: &'static str,
    pub name: String,
    /// `ns`, or `µs` where the numbers are large.
    pub unit: &'static str,
    pub card: f64,
    pub peers: Vec<Peer>,
    pub asked: Option<Asked>,
}

pub const PLAIN_C: &str = "plain C";
pub const BINARY_HEAP: &str = "BinaryHeap";
pub const FOUR_ARY: &str = "4-ary heap";
pub const MAP: &str = "ordered map";
pub const MEMSET: &str = "memset";
pub const TREE: &str = "tree of order 2";

/// A peer under its name.
pub type Named<'a, T> = (&'static str, &'a mut dyn Contestant<T>);

/// Times the card and its peers in turn; each round another one goes first, and each has work of its own. The first round warms the caches
/// and is not counted. All must give the same answers.
pub fn contest<T>(
    rounds: usize,
    clock: Clock,
    card: &mut dyn Contestant<T>,
    peers: &mut [Named<T>],
    mut work: impl FnMut() -> Work<T>,
) -> (f64, Vec<Peer>) {
    let all = peers.len() + 1;
    let mut taken = vec![Vec::new(); all];
    let mut ratios = vec![Vec::new(); all];
    for round in 0..=rounds {
        let work = work();
        let mut now = vec![(0.0, 0); all];
        for turn in 0..all {
            let who = (round + turn) % all;
            now[who] = match who {
                0 => timed(clock, card, &work),
                _ => timed(clock, peers[who - 1].1, &work),
            };
        }
        for (who, (time, answers)) in now.iter().enumerate() {
            assert_eq!(
                *answers,
                now[0].1,
                "{} answered differently",
                if who == 0 { "the card" } else { peers[who - 1].0 }
            );
            if round > 0 {
                taken[who].push(*time);
                ratios[who].push(now[0].0 / time);
            }
        }
    }
    let mut medians = taken.into_iter().map(median);
    let card = medians.next().expect("the card");
    let others = peers.iter().zip(medians).zip(ratios.into_iter().skip(1));
    (card, others.map(|((peer, time), ratios)| Peer { name: peer.0, time, times: median(ratios) }).collect())
}

/// A number with as many places as tell something.
pub fn number(time: f64) -> String {
    if time >= 100.0 {
        format!("{time:.0}")
    } else {
        format!("{time:.1}")
    }
}

/// What is asked for, and whether it was reached.
fn asked(line: &Line) -> String {
    let asked = match line.asked {
        Some(asked) => asked,
        None => return String::new(),
    };
    let reached = line.peers.iter().any(|p| p.name == asked.peer && p.times <= asked.times);
    format!("{} × {}{}", asked.times, asked.peer, if reached { "" } else { ": not reached" })
}

/// The cells of a line: the work, the card, plain C and its ratio, the other peers with theirs, and what is asked for.
fn cells(line: &Line) -> [String; 6] {
    let unit = |text: String| if line.unit == "ns" { text } else { format!("{text} {}", line.unit) };
    let c = line.peers.iter().find(|p| p.name == PLAIN_C);
    let others = line.peers.iter().filter(|p| p.name != PLAIN_C);
    let others: Vec<String> = others.map(|p| format!("{} {}: {:.2}", p.name, unit(number(p.time)), p.times)).collect();
    [
        line.name.clone(),
        unit(number(line.card)),
        c.map_or_else(String::new, |p| unit(number(p.time))),
        c.map_or_else(String::new, |p| format!("{:.2}", p.times)),
        others.join(", "),
        asked(line),
    ]
}

/// The table, as `docs/SPEED.md` has it.
pub fn print(lines: &[Line]) {
    let title = ["Work", "card", "plain C", "ratio", "others: ratio", "asked for"].map(String::from);
    let mut rows = vec![title];
    rows.extend(lines.iter().map(cells));
    let width = |i: usize| rows.iter().map(|r| r[i].chars().count()).max().unwrap_or(0);
    let widths: Vec<usize> = (0..6).map(width).collect();
    for (n, row) in rows.iter().enumerate() {
        let padded: Vec<String> =
            row.iter().zip(&widths).map(|(text, width)| format!("{text:<width$}", width = *width)).collect();
        println!("| {} |", padded.join(" | "));
        if n == 0 {
            println!("|{}", "---|".repeat(widths.len()));
        }
    }
}
