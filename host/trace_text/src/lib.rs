//! Traces for the trace program, from lines of text and back.
//!
//! The first line is the tree's shape, each line after it is one record:
//!
//! ```text
//! order 2 levels 2
//! push 5 50
//! pop
//! idle
//! replace 4 7
//! ```
//!
//! That is a trace of version 1. A line `version 2` before the shape makes one of version 2, where a push or replace has a third number,
//! the length:
//!
//! ```text
//! version 2
//! order 2 levels 2
//! push 5 50 64
//! replace 4 7 0
//! ```
//!
//! Numbers are decimal; `#` begins a comment; empty lines are passed over.
//!
//! ```
//! let trace = trace_text::to_trace(b"order 2 levels 2\npush 5 50  # rank 5, tag 50\n").unwrap();
//! assert_eq!(trace, b"PFT\x01\x00\x02\x02\x01\x05\x00\x00\x00\x32\x00\x00\x00");
//! assert_eq!(trace_text::to_text(&trace).unwrap(), "order 2 levels 2\npush 5 50\n");
//! let trace = trace_text::to_trace(b"version 2\norder 2 levels 2\npush 5 50 64\n").unwrap();
//! assert_eq!(trace, b"PFT\x02\x00\x02\x02\x01\x05\x00\x00\x00\x32\x00\x00\x00\x40\x00\x00\x00");
//! assert_eq!(trace_text::to_text(&trace).unwrap(), "version 2\norder 2 levels 2\npush 5 50 64\n");
//! assert_eq!(trace_text::to_trace(b"order 2 levels 2\npush 5").unwrap_err().to_string(), "line 2: push takes a rank and a tag");
//! ```
//!
//! [`Trace`] reads either form record by record, in constant memory.
#![deny(missing_docs)]

mod lines;
mod reading;

pub use lines::Lines;
pub use reading::{Op, Trace};

use std::fmt;

/// What is wrong with a text or a trace, and where.
#[derive(Clone, PartialEq, Eq, Debug)]
pub struct Fault {
    place: String,
    what: String,
}

impl fmt::Display for Fault {
    fn fmt(&self, f: &mut fmt::Formatter<'_>) -> fmt::Result {
        write!(f, "{}: {}", self.place, self.what)
    }
}

impl std::error::Error for Fault {}

fn fault<T>(place: String, what: impl Into<String>) -> Result<T, Fault> {
    Err(Fault { place, what: what.into() })
}

/// The most slots of a tree that the trace program takes.
const SLOTS: u64 = 4094;

const HEADER: usize = 7;

/// A trace's version.
#[derive(Clone, Copy, PartialEq, Eq, Debug)]
enum Version {
    One,
    Two,
}

impl Version {
    fn of(number: u32) -> Result<Version, String> {
        match number {
            1 => Ok(Version::One),
            2 => Ok(Version::Two),
            _ => Err(format!("version {number}: it is 1 or 2")),
        }
    }

    fn number(self) -> u8 {
        match self {
            Version::One => 1,
            Version::Two => 2,
        }
    }

    /// The numbers behind a record's code: rank and tag, and in version 2 the length.
    fn numbers(self) -> usize {
        match self {
            Version::One => 2,
            Version::Two => 3,
        }
    }

    /// The bytes of a record.
    fn record(self) -> usize {
        1 + 4 * self.numbers()
    }

    /// What a push and a replace take.
    fn takes(self) -> &'static str {
        match self {
            Version::One => "a rank and a tag",
            Version::Two => "a rank, a tag and a length",
        }
    }
}

/// Why the trace program takes no tree of this order and these levels; none where it takes it.
fn bad_shape(order: u64, levels: u64) -> Option<String> {
    if ![2, 4, 8].contains(&order) {
        return Some(format!("order {order}: it is 2, 4 or 8"));
    }
    let (mut slots, mut most) = (0, 0);
    while order * (slots + 1) <= SLOTS {
        slots = order * (slots + 1);
        most += 1;
    }
    if levels < 1 || levels > most {
        return Some(format!("levels {levels}: of order {order} the trace program takes 1 to {most}"));
    }
    None
}

fn number(word: &str) -> Result<u32, String> {
    let digits = !word.is_empty() && word.bytes().all(|b| b.is_ascii_digit());
    word.parse().ok().filter(|_| digits).ok_or_else(|| format!("`{word}` is no number from 0 to {}", u32::MAX))
}

/// The order and levels of a shape's line.
fn shape(words: &[&str]) -> Result<[u32; 2], String> {
    match *words {
        ["order", order, "levels", levels] => {
            let (order, levels) = (number(order)?, number(levels)?);
            match bad_shape(order as u64, levels as u64) {
                Some(what) => Err(what),
                None => Ok([order, levels]),
            }
        }
        _ => Err(String::from(
            "the first line is the shape, as in `order 2 levels 2`, or `version 2` and then the shape",
        )),
    }
}

/// The trace that a text describes.
pub fn to_trace(text: &[u8]) -> Result<Vec<u8>, Fault> {
    let mut lines = Trace::text(text)?;
    let mut trace = [&b"PFT"[..], &[lines.version.number(), 0, lines.order as u8, lines.levels as u8]].concat();
    while let Some(op) = lines.next_op()? {
        let (code, numbers) = op.coded();
        trace.push(code);
        for n in &numbers[..lines.version.numbers()] {
            trace.extend_from_slice(&n.to_le_bytes());
        }
    }
    Ok(trace)
}

/// The text of a trace. A trace that the trace program would refuse has none.
pub fn to_text(trace: &[u8]) -> Result<String, Fault> {
    let mut records = Trace::binary(trace)?;
    let mut text = match records.version {
        Version::One => String::new(),
        Version::Two => String::from("version 2\n"),
    };
    text += &format!("order {} levels {}\n", records.order, records.levels);
    while let Some(op) = records.next_op()? {
        text += op.name();
        if let Op::Push(x) | Op::Replace(x) = op {
            for n in &x[..records.version.numbers()] {
                text += &format!(" {n}");
            }
        }
        text += "\n";
    }
    Ok(text)
}
