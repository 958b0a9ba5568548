//! The trace program: bytes in, bytes out. Of the two versions, 2 has a length in every record and in every `out` line.

use crate::clocked::{self, Request, NOTHING};
use crate::tree::Shape;
use crate::{Element, No};

const MOST_SLOTS: u64 = 4094;

struct Line(String);

fn number(bytes: &[u8]) -> u32 {
    bytes[0] as u32 | (bytes[1] as u32) << 8 | (bytes[2] as u32) << 16 | (bytes[3] as u32) << 24
}

/// The header's version, order and levels; none where it is cut, wrong, or of another version or shape.
fn header(input: &[u8]) -> Option<(u32, Shape)> {
    if input.len() < 7 {
        return None;
    }
    if input[0] != b'P' || input[1] != b'F' || input[2] != b'T' {
        return None;
    }
    let version = input[3] as u32 + 256 * input[4] as u32;
    if version != 1 && version != 2 {
        return None;
    }
    let shape = Shape::new(input[5] as u32, input[6] as u32)?;
    if shape.capacity() > MOST_SLOTS {
        return None;
    }
    Some((version, shape))
}

/// The bytes of a record.
fn size(version: u32) -> usize {
    match version {
        1 => 9,
        _ => 13,
    }
}

/// A record's request; none where it is bad.
fn record(version: u32, bytes: &[u8]) -> Option<Request> {
    if bytes.len() < size(version) {
        return None;
    }
    let (rank, tag) = (number(&bytes[1..5]), number(&bytes[5..9]));
    let length = if version == 1 { 0 } else { number(&bytes[9..13]) };
    let x = Element { rank, tag, length };
    let blank = rank == 0 && tag == 0 && length == 0;
    match bytes[0] {
        0 if blank => Some(Request::Idle),
        1 => Some(Request::Push(x)),
        2 if blank => Some(Request::Pop),
        3 => Some(Request::Replace(x)),
        _ => None,
    }
}

/// What the program writes for this input.
pub fn play(input: &[u8]) -> Vec<u8> {
    let (version, shape) = match header(input) {
        Some(found) => found,
        None => return b"bad trace\n".to_vec(),
    };
    let (order, levels) = (shape.order as u32, shape.levels as u32);
    let mut store = vec![0; 4 * shape.capacity() as usize];
    let mut pending = vec![NOTHING; levels as usize - 1];
    let mut mark = false;
    let mut written = Vec::new();

    let mut rest = &input[7..];
    let mut n: u64 = 0;
    while !rest.is_empty() {
        n += 1;
        let request = match record(version, rest) {
            Some(request) => request,
            None => {
                written.extend_from_slice(format!("bad record {n}\n").as_bytes());
                return written;
            }
        };
        rest = &rest[size(version)..];
        let answer = clocked::cycle(&mut store, order, levels, &mut pending, &mut mark, request);
        let Line(word) = match (answer, request) {
            (Ok(_), Request::Idle) => Line("idle".to_string()),
            (Ok(_), Request::Push(_)) => Line("pushed".to_string()),
            (Ok(x), _) if version == 1 => Line(format!("out {} {}", x.rank, x.tag)),
            (Ok(x), _) => Line(format!("out {} {} {}", x.rank, x.tag, x.length)),
            (Err(No::TooSoon), _) => Line("too soon".to_string()),
            (Err(No::Full), _) => Line("full".to_string()),
            (Err(No::Empty), _) => Line("empty".to_string()),
            (Err(No::NoTag), _) => Line("no tag".to_string()),
            (Err(no), _) => panic!("a cleared machine refuses {}", no.number()),
        };
        written.extend_from_slice(format!("{n} {word}\n").as_bytes());
    }

    let drained = clocked::drain(&mut store, order, levels, &mut pending, &mut mark, levels);
    assert!(drained.refused.is_none() && !drained.work_left);
    let held = clocked::held(&store, order, levels).expect("a sound root");
    written.extend_from_slice(format!("held {held} drained {}\n", drained.cycles).as_bytes());
    written
}
