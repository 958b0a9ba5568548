//! A trace read record by record: bytes of either version, or lines of text.

use crate::{bad_shape, fault, number, shape, Fault, Lines, Version, HEADER};
use std::io::BufRead;

/// What a record asks for. The numbers are rank, tag and length; in a trace of version 1 the length is 0.
#[derive(Clone, Copy, PartialEq, Eq, Debug)]
pub enum Op {
    /// An idle cycle.
    Idle,
    /// Take this element in.
    Push([u32; 3]),
    /// Give the element of lowest rank.
    Pop,
    /// Give the element of lowest rank, and then take this one in.
    Replace([u32; 3]),
}

impl Op {
    /// The word for it in a text.
    pub fn name(self) -> &'static str {
        match self {
            Op::Idle => "idle",
            Op::Push(_) => "push",
            Op::Pop => "pop",
            Op::Replace(_) => "replace",
        }
    }

    /// Its code, and rank, tag and length, 0 where it has none.
    pub fn coded(self) -> (u8, [u32; 3]) {
        match self {
            Op::Idle => (0, [0; 3]),
            Op::Push(x) => (1, x),
            Op::Pop => (2, [0; 3]),
            Op::Replace(x) => (3, x),
        }
    }

    /// The operation of a code; none where there is no such code.
    fn of(code: u8, x: [u32; 3]) -> Option<Op> {
        match code {
            0 => Some(Op::Idle),
            1 => Some(Op::Push(x)),
            2 => Some(Op::Pop),
            3 => Some(Op::Replace(x)),
            _ => None,
        }
    }
}

#[derive(Clone, Copy, PartialEq, Eq)]
enum Form {
    Bytes,
    Lines,
}

/// A trace that is read as it is asked for: the shape at first, then record after record.
///
/// ```
/// use trace_text::{Op, Trace};
///
/// let mut trace = Trace::open(&b"order 2 levels 3\npush 5 50\npop\n"[..]).unwrap();
/// assert_eq!((trace.order(), trace.levels(), trace.has_lengths()), (2, 3, false));
/// assert_eq!(trace.next_op().unwrap(), Some(Op::Push([5, 50, 0])));
/// assert_eq!(trace.next_op().unwrap(), Some(Op::Pop));
/// assert_eq!(trace.next_op().unwrap(), None);
/// ```
pub struct Trace<R> {
    lines: Lines<R>,
    form: Form,
    /// Of bytes, the records that were read.
    seen: u64,
    pub(crate) version: Version,
    pub(crate) order: u32,
    pub(crate) levels: u32,
}

impl<R: BufRead> Trace<R> {
    /// A trace of either form: what begins with a P is bytes, since no line of a text does.
    pub fn open(mut from: R) -> Result<Trace<R>, Fault> {
        match from.fill_buf() {
            Ok(bytes) if bytes.first() == Some(&b'P') => Trace::binary(from),
            Ok(_) => Trace::text(from),
            Err(error) => fault(String::from("byte 0"), error.to_string()),
        }
    }

    /// A trace as bytes.
    pub fn binary(from: R) -> Result<Trace<R>, Fault> {
        let mut trace =
            Trace { lines: Lines::new(from), form: Form::Bytes, seen: 0, version: Version::One, order: 0, levels: 0 };
        let mut header = [0; HEADER];
        let at = |byte: usize| format!("byte {byte}");
        let got = trace.fill(&mut header).or_else(|what| fault(at(0), what))?;
        if let Some(i) = (0..3.min(got)).find(|&i| header[i] != b"PFT"[i]) {
            return fault(at(i), "a trace begins with the bytes PFT");
        }
        if got < HEADER {
            return fault(at(got), format!("the header is cut: {HEADER} bytes are needed"));
        }
        trace.version =
            Version::of(u16::from_le_bytes([header[3], header[4]]) as u32).or_else(|what| fault(at(3), what))?;
        if let Some(what) = bad_shape(header[5] as u64, header[6] as u64) {
            return fault(at(5), what);
        }
        trace.order = header[5] as u32;
        trace.levels = header[6] as u32;
        Ok(trace)
    }

    /// A trace as lines of text.
    pub fn text(from: R) -> Result<Trace<R>, Fault> {
        let mut trace =
            Trace { lines: Lines::new(from), form: Form::Lines, seen: 0, version: Version::One, order: 0, levels: 0 };
        let mut versioned = false;
        while let Some(line) = trace.line()? {
            let words: Vec<&str> = line.split_whitespace().collect();
            if let (false, ["version", number_of_it]) = (versioned, &words[..]) {
                versioned = true;
                trace.version = number(number_of_it).and_then(Version::of).or_else(|what| trace.wrong(what))?;
                continue;
            }
            let [order, levels] = shape(&words).or_else(|what| trace.wrong(what))?;
            trace.order = order;
            trace.levels = levels;
            return Ok(trace);
        }
        fault(String::from("line 1"), "there is no line `order M levels L`")
    }

    /// The tree's order.
    pub fn order(&self) -> u32 {
        self.order
    }

    /// The tree's levels.
    pub fn levels(&self) -> u32 {
        self.levels
    }

    /// Whether its records have lengths: it is of version 2.
    pub fn has_lengths(&self) -> bool {
        self.version == Version::Two
    }

    /// The next record; none at the end.
    pub fn next_op(&mut self) -> Result<Option<Op>, Fault> {
        match self.form {
            Form::Bytes => self.next_bytes(),
            Form::Lines => match self.line()? {
                Some(line) => {
                    let words: Vec<&str> = line.split_whitespace().collect();
                    record(self.version, &words).map(Some).or_else(|what| self.wrong(what))
                }
                None => Ok(None),
            },
        }
    }

    /// What is wrong with the line that was read last.
    fn wrong<T>(&self, what: impl Into<String>) -> Result<T, Fault> {
        fault(format!("line {}", self.lines.seen()), what)
    }

    /// The next line that is not empty, its comment cut off.
    fn line(&mut self) -> Result<Option<String>, Fault> {
        self.lines.next_line().or_else(|what| self.wrong(what))
    }

    /// Reads as many bytes as there are, up to these, and says how many.
    fn fill(&mut self, bytes: &mut [u8]) -> Result<usize, String> {
        let mut got = 0;
        while got < bytes.len() {
            match self.lines.from.read(&mut bytes[got..]) {
                Ok(0) => break,
                Ok(n) => got += n,
                Err(error) if error.kind() == std::io::ErrorKind::Interrupted => {}
                Err(error) => return Err(error.to_string()),
            }
        }
        Ok(got)
    }

    fn next_bytes(&mut self) -> Result<Option<Op>, Fault> {
        let size = self.version.record();
        let place = format!("record {} (byte {})", self.seen + 1, HEADER as u64 + size as u64 * self.seen);
        let mut bytes = [0; 13];
        let got = match self.fill(&mut bytes[..size]) {
            Ok(0) => return Ok(None),
            Ok(got) => got,
            Err(what) => return fault(place, what),
        };
        if got < size {
            return fault(place, format!("the record is cut: {got} bytes of {size}"));
        }
        self.seen += 1;
        let word = |i: usize| u32::from_le_bytes([bytes[i], bytes[i + 1], bytes[i + 2], bytes[i + 3]]);
        // the bytes behind a record of version 1 are 0
        let numbers = [word(1), word(5), word(9)];
        let op = match Op::of(bytes[0], numbers) {
            Some(op) => op,
            None => return fault(place, format!("code {}: it is 0 to 3", bytes[0])),
        };
        if matches!(op, Op::Idle | Op::Pop) && numbers != [0; 3] {
            let names = ["rank", "tag", "length"];
            let has: Vec<String> =
                names.iter().zip(&numbers[..self.version.numbers()]).map(|(k, n)| format!("{k} {n}")).collect();
            return fault(place, format!("code {} with {}: all must be 0", bytes[0], has.join(", ")));
        }
        Ok(Some(op))
    }
}

/// A record's line.
fn record(version: Version, words: &[&str]) -> Result<Op, String> {
    let code = match words[0] {
        "idle" => 0,
        "push" => 1,
        "pop" => 2,
        "replace" => 3,
        other => return Err(format!("`{other}` is none of idle, push, pop, replace")),
    };
    let mut x = [0; 3];
    if code == 1 || code == 3 {
        if words.len() != 1 + version.numbers() {
            return Err(format!("{} takes {}", words[0], version.takes()));
        }
        for (n, word) in x.iter_mut().zip(&words[1..]) {
            *n = number(word)?;
        }
    } else if words.len() > 1 {
        return Err(format!("{} stands alone", words[0]));
    }
    Ok(Op::of(code, x).expect("a code from 0 to 3"))
}
