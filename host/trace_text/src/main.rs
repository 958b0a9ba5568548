//! Turns lines of text into a trace, and back.
//!
//!     trace_text to-trace TEXT [TRACE]
//!     trace_text to-text TRACE [TEXT]
//!
//! `-` is standard input; with no second name the result goes to standard output. Where anything is wrong nothing is written, a line
//! on standard error says what and where, and the exit status is 1 (2 where the words of the call are wrong).

use std::io::{Read, Write};
use std::process::exit;

fn fail(what: String) -> ! {
    eprintln!("trace_text: {what}");
    exit(1)
}

fn read(name: &str) -> Vec<u8> {
    let mut bytes = Vec::new();
    let done = if name == "-" {
        std::io::stdin().read_to_end(&mut bytes)
    } else {
        std::fs::File::open(name).and_then(|mut file| file.read_to_end(&mut bytes))
    };
    match done {
        Ok(_) => bytes,
        Err(error) => fail(format!("{name}: {error}")),
    }
}

/// Writes a file whole, or not at all: its bytes go to a file beside it first.
fn write(name: &str, bytes: &[u8]) -> std::io::Result<()> {
    let part = format!("{name}.part");
    std::fs::write(&part, bytes).and_then(|()| std::fs::rename(&part, name)).map_err(|error| {
        let _ = std::fs::remove_file(&part);
        error
    })
}

fn main() {
    let words: Vec<String> = std::env::args().skip(1).collect();
    let (kind, from, to) = match words.as_slice() {
        [kind, from] => (kind, from, None),
        [kind, from, to] => (kind, from, Some(to)),
        _ => {
            eprintln!("trace_text to-trace TEXT [TRACE]\ntrace_text to-text TRACE [TEXT]");
            exit(2)
        }
    };
    let made = match kind.as_str() {
        "to-trace" => trace_text::to_trace(&read(from)),
        "to-text" => trace_text::to_text(&read(from)).map(String::into_bytes),
        other => {
            eprintln!("trace_text: `{other}` is neither to-trace nor to-text");
            exit(2)
        }
    };
    let bytes = made.unwrap_or_else(|what| fail(format!("{from}: {what}")));
    let (name, done) = match to {
        Some(name) => (name.as_str(), write(name, &bytes)),
        None => ("standard output", std::io::stdout().write_all(&bytes).and_then(|()| std::io::stdout().flush())),
    };
    if let Err(error) = done {
        fail(format!("{name}: {error}"));
    }
}
