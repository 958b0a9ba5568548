//! Writes the declarations of `host/card.h` anew, from the list of the calls.

use checks::table::{calls, written, HEADER};
use checks::{root, text};

fn main() {
    let path = root().join(HEADER);
    let header = written(&text(&path), &calls()).unwrap_or_else(|error| {
        eprintln!("{HEADER}: {error}");
        std::process::exit(1)
    });
    std::fs::write(&path, header).unwrap_or_else(|error| panic!("{HEADER}: {error}"));
}
