//! Says what is broken in a tree's store, and writes a mended one beside it.
//!
//!     mend STORE ORDER LEVELS
//!
//! STORE is a file of 32-bit words, low byte first. Where no slot is broken it says so and writes nothing. Else it says where the first
//! broken slot stands and why it is broken, and writes the mended store to STORE.mended, which must not be there yet: no file is ever
//! written over. The exit status is 0; where the words of the call are wrong 2, and where anything else is wrong 1, with a line on
//! standard error, and nothing is written.

use mend_store::{bytes, mend, words, Found};
use std::io::Write;
use std::process::exit;

fn fail(what: String) -> ! {
    eprintln!("mend: {what}");
    exit(1)
}

/// A file that was not there before, written whole or not at all.
fn write(name: &str, bytes: &[u8]) -> std::io::Result<()> {
    let mut file = std::fs::OpenOptions::new().write(true).create_new(true).open(name)?;
    file.write_all(bytes).and_then(|()| file.sync_all()).map_err(|error| {
        let _ = std::fs::remove_file(name);
        error
    })
}

fn main() {
    let call: Vec<String> = std::env::args().skip(1).collect();
    let (name, order, levels) = match call.as_slice() {
        [name, order, levels] => match (order.parse::<u32>(), levels.parse::<u32>()) {
            (Ok(order), Ok(levels)) => (name, order, levels),
            _ => {
                eprintln!("mend: ORDER and LEVELS are numbers\nmend STORE ORDER LEVELS");
                exit(2)
            }
        },
        _ => {
            eprintln!("mend STORE ORDER LEVELS");
            exit(2)
        }
    };
    let file = std::fs::read(name).unwrap_or_else(|error| fail(format!("{name}: {error}")));
    let store = words(&file).unwrap_or_else(|what| fail(format!("{name}: {what}")));
    match mend(store, order, levels).unwrap_or_else(|what| fail(format!("{name}: {what}"))) {
        Found::Whole => println!("no slot is broken"),
        Found::Mended { broken, store, skipped } => {
            let beside = format!("{name}.mended");
            write(&beside, &bytes(&store)).unwrap_or_else(|error| fail(format!("{beside}: {error}")));
            for line in broken {
                println!("{line}");
            }
            println!("skipped for want of a tag: {skipped}");
            println!("mended: {beside}");
        }
    }
}
