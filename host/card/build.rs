//! Finds the static library for the target that cargo builds for, or has it made, and tells cargo where it lies.
//!
//! `CARD_LIB` names a `libcard.a`, whatever the target is. Where it is not set, the library is `target/lib/TARGET/libcard.a` of this
//! repository: `host/lib.sh TARGET` makes it where it is missing or older than its sources, and proves it then, which takes some minutes.

use std::path::{Path, PathBuf};
use std::process::{exit, Command, Stdio};

/// Ends the build with a plain word about what is missing.
fn missing(what: &str) -> ! {
    eprintln!("card_host: {what}");
    eprintln!("card_host: the static library is made by `host/lib.sh TARGET` in the repository's folder (it needs rt, the command of the");
    eprintln!("card_host: Rattle kit), or CARD_LIB names a libcard.a that was made elsewhere");
    exit(1)
}

/// What `host/lib.sh` calls a target of cargo's.
fn name(triple: &str) -> Option<&'static str> {
    let of = |processor: &str, system: &str| triple.starts_with(processor) && triple.contains(system);
    Some(match triple {
        _ if of("x86_64", "-linux-") => "x86_64-linux",
        _ if of("aarch64", "-linux-") => "aarch64-linux",
        _ if of("riscv64", "-linux-") => "riscv64-linux",
        _ if of("armv7", "-linux-") && triple.ends_with("hf") => "armv7-linux",
        "thumbv7em-none-eabi" => "thumbv7em-none",
        "riscv32imac-unknown-none-elf" => "riscv32-none",
        _ => return None,
    })
}

/// The repository's own library, made where it is missing or old.
fn own(root: &Path, triple: &str) -> PathBuf {
    let target = name(triple).unwrap_or_else(|| missing(&format!("host/lib.sh makes no library for {triple}")));
    let mut script = Command::new("sh");
    script.arg(root.join("host/lib.sh")).arg(target).stderr(Stdio::inherit());
    match script.output() {
        Ok(output) if output.status.success() => root.join(String::from_utf8_lossy(&output.stdout).trim()),
        Ok(output) => missing(&format!("`host/lib.sh {target}` ended with {}", output.status)),
        Err(error) => missing(&format!("`host/lib.sh {target}` cannot be run: {error}")),
    }
}

fn main() {
    let root = Path::new(env!("CARGO_MANIFEST_DIR")).join("../..").canonicalize().expect("the repository's folder");
    println!("cargo:rerun-if-env-changed=CARD_LIB");
    println!("cargo:rerun-if-changed=build.rs");
    let library = match std::env::var_os("CARD_LIB") {
        Some(path) => {
            let path = PathBuf::from(path);
            if !path.is_file() {
                missing(&format!("CARD_LIB names {}, which is no file", path.display()));
            }
            path.canonicalize().expect("a file that is there")
        }
        None => {
            for made_of in ["crates.txt", "host/card.h", "host/lib.sh"] {
                println!("cargo:rerun-if-changed={}", root.join(made_of).display());
            }
            // of a crate its sources: what rt makes stands beside them
            for entry in std::fs::read_dir(root.join("crates")).expect("the crates") {
                let folder = entry.expect("a crate").path();
                for part in ["src", "specs", "proofs"].iter().map(|part| folder.join(part)).filter(|part| part.is_dir())
                {
                    println!("cargo:rerun-if-changed={}", part.display());
                }
            }
            own(&root, &std::env::var("TARGET").unwrap_or_default())
        }
    };
    println!("cargo:rerun-if-changed={}", library.display());
    let folder = library.parent().expect("a file stands in a folder");
    if library.file_name() != Some("libcard.a".as_ref()) {
        missing(&format!("{} is not named libcard.a", library.display()));
    }
    // crates that depend on this one are told which library it is
    println!("cargo:library={}", library.display());
    println!("cargo:rustc-link-search=native={}", folder.display());
    println!("cargo:rustc-link-lib=static=card");
}
