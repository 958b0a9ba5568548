//! Compiles the plain C of `c/`, and tells the program which compilers and which library made it, and whether the ordered map can give its
//! first entry. The C compiler is the one that `CARD_CC` names, or else gcc.

use std::path::{Path, PathBuf};
use std::process::{exit, Command};

/// Files that are linked into the bench; `play.c` is a program of its own.
const LINKED: [&str; 12] = [
    "bucket",
    "clear",
    "clocked_cluster",
    "clocked_lines",
    "clocked_tree",
    "cluster",
    "fair",
    "lines",
    "mend",
    "packed",
    "ports",
    "tree",
];

/// Ends the build with a plain word where a command does not end well.
fn done(command: &mut Command) {
    match command.status() {
        Ok(status) if status.success() => return,
        Ok(status) => eprintln!("bench: {command:?} ended with {status}"),
        Err(error) => eprintln!("bench: {command:?} cannot be run: {error}"),
    }
    eprintln!("bench: it takes a C compiler: gcc, or the one that CARD_CC names");
    exit(1)
}

/// What a command says of itself in its first line.
fn version(mut command: Command) -> String {
    let answer = command.arg("--version").output().map(|o| o.stdout).unwrap_or_default();
    String::from_utf8_lossy(&answer).lines().next().unwrap_or_default().trim().to_string()
}

/// The compiler of `c/`.
fn compiler() -> Command {
    let words = std::env::var("CARD_CC").unwrap_or_default();
    let mut words = words.split_whitespace();
    let mut command = Command::new(words.next().unwrap_or("gcc"));
    command.args(words);
    command
}

/// The plain C, as fast as the compiler makes it.
fn compile(folder: &Path, out: &Path) {
    let words = ["-std=c11", "-O3", "-fPIC", "-Wall", "-Wextra", "-Werror"];
    for name in LINKED {
        let object = out.join(format!("{name}.o"));
        done(compiler().args(words).arg("-c").arg(folder.join(format!("{name}.c"))).arg("-o").arg(&object));
        println!("cargo:rustc-link-arg={}", object.display());
    }
    let program = out.join("plain_play");
    done(compiler().args(words).arg(folder.join("play.c")).arg("-o").arg(&program));
    println!("cargo:rustc-env=BENCH_PLAIN_PLAY={}", program.display());
}

fn main() {
    println!("cargo:rerun-if-changed=build.rs");
    println!("cargo:rerun-if-changed=c");
    println!("cargo:rerun-if-env-changed=CARD_CC");
    let out = PathBuf::from(std::env::var_os("OUT_DIR").expect("cargo's folder"));
    compile(&Path::new(env!("CARGO_MANIFEST_DIR")).join("c"), &out);
    println!("cargo:rustc-env=BENCH_CC={}", version(compiler()));
    let rustc = std::env::var("RUSTC").unwrap_or_else(|_| String::from("rustc"));
    let rustc = version(Command::new(rustc));
    println!("cargo:rustc-env=BENCH_RUSTC={rustc}");
    println!("cargo:rustc-env=BENCH_LIBRARY={}", std::env::var("DEP_CARD_LIBRARY").unwrap_or_default());
    println!("cargo:rustc-env=BENCH_OPT={}", std::env::var("OPT_LEVEL").unwrap_or_default());
    let minor = rustc.split('.').nth(1).and_then(|m| m.parse::<u32>().ok()).unwrap_or(0);
    // rustc 1.80 asks which names there are
    if minor >= 80 {
        println!("cargo:rustc-check-cfg=cfg(first_entry)");
    }
    // rustc 1.66 has `BTreeMap::first_entry`; before it the map has to be searched twice
    if minor >= 66 {
        println!("cargo:rustc-cfg=first_entry");
    }
}
