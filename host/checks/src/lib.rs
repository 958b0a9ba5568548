//! What the checks share: where things are, and how programs are run.
//!
//! The environment may say: `PLAY` (the trace program), `CARD_LIB` (the static library), `CARD_CC` and `CARD_CXX` (compilers of programs
//! over it), `CARD_RUNNER` (what runs those), `RUNNER` (what runs an x86-64 program), `CARD_SEED`. `host/run.sh` sets them.

pub mod budget;
pub mod table;

use std::collections::{BTreeMap, BTreeSet};
use std::path::{Path, PathBuf};
use std::process::{Command, Output};

/// The repository's folder.
pub fn root() -> PathBuf {
    Path::new(env!("CARGO_MANIFEST_DIR")).join("../..").canonicalize().expect("the repository's folder")
}

/// The words of a variable; none where it is not set.
pub fn words(variable: &str) -> Vec<String> {
    std::env::var(variable).unwrap_or_default().split_whitespace().map(String::from).collect()
}

/// A file that a variable names, or else one that `rt` makes in the repository.
fn made(variable: &str, usual: &str, by: &str) -> PathBuf {
    let path = std::env::var_os(variable).map_or_else(|| root().join(usual), PathBuf::from);
    assert!(path.is_file(), "{} is missing: `{by}` in the repository's folder makes it", path.display());
    path
}

/// The trace program.
pub fn play() -> PathBuf {
    made("PLAY", "crates/play/out/play", "host/play.sh")
}

/// The static library, that for this machine where none is named.
pub fn library() -> PathBuf {
    made("CARD_LIB", &format!("target/lib/{}/libcard.a", here()), "host/lib.sh")
}

/// What `host/lib.sh` calls this machine.
pub fn here() -> String {
    format!("{}-linux", std::env::consts::ARCH)
}

/// A command for a program, by way of an emulator where a variable names one.
fn by(variable: &str, program: &Path) -> Command {
    let runner = words(variable);
    match runner.split_first() {
        None => Command::new(program),
        Some((emulator, rest)) => {
            let mut command = Command::new(emulator);
            command.args(rest).arg(program);
            command
        }
    }
}

/// A command for an x86-64 program.
pub fn x86(program: &Path) -> Command {
    by("RUNNER", program)
}

/// A command for a program over the library.
pub fn linked(program: &Path) -> Command {
    by("CARD_RUNNER", program)
}

/// The compiler that a variable names.
pub fn compiler(variable: &str, usual: &str) -> Command {
    let mut all = words(variable);
    if all.is_empty() {
        all.push(usual.to_string());
    }
    let mut command = Command::new(&all[0]);
    command.args(&all[1..]);
    command
}

/// cargo, as this test was started by it, but with nothing of what it tells its tests.
pub fn cargo() -> Command {
    let mut command = Command::new(std::env::var_os("CARGO").unwrap_or_else(|| "cargo".into()));
    for (name, _) in std::env::vars() {
        let told = name.starts_with("CARGO_PKG") || name.starts_with("CARGO_MANIFEST") || name.starts_with("CARGO_BIN");
        if told || name == "CARGO_TARGET_DIR" || name == "CARGO_PRIMARY_PACKAGE" {
            command.env_remove(name);
        }
    }
    command
}

/// A folder of a test's own, outside the repository.
pub fn outside(name: &str) -> PathBuf {
    let folder = std::env::temp_dir().join(format!("card-checks-{}-{name}", std::process::id()));
    let _ = std::fs::remove_dir_all(&folder);
    std::fs::create_dir_all(&folder).expect("a folder for the test");
    folder
}

/// What a command wrote, once it has ended; it must be there.
pub fn run(command: &mut Command) -> Output {
    match command.output() {
        Ok(output) => output,
        Err(error) => panic!("{command:?} does not start: {error}"),
    }
}

/// What a command wrote to standard output. It must end well.
pub fn done(command: &mut Command) -> String {
    let output = run(command);
    let (out, err) = (String::from_utf8_lossy(&output.stdout), String::from_utf8_lossy(&output.stderr));
    assert!(output.status.success(), "{command:?} ended with {}\n{out}{err}", output.status);
    out.into_owned()
}

/// A file's text.
pub fn text(path: &Path) -> String {
    std::fs::read_to_string(path).unwrap_or_else(|error| panic!("{}: {error}", path.display()))
}

/// What stands before the name of a function for C.
pub const EXPORT: &str = "#[unsafe(no_mangle)]\npub extern \"C\" fn ";

/// The text of the static library's crate, whose functions for C the header declares: what `host/lib.sh` makes the library of.
pub fn exports() -> String {
    source(&root().join("crates/card_c/src"))
}

/// The boundary crates, which the static libraries hand on to C: those with a public function of the name of an export. The text of each.
pub fn boundary() -> BTreeMap<String, String> {
    let crates = std::fs::read_dir(root().join("crates")).expect("the crates").map(|entry| entry.unwrap().path());
    let named =
        crates.map(|folder| (folder.file_name().unwrap().to_string_lossy().into_owned(), source(&folder.join("src"))));
    let all: BTreeMap<String, String> = named.collect();
    let exported: BTreeSet<&str> = all.values().flat_map(|text| behind(text, EXPORT)).collect();
    let hands_on = |text: &str| behind(text, "pub fn ").any(|name| exported.contains(name));
    all.iter().filter(|(_, text)| hands_on(text)).map(|(name, text)| (name.clone(), text.clone())).collect()
}

/// What stands in a text behind some words at the start of a line, up to a parenthesis.
fn behind<'a>(text: &'a str, words: &'a str) -> impl Iterator<Item = &'a str> {
    let at_a_line = move |(at, _): &(usize, &str)| *at == 0 || text.as_bytes()[*at - 1] == b'\n';
    let found = text.match_indices(words).filter(at_a_line).map(move |(at, _)| &text[at + words.len()..]);
    found.filter_map(|rest| rest.split('(').next())
}

/// The text of all modules of a crate's source, one after the other.
fn source(folder: &Path) -> String {
    let mut files: Vec<PathBuf> =
        std::fs::read_dir(folder).into_iter().flatten().map(|entry| entry.unwrap().path()).collect();
    files.sort();
    let module = |path: &PathBuf| match path.extension().map_or(false, |e| e == "rt") {
        true => text(path),
        false => source(path),
    };
    files.iter().map(module).collect::<Vec<_>>().join("\n")
}
