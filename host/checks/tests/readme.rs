//! The page's examples are the ones that are compiled and run, and each of its commands is run.

use checks::{cargo, compiler, done, library, linked, play, root, text};
use std::process::Command;

fn readme() -> String {
    text(&root().join("README.md"))
}

/// The page's blocks of one language.
fn blocks(language: &str) -> Vec<String> {
    let page = readme();
    let mut parts = page.split("\n```");
    let mut found = Vec::new();
    parts.next();
    while let (Some(block), rest) = (parts.next(), parts.next()) {
        let (first, code) = block.split_once('\n').unwrap_or((block, ""));
        if first == language {
            found.push(format!("{code}\n"));
        }
        assert!(rest.is_some(), "a block is not closed");
    }
    found
}

#[test]
fn its_examples_are_the_ones_that_are_run() {
    assert_eq!(blocks("c"), [text(&root().join("host/examples/pops.c"))]);
    assert_eq!(blocks("rust"), [text(&root().join("host/card/examples/pops.rs"))]);
    let [sample, lines] = <[String; 2]>::try_from(blocks("text")).expect("a text and its lines");
    assert_eq!(sample, text(&root().join("host/examples/worked.txt")));
    let trace = trace_text::to_trace(sample.as_bytes()).unwrap();
    assert_eq!(lines.as_bytes(), models::trace::play(&trace));
}

/// How a command of the page is run.
enum Run {
    /// As it stands, or where the machine asks for it by another compiler or by the emulator; and what it writes.
    Here(Command, Option<&'static str>),
    /// By the gate itself, or by a script that it runs: the script has these words.
    There(&'static str, &'static str),
}

fn shell(command: &str) -> Command {
    let mut shell = Command::new("sh");
    shell.args(["-c", command]).current_dir(root());
    shell
}

fn how(command: &str) -> Run {
    const POPS: Option<&str> = Some("host/examples/pops.txt");
    match command {
        "bash .ci/run" => Run::There(".ci/run", "part host/run.sh"),
        "host/play.sh" => Run::Here(shell(command), Some("crates/play/stdout")),
        "host/bench.sh" => Run::Here(shell("host/bench.sh --brief"), None),
        "host/run.sh" => Run::There(".ci/run", "part host/run.sh"),
        "host/trace.sh to-trace host/examples/worked.txt target/worked.pft" | "host/play.sh target/worked.pft" => {
            Run::Here(shell(command), None)
        }
        "host/trace.sh to-text target/worked.pft" => Run::Here(shell(command), Some("host/examples/worked.txt")),
        "gcc -std=c99 -Ihost host/examples/pops.c \"$(host/lib.sh)\" -o target/pops" => {
            let mut gcc = compiler("CARD_CC", "gcc");
            gcc.args(["-std=c99", "-Ihost", "host/examples/pops.c"]).arg(library()).args(["-o", "target/pops"]);
            gcc.current_dir(root());
            Run::Here(gcc, None)
        }
        "target/pops" => {
            let mut pops = linked(&root().join("target/pops"));
            pops.current_dir(root());
            Run::Here(pops, POPS)
        }
        "cargo run --manifest-path host/Cargo.toml --example pops" => {
            let mut run = cargo();
            run.args(["run", "--offline", "--manifest-path", "host/Cargo.toml", "--example", "pops"])
                .current_dir(root());
            Run::Here(run, POPS)
        }
        other => panic!("README has the command `{other}`, and nothing here says how it is run"),
    }
}

#[test]
fn each_of_its_commands_is_run() {
    // what the commands need is there
    library();
    play();
    let page = readme();
    let commands: Vec<&str> =
        page.lines().filter_map(|line| line.strip_prefix("    ")).filter(|line| !line.starts_with(' ')).collect();
    let fenced: Vec<String> = ["c", "rust", "text", "toml"].iter().flat_map(|language| blocks(language)).collect();
    let mut run = 0;
    for command in
        commands.into_iter().filter(|line| !fenced.iter().any(|block| block.contains(&format!("    {line}\n"))))
    {
        match how(command) {
            Run::Here(mut here, expected) => {
                let written = done(&mut here);
                if let Some(expected) = expected {
                    assert_eq!(written, text(&root().join(expected)), "{command}");
                }
            }
            Run::There(script, words) => {
                assert!(text(&root().join(script)).contains(words), "{script} does not run `{command}`")
            }
        }
        run += 1;
    }
    assert!(run >= 8, "{run} commands found");
}
