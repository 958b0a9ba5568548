//! The scripts of `host/`, run as their users run them: from any folder, and with bad words.

use checks::{done, outside, play, root, run, text};
use std::process::{Command, Output};

fn script(name: &str) -> Command {
    Command::new(root().join("host").join(name))
}

/// Refused: this exit status, these words on standard error, and nothing on standard output.
fn refused(output: Output, status: i32, says: &str) {
    let said = String::from_utf8_lossy(&output.stderr).into_owned();
    assert_eq!(output.status.code(), Some(status), "{said}");
    assert!(said.contains(says), "{said}");
    assert!(output.stdout.is_empty());
}

/// The shipped sample as `rt` holds it to its file, from the repository's folder and from another.
#[test]
fn play_plays_the_sample_from_any_folder() {
    play();
    let expected = text(&root().join("crates/play/stdout"));
    let elsewhere = outside("sample");
    assert_eq!(done(script("play.sh").current_dir(root())), expected);
    assert_eq!(done(script("play.sh").current_dir(&elsewhere)), expected);
    // a name is the caller's, be it relative, absolute or standard input
    std::fs::copy(root().join("crates/play/stdin"), elsewhere.join("a trace")).unwrap();
    assert_eq!(done(script("play.sh").arg("a trace").current_dir(&elsewhere)), expected);
    assert_eq!(done(script("play.sh").arg(elsewhere.join("a trace")).current_dir("/")), expected);
    let input = std::fs::File::open(elsewhere.join("a trace")).unwrap();
    assert_eq!(done(script("play.sh").arg("-").stdin(input).current_dir("/")), expected);
    std::fs::remove_dir_all(&elsewhere).unwrap();
}

#[test]
fn play_names_what_is_wrong() {
    let elsewhere = outside("nothing");
    let missing = elsewhere.canonicalize().unwrap().join("nothing.pft");
    refused(
        run(script("play.sh").arg("nothing.pft").current_dir(&elsewhere)),
        1,
        &format!("play: there is no file {}", missing.display()),
    );
    refused(run(script("play.sh").arg("/nowhere/at/all")), 1, "play: there is no file /nowhere/at/all");
    refused(run(script("play.sh").arg(&elsewhere)), 1, "is no file that can be read");
    refused(run(script("play.sh").args(["a", "b"])), 2, "play.sh [TRACE]");
    std::fs::remove_dir_all(&elsewhere).unwrap();
}

/// A text, its trace, what the program writes of it, and back: from another folder.
#[test]
fn a_text_is_played() {
    let elsewhere = outside("text");
    std::fs::copy(root().join("host/examples/worked.txt"), elsewhere.join("worked.txt")).unwrap();
    done(script("trace.sh").args(["to-trace", "worked.txt", "worked.pft"]).current_dir(&elsewhere));
    let lines = done(script("play.sh").arg("worked.pft").current_dir(&elsewhere));
    assert_eq!(lines, "1 pushed\n2 too soon\n3 out 5 50\n4 too soon\nheld 0 drained 0\n");
    let back = done(script("trace.sh").args(["to-text", "worked.pft"]).current_dir(&elsewhere));
    assert_eq!(back, text(&elsewhere.join("worked.txt")));
    refused(
        run(script("trace.sh").args(["to-trace", "worked.pft"]).current_dir(&elsewhere)),
        1,
        "worked.pft: line 1: ",
    );
    refused(
        run(script("trace.sh").args(["to-text", "worked.txt", "x"]).current_dir(&elsewhere)),
        1,
        "worked.txt: byte 0: ",
    );
    assert!(!elsewhere.join("x").exists());
    std::fs::remove_dir_all(&elsewhere).unwrap();
}

/// The picture of the pages is the one that a run draws.
#[test]
fn the_plot_is_drawn_from_a_run() {
    assert_eq!(done(script("plot.sh").arg("-").current_dir("/")), text(&root().join("docs/fair.svg")));
    refused(run(script("plot.sh").args(["a", "b"])), 2, "plot.sh [FILE]");
    refused(run(script("release.sh").arg("a")), 2, "release.sh");
}

/// The scoreboard from another folder: the model's own dump agrees, and one with rank and tag exchanged does not.
#[test]
fn logic_is_held_from_any_folder() {
    let elsewhere = outside("logic");
    std::fs::copy(root().join("host/examples/worked.txt"), elsewhere.join("worked.txt")).unwrap();
    done(script("logic.sh").args(["dump", "worked.txt", "own.dump"]).current_dir(&elsewhere));
    let own = text(&elsewhere.join("own.dump"));
    let agrees = done(script("logic.sh").args(["hold", "worked.txt", "own.dump"]).current_dir(&elsewhere));
    assert!(agrees.starts_with("4 cycles agree\n"), "{agrees}");
    std::fs::write(elsewhere.join("other.dump"), own.replacen("slot 1 0 0 5 50", "slot 1 0 0 50 5", 1)).unwrap();
    let differs = run(script("logic.sh").args(["hold", "worked.txt", "other.dump"]).current_dir(&elsewhere));
    assert_eq!(differs.status.code(), Some(1));
    let said = String::from_utf8_lossy(&differs.stdout).into_owned();
    assert!(said.starts_with("cycle 1 differs: level 1, node 0, slot 0, rank: expected 5, found 50\n"), "{said}");
    refused(run(script("logic.sh").args(["hold", "worked.txt"])), 2, "logic hold [--strict] TRACE DUMP");
    std::fs::remove_dir_all(&elsewhere).unwrap();
}

/// The bench is no test: it is built, and runs.
#[test]
fn the_bench_runs() {
    let table = done(script("bench.sh").arg("--brief"));
    for part in [
        "bucket, spread ranks refilled",
        "bucket, three storeys, spread ranks refilled, 65536 held",
        "| tree, order 4 x 6, push and pop ",
        "| clocked cluster heap, 4 x 10, idle ",
        "| check, a slot, order 4 x 8, full ",
        "| mend, a slot, order 4 x 8, full ",
        "| clear, five ports, 2 storeys, 4096 nodes ",
        "| play, a record, order 4 x 5 ",
        "five ports, spread ranks, beside five queues",
        "five ports, spread ranks, beside five maps",
        "tree, order 4 x 6, push and pop, 64 held",
        "fair, order 4 x 6, push and pop, 4000 held",
        "packed heap, push and pop, 4000 held",
        "packed heap, fill and drain, 65000 held, tree",
        "cycle, order 4 x 6, each second idle",
        "cluster clock, pop every cycle",
        "records a second",
    ] {
        assert!(table.contains(part), "{part} is not in\n{table}");
    }
    let elsewhere = outside("chart");
    let chart = elsewhere.join("speed.svg");
    let page = done(script("bench.sh").args(["--brief", "--page", "--svg"]).arg(&chart).arg("tree, order"));
    assert!(page.contains("| clocked tree, order 4 x 6, random ") && !page.contains("64 held"), "{page}");
    let drawn = text(&chart);
    assert!(drawn.starts_with("<svg ") && drawn.ends_with("</svg>\n"), "{drawn}");
    assert!(drawn.contains(">tree, order 4 x 6, push and pop<") && drawn.contains(">plain C "), "{drawn}");
    std::fs::remove_dir_all(&elsewhere).unwrap();
    refused(run(script("bench.sh").arg("--nonsense")), 2, "bench [--brief]");
    refused(run(script("bench.sh").args(["--brief", "no such row"])), 2, "bench: no row has `no such row` in its name");
}
