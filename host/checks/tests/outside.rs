//! Projects outside the repository that depend on the wrapper by its path.

use checks::{cargo, done, library, outside, root, run, text};
use std::path::{Path, PathBuf};
use std::process::Command;

/// The code of the first doctest of a file.
fn doctest(file: &str) -> String {
    let text = text(&root().join(file));
    let lines = text.lines().skip_while(|line| line.trim() != "//! ```").skip(1);
    let code: Vec<&str> =
        lines.take_while(|line| line.trim() != "//! ```").map(|line| line.trim_start_matches("//!")).collect();
    assert!(!code.is_empty(), "{file} has no doctest");
    code.join("\n")
}

/// A project with one file of source, beside nothing else.
fn project(name: &str, file: &str, code: &str, dependency: &str) -> PathBuf {
    let folder = outside(name);
    let manifest = format!(
        "[package]\nname = \"{name}\"\nversion = \"0.1.0\"\nedition = \"2021\"\n\n[dependencies]\ncard_host = {{ path = {:?}{dependency} }}\n",
        root().join("host/card")
    );
    std::fs::write(folder.join("Cargo.toml"), manifest).unwrap();
    std::fs::create_dir(folder.join("src")).unwrap();
    std::fs::write(folder.join("src").join(file), code).unwrap();
    folder
}

fn cargo_in(folder: &Path, word: &str) -> Command {
    let mut command = cargo();
    command.args([word, "--quiet", "--offline"]).current_dir(folder).env("CARD_LIB", library());
    command
}

#[test]
fn a_project_runs_a_doctest() {
    let code = doctest("host/card/src/lib.rs");
    assert!(code.contains("fn main()") && code.contains("assert_eq!"));
    let folder = project("outside_owned", "main.rs", &code, "");
    done(&mut cargo_in(&folder, "run"));
    // and it is the assertions that were run: with one of them wrong it fails
    std::fs::write(folder.join("src/main.rs"), code.replacen("Length(1500)));", "Length(1501)));", 1)).unwrap();
    assert!(!run(&mut cargo_in(&folder, "run")).status.success());
    std::fs::remove_dir_all(&folder).unwrap();
}

#[test]
fn a_project_without_std_builds() {
    let code = "#![no_std]\nuse card_host::{tree_words, Element, Refusal, Tree};\n\
        pub fn first(x: Element) -> Result<Element, Refusal> {\n    let mut memory = [0; tree_words(2, 2)];\n    \
        let mut queue = Tree::cleared(2, 2, &mut memory[..])?;\n    queue.push(x)?;\n    queue.pop()\n}\n";
    let folder = project("outside_lent", "lib.rs", code, ", default-features = false");
    done(&mut cargo_in(&folder, "build"));
    // what owns its store is not there
    std::fs::write(folder.join("src/lib.rs"), "pub use card_host::TreeQueue;\n").unwrap();
    assert!(!run(&mut cargo_in(&folder, "build")).status.success());
    std::fs::remove_dir_all(&folder).unwrap();
}

/// A rank where a tag is meant does not compile, nor a tag where a length is.
#[test]
fn rank_tag_and_length_cannot_be_exchanged() {
    let code = "use card_host::{Element, Length, Rank, Tag};\nfn main() {\n    let _ = Element::new(Rank(5), Tag(50), Length(64));\n}\n";
    let folder = project("outside_kinds", "main.rs", code, "");
    done(&mut cargo_in(&folder, "build"));
    for (right, wrong) in [("Rank(5), Tag(50)", "Tag(50), Rank(5)"), ("Tag(50), Length(64)", "Length(64), Tag(50)")] {
        std::fs::write(folder.join("src/main.rs"), code.replace(right, wrong)).unwrap();
        let output = run(&mut cargo_in(&folder, "build"));
        assert!(!output.status.success() && String::from_utf8_lossy(&output.stderr).contains("E0308"));
    }
    std::fs::remove_dir_all(&folder).unwrap();
}

/// Where there is no library, the build says what is missing and how it is made.
#[test]
fn a_missing_library_is_named() {
    let folder = project("outside_missing", "main.rs", "fn main() {}\n", "");
    for (named, says) in [
        ("/nowhere/libcard.a", "CARD_LIB names /nowhere/libcard.a, which is no file"),
        ("/etc/passwd", "is not named libcard.a"),
    ] {
        let output = run(cargo_in(&folder, "build").env("CARD_LIB", named));
        let said = String::from_utf8_lossy(&output.stderr).into_owned();
        assert!(!output.status.success(), "{named}");
        assert!(said.contains(says) && said.contains("`host/lib.sh TARGET`"), "{said}");
    }
    std::fs::remove_dir_all(&folder).unwrap();
}
