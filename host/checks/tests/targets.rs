//! The library for x86-64 and for this machine, by `host/lib.sh`: the soak, the example and the stack; and what it says of what it lacks.

use checks::{done, here, library, outside, root, run, text};
use std::path::Path;
use std::process::Command;

fn script(words: &[&str]) -> Command {
    let mut command = Command::new(root().join("host/lib.sh"));
    command.args(words).env_remove("CARD_LIB").current_dir("/");
    command
}

/// Whether the library is this repository's own: one that CARD_LIB names may have been made with no kit, and then there is no other.
fn is_own() -> bool {
    library().starts_with(root().join("target/lib"))
}

/// What the soak must write: its last hash.
fn hash() -> String {
    let page = text(&root().join("host/checks/c/soak.txt"));
    let line = page.lines().rfind(|line| line.contains(" hash ")).expect("a hash");
    line.split_once(": ").expect("a name").1.to_string()
}

#[test]
fn the_soak_has_one_hash() {
    if !is_own() {
        return;
    }
    for target in ["x86_64-linux", &here()] {
        let said = done(&mut script(&["--check", target]));
        assert_eq!(said, format!("{target}: soak {}; the example and the stack as their pages have them\n", hash()));
    }
}

/// Refused with one line, and nothing on standard output.
fn refused(command: &mut Command, status: i32, says: &str) {
    let output = run(command);
    let said = String::from_utf8_lossy(&output.stderr).into_owned();
    assert_eq!((output.status.code(), said.as_str(), output.stdout.is_empty()), (Some(status), says, true));
}

/// A folder with links to these programs alone.
fn path_of(folder: &Path, names: &[&str]) {
    for name in names {
        let found = done(Command::new("sh").args(["-c", "command -v \"$0\"", name]));
        std::os::unix::fs::symlink(found.trim(), folder.join(name)).unwrap();
    }
}

#[test]
fn what_is_missing_is_named() {
    refused(
        &mut script(&["sparc-linux"]),
        1,
        "lib: there is no target sparc-linux; there are: x86_64-linux aarch64-linux riscv64-linux armv7-linux thumbv7em-none riscv32-none\n",
    );
    refused(&mut script(&["--no"]), 2, "lib.sh [-Oz] [TARGET], lib.sh --check|--stack|--size|--play [-Oz] TARGET ..\n");
    let folder = outside("bare-path");
    path_of(&folder, &["sh", "dirname", "uname", "id", "find"]);
    let without = |words: &[&str]| {
        let mut command = script(words);
        command.env("PATH", &folder);
        command
    };
    refused(
        &mut without(&["--check", "riscv64-linux"]),
        1,
        "lib: riscv64-linux: there is no compiler riscv64-linux-gnu-gcc (Debian's packages: gcc-riscv64-linux-gnu libc6-dev-riscv64-cross)\n",
    );
    // a compiler of this name is there, and no emulator
    std::os::unix::fs::symlink("/bin/true", folder.join("riscv64-linux-gnu-gcc")).unwrap();
    refused(
        &mut without(&["--check", "riscv64-linux"]),
        1,
        "lib: riscv64-linux: there is no emulator qemu-riscv64 (Debian's package: qemu-user)\n",
    );
    std::fs::remove_dir_all(&folder).unwrap();
}
