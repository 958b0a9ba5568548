//! The header, compiled as C and as C++ with every warning an error, and the programs that use it, run.

use checks::{compiler, done, library, linked, outside, root, text, words};
use std::path::Path;

/// Compiles a program in each language of the header and gives what each wrote.
fn in_each(source: &str) -> Vec<(&'static str, String)> {
    let source = root().join(source);
    let folder = outside(&source.file_stem().unwrap().to_string_lossy());
    let written = [("c99", "c"), ("c11", "c"), ("c++98", "c++"), ("c++17", "c++")].map(|(standard, language)| {
        let mut command = if language == "c" { compiler("CARD_CC", "gcc") } else { compiler("CARD_CXX", "g++") };
        let program = folder.join(standard);
        command.args(["-Wall", "-Wextra", "-Werror", "-pedantic", "-Wno-long-long", "-O2", "-x", language]);
        command.arg(format!("-std={standard}")).arg("-I").arg(root().join("host")).arg(&source).args(["-x", "none"]);
        done(command.arg(library()).arg("-o").arg(&program));
        (standard, done(&mut linked(&program)))
    });
    std::fs::remove_dir_all(&folder).unwrap();
    written.to_vec()
}

#[test]
fn the_example() {
    let expected = text(&root().join("host/examples/pops.txt"));
    for (standard, written) in in_each("host/examples/pops.c") {
        assert_eq!(written, expected, "{standard}");
    }
}

#[test]
fn sizes_as_constants() {
    for (standard, written) in in_each("host/checks/c/sizes.c") {
        assert_eq!(written, "", "{standard}");
    }
}

#[test]
fn records_in_the_callers_memory() {
    for (standard, written) in in_each("host/checks/c/records.c") {
        assert_eq!(written, "", "{standard}");
    }
}

#[test]
fn null_with_length_0() {
    for (standard, written) in in_each("host/checks/c/nulls.c") {
        assert_eq!(written, "", "{standard}");
    }
}

#[test]
fn fair_ranks() {
    for (standard, written) in in_each("host/checks/c/fair.c") {
        assert_eq!(written, "", "{standard}");
    }
}

#[test]
fn packed_heaps() {
    for (standard, written) in in_each("host/checks/c/packed.c") {
        assert_eq!(written, "", "{standard}");
    }
}

#[test]
fn several_ports() {
    for (standard, written) in in_each("host/checks/c/ports.c") {
        assert_eq!(written, "", "{standard}");
    }
}

#[test]
fn the_clocked_cluster_heap() {
    for (standard, written) in in_each("host/checks/c/clocked_cluster.c") {
        assert_eq!(written, "", "{standard}");
    }
}

#[test]
fn the_lines() {
    for (standard, written) in in_each("host/checks/c/lines.c") {
        assert_eq!(written, "", "{standard}");
    }
}

#[test]
fn power_goes_in_the_middle_of_a_call() {
    for (standard, written) in in_each("host/checks/c/cut.c") {
        assert_eq!(written, "", "{standard}");
    }
}

#[test]
fn power_goes_at_each_instruction() {
    // under an emulator no program is worked instruction by instruction
    if !words("CARD_RUNNER").is_empty() {
        return;
    }
    for (standard, written) in in_each("host/checks/c/steps.c") {
        assert_eq!(written, "", "{standard}");
    }
}

/// Included twice and in two files of one program: nothing is defined twice, nothing is unused.
#[test]
fn in_two_files_of_one_program() {
    let folder = outside("two-files");
    let twice = "#include \"card.h\"\n#include \"card.h\"\n";
    std::fs::write(
        folder.join("a.c"),
        format!("{twice}uint32_t other(void);\nuint32_t other(void) {{ return card_bucket_bits(2); }}\n"),
    )
    .unwrap();
    let main = "uint32_t other(void);\nint main(void) { return other() == CARD_BUCKET_BITS(2) ? 0 : 1; }\n";
    std::fs::write(folder.join("b.c"), format!("{twice}{main}")).unwrap();
    let files: Vec<_> = ["a.c", "b.c"].iter().map(|name| folder.join(name)).collect();
    let mut command = compiler("CARD_CC", "gcc");
    command.args(["-std=c99", "-Wall", "-Wextra", "-Werror", "-pedantic", "-I"]).arg(root().join("host"));
    let program = folder.join("program");
    done(command.args(&files).arg(library()).arg("-o").arg(&program));
    done(&mut linked(Path::new(&program)));
    std::fs::remove_dir_all(&folder).unwrap();
}
