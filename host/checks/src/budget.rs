//! Instructions of one call, which no other work on the machine changes: callgrind counts them in `c/budget.c`, over the native library, and
//! a table for each kind of processor (`budget/`) says what they may be.

use crate::{compiler, done, library, outside, root, run, words};
use std::collections::BTreeMap;
use std::path::{Path, PathBuf};
use std::process::Command;

/// A row: what it is, the function of `c/budget.c` that makes its calls, the library's function that it calls, and how often.
type Row = (&'static str, &'static str, &'static str, u64);

#[rustfmt::skip]
const ROWS: &[Row] = &[
    ("tree, order 2 x 11, push", "tree_2_push", "card_tree_push", 200),
    ("tree, order 2 x 11, pop", "tree_2_pop", "card_tree_pop", 200),
    ("tree, order 2 x 11, replace", "tree_2_replace", "card_tree_replace", 200),
    ("tree, order 4 x 6, push", "tree_4_push", "card_tree_push", 200),
    ("tree, order 4 x 6, pop", "tree_4_pop", "card_tree_pop", 200),
    ("tree, order 4 x 6, replace", "tree_4_replace", "card_tree_replace", 200),
    ("tree, order 8 x 4, push", "tree_8_push", "card_tree_push", 200),
    ("tree, order 8 x 4, pop", "tree_8_pop", "card_tree_pop", 200),
    ("tree, order 8 x 4, replace", "tree_8_replace", "card_tree_replace", 200),
    ("tree, order 4 x 6, check of a full store", "tree_4_check", "card_tree_check", 1),
    ("tree, order 4 x 6, mend of a full store", "tree_4_mend", "card_tree_mend", 1),
    ("fair ranks, order 4 x 6, push", "fair_4_push", "card_fair_push", 200),
    ("fair ranks, order 4 x 6, pop", "fair_4_pop", "card_fair_pop", 200),
    ("cluster heap, 4 x 10, push", "cluster_4_push", "card_cluster_push", 200),
    ("cluster heap, 4 x 10, pop", "cluster_4_pop", "card_cluster_pop", 200),
    ("cluster heap, 4 x 10, replace", "cluster_4_replace", "card_cluster_replace", 200),
    ("packed heap, 12 levels, push", "packed_push", "card_packed_push", 200),
    ("packed heap, 12 levels, pop", "packed_pop", "card_packed_pop", 200),
    ("packed heap, 12 levels, replace", "packed_replace", "card_packed_replace", 200),
    ("lines, kind 2, 64 of 64, push", "lines_push", "card_lines_push", 200),
    ("lines, kind 2, 64 of 64, pop", "lines_pop", "card_lines_pop", 200),
    ("lines, kind 2, 64 of 64, replace", "lines_replace", "card_lines_replace", 200),
    ("bucket queue, 2 storeys, push", "bucket_2_push", "card_bucket_push", 200),
    ("bucket queue, 2 storeys, pop", "bucket_2_pop", "card_bucket_pop", 200),
    ("bucket queue, 2 storeys, replace", "bucket_2_replace", "card_bucket_replace", 200),
    ("bucket queue, 2 storeys, clear of 4096 nodes", "bucket_2_clear", "card_bucket_clear", 1),
    ("bucket queue, 3 storeys, push", "bucket_3_push", "card_bucket_push", 200),
    ("bucket queue, 3 storeys, pop", "bucket_3_pop", "card_bucket_pop", 200),
    ("bucket queue, 3 storeys, replace", "bucket_3_replace", "card_bucket_replace", 200),
    ("bucket queue, 3 storeys, clear of 4096 nodes", "bucket_3_clear", "card_bucket_clear", 1),
    ("five ports, push", "ports_push", "card_ports_push", 200),
    ("five ports, pop", "ports_pop", "card_ports_pop", 200),
    ("five ports, replace", "ports_replace", "card_ports_replace", 200),
    ("five ports, clear of 4096 nodes", "ports_clear", "card_ports_clear", 1),
    ("clocked tree, order 4 x 6, any request", "clocked_4_cycle", "card_clocked_cycle", 200),
    ("clocked tree, order 4 x 6, idle", "clocked_4_idle", "card_clocked_cycle", 200),
    ("clocked cluster heap, 4 x 10, push", "clocked_cluster_push", "card_clocked_cluster_cycle", 200),
    ("clocked cluster heap, 4 x 10, pop", "clocked_cluster_pop", "card_clocked_cluster_cycle", 200),
    ("clocked cluster heap, 4 x 10, replace", "clocked_cluster_replace", "card_clocked_cluster_cycle", 200),
    ("clocked cluster heap, 4 x 10, any request", "clocked_cluster_cycle", "card_clocked_cluster_cycle", 200),
    ("clocked cluster heap, 4 x 10, idle", "clocked_cluster_idle", "card_clocked_cluster_cycle", 200),
    ("clocked lines, kind 2, 64 of 64, any request", "clocked_lines_cycle", "card_lines_clock_cycle", 200),
    ("clocked lines, kind 2, 64 of 64, idle", "clocked_lines_idle", "card_lines_clock_cycle", 200),
];

/// The table for this kind of processor.
pub fn path() -> PathBuf {
    root().join("host/checks/budget").join(format!("{}.txt", std::env::consts::ARCH))
}

/// Instructions by what they are of.
pub type Table = Vec<(String, u64)>;

/// Why nothing can be counted here, if that is so.
pub fn hindrance() -> Option<String> {
    if !words("CARD_RUNNER").is_empty() {
        return Some(String::from("the library's programs run on an emulator"));
    }
    match Command::new("valgrind").args(["--tool=callgrind", "--callgrind-out-file=/dev/null", "true"]).output() {
        Ok(output) if output.status.success() => None,
        Ok(output) => Some(format!("valgrind ends with {}", output.status)),
        Err(error) => Some(format!("there is no valgrind (Debian's package valgrind): {error}")),
    }
}

/// The name without what callgrind puts behind it where it takes a call for one of itself.
fn bare(name: &str) -> &str {
    name.split('\'').next().unwrap_or(name)
}

/// What was spent, and in how many calls, from each function in each that it calls, those below it included.
fn calls(file: &str) -> BTreeMap<(&str, &str), (u64, u64)> {
    let mut all = BTreeMap::new();
    let (mut from, mut to) = ("", "");
    let mut lines = file.lines();
    while let Some(line) = lines.next() {
        if let Some(name) = line.strip_prefix("fn=") {
            from = bare(name);
        } else if let Some(name) = line.strip_prefix("cfn=") {
            to = bare(name);
        } else if let Some(made) = line.strip_prefix("calls=") {
            let first = |text: &str, n: usize| text.split_whitespace().nth(n).and_then(|n| n.parse().ok()).unwrap_or(0);
            let of: &mut (u64, u64) = all.entry((from, to)).or_default();
            of.0 += first(made, 0);
            of.1 += first(lines.next().unwrap_or_default(), 1);
        }
    }
    all
}

/// Compiles the program over the library and has callgrind count.
pub fn counted() -> Table {
    let folder = outside("budget");
    let (program, counts) = (folder.join("budget"), folder.join("counts"));
    let mut command = compiler("CARD_CC", "gcc");
    command.args(["-std=c11", "-Wall", "-Wextra", "-Werror", "-O1", "-static", "-I"]).arg(root().join("host"));
    done(command.arg(root().join("host/checks/c/budget.c")).arg(library()).arg("-o").arg(&program));
    let mut valgrind = Command::new("valgrind");
    valgrind.args(["-q", "--tool=callgrind", "--compress-strings=no", "--compress-pos=no"]);
    let output = run(valgrind.arg(format!("--callgrind-out-file={}", counts.display())).arg(&program));
    assert!(output.status.success(), "{}{}", text(&output.stdout), text(&output.stderr));
    let table = rows(&crate::text(Path::new(&counts)));
    std::fs::remove_dir_all(&folder).expect("the folder goes");
    table
}

fn text(bytes: &[u8]) -> String {
    String::from_utf8_lossy(bytes).into_owned()
}

/// The rows out of callgrind's file.
fn rows(file: &str) -> Table {
    let all = calls(file);
    let row = |&(name, from, to, often): &Row| {
        let (made, spent) = all.get(&(from, to)).copied().unwrap_or_default();
        assert_eq!(made, often, "{name}: callgrind saw so many calls of {to} from {from}");
        (name.to_string(), spent / made)
    };
    ROWS.iter().map(row).collect()
}

/// A table as its file has it.
pub fn written(table: &Table) -> String {
    table.iter().map(|(name, count)| format!("{count:>8}  {name}\n")).collect()
}

/// A table's file.
pub fn read(file: &str) -> Table {
    let row = |line: &str| {
        let (count, name) = line.trim().split_once("  ").unwrap_or_else(|| panic!("no row of a budget: {line}"));
        (name.to_string(), count.parse().unwrap_or_else(|_| panic!("no number: {line}")))
    };
    file.lines().map(row).collect()
}

/// What costs more than its budget and a tenth, and what costs less than its budget by a tenth or more.
pub fn held(budget: &Table, now: &Table) -> (Vec<String>, Vec<String>) {
    let (mut over, mut under) = (Vec::new(), Vec::new());
    for (name, count) in now {
        match budget.iter().find(|(row, _)| row == name) {
            None => over.push(format!("{name}: {count}, and there is no budget for it")),
            Some((_, allowed)) if 10 * count > 11 * allowed => {
                over.push(format!("{name}: {count}, more than {allowed} and a tenth"))
            }
            Some((_, allowed)) if 10 * count <= 9 * allowed => {
                under.push(format!("{name}: {count}, and {allowed} was allowed"))
            }
            _ => {}
        }
    }
    for (name, _) in budget.iter().filter(|(name, _)| !now.iter().any(|(row, _)| row == name)) {
        over.push(format!("{name}: in the budget, and not counted"));
    }
    (over, under)
}
