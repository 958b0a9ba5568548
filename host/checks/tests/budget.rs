//! No call of the library takes more instructions than its budget and a tenth.

use checks::budget::{counted, held, hindrance, path, read, written};
use checks::text;
use std::io::Write;

/// A line that is shown although the test passes.
fn say(line: &str) {
    writeln!(std::io::stderr(), "budget: {line}").expect("standard error");
}

#[test]
fn instructions_of_each_call() {
    if let Some(why) = hindrance() {
        return say(&format!("skipped, no instruction is counted: {why}"));
    }
    let now = counted();
    if !path().is_file() {
        say(&format!("nothing is held: there is no {} yet, and these are its lines", path().display()));
        return say(&format!("\n{}", written(&now)));
    }
    let (over, under) = held(&read(&text(&path())), &now);
    for line in under {
        say(&format!("the table can be lowered: {line}"));
    }
    assert!(over.is_empty(), "\n{}\nthe table is {}", over.join("\n"), path().display());
}

/// The rule itself, on numbers: 110 is allowed where the table has 100, and 111 is not; 90 is worth a line.
#[test]
fn a_tenth_of_slack() {
    let table = |rows: &[(&str, u64)]| rows.iter().map(|(name, n)| (name.to_string(), *n)).collect();
    let budget = read("     100  a call, push\n      70  a call, pop\n");
    assert_eq!(held(&budget, &table(&[("a call, push", 110), ("a call, pop", 64)])), (vec![], vec![]));
    let (over, under) = held(&budget, &table(&[("a call, push", 111), ("a call, pop", 63)]));
    assert_eq!(over, ["a call, push: 111, more than 100 and a tenth"]);
    assert_eq!(under, ["a call, pop: 63, and 70 was allowed"]);
    let (over, _) = held(&budget, &table(&[("a call, push", 1), ("another, push", 1)]));
    assert_eq!(
        over,
        ["another, push: 1, and there is no budget for it", "a call, pop: in the budget, and not counted"]
    );
    assert_eq!(read(&written(&budget)), budget);
}
