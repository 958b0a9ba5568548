//! What is measured, and how it is printed.

use crate::measure::Pair;

/// How much is measured.
#[derive(Clone)]
pub struct Plan {
    pub rounds: usize,
    pub operations: usize,
    /// Only rows whose name has this in it.
    pub only: Option<String>,
}

impl Plan {
    pub fn wants(&self, name: &str) -> bool {
        self.only.as_ref().map_or(true, |part| name.contains(part.as_str()))
    }
}

/// A line of the table.
pub struct Row {
    pub name: String,
    pub pair: Pair,
    pub card_bytes: usize,
    pub other_bytes: usize,
}

/// A store's size; a program's is not counted.
fn bytes(count: usize) -> String {
    if count == 0 {
        String::from("-")
    } else {
        count.to_string()
    }
}

/// A table under a line that says what stands beside what.
pub fn print(beside: &str, rows: &[Row]) {
    if rows.is_empty() {
        return;
    }
    println!("\n{beside}");
    let (row, card, other, ratio) = ("", "card ns", "other ns", "ratio");
    println!("{row:<48} {card:>9} {other:>9} {ratio:>7} {:>11} {:>11}", "card bytes", "other bytes");
    for r in rows {
        println!(
            "{:<48} {:>9.1} {:>9.1} {:>7.2} {:>11} {:>11}",
            r.name,
            r.pair.card,
            r.pair.other,
            r.pair.ratio,
            bytes(r.card_bytes),
            bytes(r.other_bytes)
        );
    }
}
