//! Counts the instructions of each call and prints the table for this kind of processor, as its file in `host/checks/budget` has it.

use checks::budget;

fn main() {
    if let Some(why) = budget::hindrance() {
        eprintln!("budget: nothing is counted: {why}");
        std::process::exit(1);
    }
    print!("{}", budget::written(&budget::counted()));
}
