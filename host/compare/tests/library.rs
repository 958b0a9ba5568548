//! Compares the card's library with the plain models, call by call and word by word.
//!
//!     cargo test -p compare --test library -- [--self] [--verbose] [--brief] [--times N] [SEED]
//!
//! `--self` puts the models in the library's place (the harness tests itself), `--verbose` prints how often each clause was met,
//! `--times N` makes N times as many calls, `--brief` a tenth of them, which is too few to ask what was met. The same seed makes the same
//! calls. Its parts share one tally of what was met, so it is one program with a main of its own; it closes with a count as every test of
//! cargo's does.

use compare::desk::Who;
use compare::harness::Harness;
use compare::{cases, coverage, histories, hostile, large};
use models::rng::{self, Rng};
use std::time::Instant;

struct Score {
    passed: u64,
    failed: u64,
}

impl Score {
    fn note(&mut self, name: &str, result: Result<String, String>) {
        match result {
            Ok(text) => {
                self.passed += 1;
                println!("test {name} ... ok{text}");
            }
            Err(what) => {
                self.failed += 1;
                println!("test {name} ... FAILED");
                println!("      {what}");
            }
        }
    }
}

/// Runs one part on the harness: its calls are counted, its first difference is kept.
fn part(
    score: &mut Score,
    h: &mut Harness,
    seed: u64,
    name: &str,
    stream: u64,
    run: impl FnOnce(&mut Harness, &mut Rng),
) {
    let (before, start) = (h.tally.calls, Instant::now());
    h.failed = None;
    let mut rng = Rng::new(seed, stream);
    run(h, &mut rng);
    let calls = h.tally.calls - before;
    let result = match h.failed.take() {
        None => Ok(format!(": {calls} calls compared, {} ms", start.elapsed().as_millis())),
        Some(what) => Err(format!("seed {seed}, call {calls} of this part: {what}")),
    };
    score.note(name, result);
}

/// How much is compared.
struct Plan {
    seed: u64,
    times: u64,
    brief: bool,
    verbose: bool,
}

impl Plan {
    /// So many calls as the plan makes of these.
    fn of(&self, calls: u64) -> u64 {
        if self.brief {
            (calls / 10).max(1)
        } else {
            calls * self.times
        }
    }
}

fn run(who: Who, plan: &Plan) -> Score {
    let seed = plan.seed;
    let mut score = Score { passed: 0, failed: 0 };
    let mut h = Harness::new(who);

    for (name, result) in cases::all(Who::Model) {
        score.note(&format!("model, {name}"), result.map(|()| String::new()));
    }
    score.note("model, the worked trace by the trace program", cases::trace().map(|()| String::new()));
    for (name, result) in cases::all(who) {
        score.note(&format!("library, {name}"), result.map(|()| String::new()));
    }

    for (i, (order, levels)) in histories::shapes_up_to(histories::SMALLER).into_iter().enumerate() {
        let name = format!("tree histories, order {order}, levels {levels}");
        part(&mut score, &mut h, seed, &name, 100 + i as u64, |h, rng| {
            let capacity = models::tree::Shape::new(order, levels).unwrap().capacity();
            // many short ones for the small shapes, and one to the brim and down for each
            let full = if capacity > 2000 { 3 * capacity + 300 } else { 6 * capacity + 60 };
            histories::tree(h, rng, order, levels, full, true);
            let budget = plan.of(if capacity > 1000 { 2000 } else { 12000 });
            let each = if capacity > 1000 { 1000 } else { 8 * capacity + 40 };
            let mut made = 0;
            while made < budget && h.failed.is_none() {
                histories::tree(h, rng, order, levels, each, false);
                made += each;
            }
        });
    }

    for (i, nodes) in [1u32, 2, 3, 4, 5, 7, 8, 16, 63, 64, 65, 200, 1000, 4095, 4096].into_iter().enumerate() {
        let name = format!("bucket histories, N = {nodes}");
        part(&mut score, &mut h, seed, &name, 200 + i as u64, |h, rng| {
            histories::bucket(h, rng, 2, nodes, 6 * nodes as u64 + 60, true);
            let budget = plan.of(8000);
            let each = (8 * nodes as u64 + 40).min(2000);
            let mut made = 0;
            while made < budget && h.failed.is_none() {
                histories::bucket(h, rng, 2, nodes, each, false);
                made += each;
            }
        });
    }
    part(&mut score, &mut h, seed, "bucket histories, any N", 299, |h, rng| {
        for _ in 0..plan.of(20) {
            let nodes = 1 + rng.below(4096) as u32;
            histories::bucket(h, rng, 2, nodes, 1000, false);
            if h.failed.is_some() {
                return;
            }
        }
    });

    // the largest pool, and three storeys: long stores, so fewer calls
    let long = [(2, 65536, 2000), (3, 1, 60), (3, 2, 60), (3, 64, 500), (3, 4096, 300), (3, 65536, 300)];
    for (i, (storeys, nodes, calls)) in long.into_iter().enumerate() {
        let name = format!("bucket histories, {storeys} storeys, N = {nodes}");
        part(&mut score, &mut h, seed, &name, 280 + i as u64, |h, rng| {
            for n in 0..plan.of(2) {
                histories::bucket(h, rng, storeys, nodes, calls, n == 0 && nodes < 1000);
            }
        });
    }

    for (i, (order, levels)) in histories::shapes_up_to(histories::SMALLER).into_iter().enumerate() {
        let name = format!("clocked histories, order {order}, levels {levels}");
        part(&mut score, &mut h, seed, &name, 300 + i as u64, |h, rng| {
            let capacity = models::tree::Shape::new(order, levels).unwrap().capacity();
            let budget = plan.of(if capacity > 1000 { 8000 } else { 16000 });
            let each = if capacity > 1000 { 8000 } else { 12 * capacity + 60 };
            let mut made = 0;
            while made < budget && h.failed.is_none() {
                histories::clocked(h, rng, order, levels, each);
                made += each;
            }
        });
    }

    for (i, (order, levels)) in histories::larger().into_iter().enumerate().filter(|_| !plan.brief) {
        let name = format!("a large tree, order {order}, levels {levels}");
        part(&mut score, &mut h, seed, &name, 350 + i as u64, |h, rng| large::tree(h, rng, order, levels));
        let name = format!("a large clocked tree, order {order}, levels {levels}");
        part(&mut score, &mut h, seed, &name, 370 + i as u64, |h, rng| large::clocked(h, rng, order, levels));
    }

    part(&mut score, &mut h, seed, "edges of shapes and lengths, every call", 400, hostile::edges);
    if !plan.brief {
        part(&mut score, &mut h, seed, "every store of a few words, every call", 401, hostile::small_stores);
    }
    for i in 0..4 {
        let name = format!("hostile tree calls, part {}", i + 1);
        part(&mut score, &mut h, seed, &name, 410 + i, |h, rng| hostile::tree(h, rng, plan.of(60_000)));
        let name = format!("hostile bucket calls, part {}", i + 1);
        part(&mut score, &mut h, seed, &name, 420 + i, |h, rng| hostile::bucket(h, rng, 2, plan.of(60_000)));
        let name = format!("hostile clocked calls, part {}", i + 1);
        part(&mut score, &mut h, seed, &name, 430 + i, |h, rng| hostile::clocked(h, rng, plan.of(150_000)));
    }

    part(&mut score, &mut h, seed, "every bit on the way turned, three storeys", 402, hostile::deep_bits);
    part(&mut score, &mut h, seed, "hostile bucket calls, three storeys", 440, |h, rng| {
        hostile::bucket(h, rng, 3, plan.of(2_000))
    });

    println!("{} calls compared", h.tally.calls);
    if plan.brief {
        return score;
    }
    if score.failed == 0 {
        let missed = coverage::check(&h, plan.verbose);
        let result = if missed.is_empty() { Ok(String::new()) } else { Err(missed.join("\n      ")) };
        score.note("every refusal, clause and cause was met", result);
    }
    let enough = h.tally.calls >= 1_000_000;
    if score.failed == 0 {
        score.note(
            "a million calls or more",
            if enough { Ok(String::new()) } else { Err(format!("{}", h.tally.calls)) },
        );
    }
    score
}

fn usage() -> ! {
    eprintln!("library [--self] [--verbose] [--brief] [--times N] [SEED]");
    std::process::exit(2)
}

fn main() {
    let mut plan = Plan { seed: rng::seed(), times: 1, brief: false, verbose: false };
    let mut own = false;
    let mut args = std::env::args().skip(1);
    while let Some(arg) = args.next() {
        match arg.as_str() {
            "--self" => own = true,
            "--verbose" => plan.verbose = true,
            "--brief" => plan.brief = true,
            "--times" => plan.times = args.next().and_then(|n| n.parse().ok()).unwrap_or_else(|| usage()),
            // what cargo hands to every test
            "--nocapture" | "--quiet" | "-q" => {}
            other => plan.seed = other.parse().unwrap_or_else(|_| usage()),
        }
    }
    println!("seed {}", plan.seed);
    let start = Instant::now();
    let score = run(if own { Who::Model } else { Who::Library }, &plan);
    let (result, seconds) = (if score.failed == 0 { "ok" } else { "FAILED" }, start.elapsed().as_secs_f32());
    println!("\ntest result: {result}. {} passed; {} failed; finished in {seconds:.2}s\n", score.passed, score.failed);
    if score.failed != 0 {
        std::process::exit(1);
    }
}
