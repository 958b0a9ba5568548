//! Times the card's queues beside plain C and plain Rust, in one process, contestants in turn, medians of many short rounds of processor
//! time.
//!
//!     bench [--brief] [--page] [--svg FILE] [--play PROGRAM] [PART]
//!
//! The first table is the page's (`docs/SPEED.md`), and `--page` measures no other; `--svg` draws it. PART is part of a row's name: only
//! such rows are measured. `--brief` makes a few small rounds: it shows that everything runs, and its times mean nothing. `--play` names
//! the trace program, which the words of RUNNER run. All of a row work on the same trace and must give the same answers.

mod chart;
mod clock;
mod contest;
mod count;
mod cycles;
mod fairs;
mod four;
mod halls;
mod lines;
mod measure;
mod page;
mod plain_c;
mod playing;
mod queues;
#[cfg(test)]
mod same;
mod stages;
mod stores;
mod table;
mod traces;

#[global_allocator]
static ALLOCATOR: count::Counting = count::Counting;

/// The processor's name, as Linux tells it; on Arm `lscpu` knows the names of its numbers.
fn processor() -> String {
    let named = |text: &str, key: &str| {
        let line = text.lines().find(|l| l.to_lowercase().starts_with(key))?;
        Some(line.split(':').nth(1)?.trim().to_string())
    };
    let text = std::fs::read_to_string("/proc/cpuinfo").unwrap_or_default();
    let listed = || {
        let output = std::process::Command::new("lscpu").env("LC_ALL", "C").output().ok()?;
        named(&String::from_utf8_lossy(&output.stdout), "model name")
    };
    named(&text, "model name").or_else(listed).unwrap_or_else(|| String::from("a processor without a name"))
}

/// Whether the processor says of itself that it is QEMU's translator.
#[cfg(target_arch = "x86_64")]
fn translated() -> bool {
    // SAFETY: every x86-64 processor has this instruction, and it only reads.
    #[allow(unused_unsafe)]
    let leaf = unsafe { std::arch::x86_64::__cpuid(0x4000_0000) };
    leaf.ebx == u32::from_le_bytes(*b"TCGT")
}

#[cfg(not(target_arch = "x86_64"))]
fn translated() -> bool {
    false
}

fn usage() -> ! {
    eprintln!("bench [--brief] [--page] [--svg FILE] [--play PROGRAM] [PART]");
    std::process::exit(2)
}

fn main() {
    let (mut brief, mut page, mut drawn, mut program, mut only) = (false, false, None, None, None);
    let mut words = std::env::args().skip(1);
    while let Some(word) = words.next() {
        match word.as_str() {
            "--brief" => brief = true,
            "--page" => page = true,
            "--svg" => drawn = Some(words.next().unwrap_or_else(|| usage())),
            "--play" => program = Some(words.next().unwrap_or_else(|| usage())),
            other if other.starts_with('-') || only.is_some() => usage(),
            other => only = Some(other.to_string()),
        }
    }
    let (rounds, operations, records) = if brief { (3, 400, 2000) } else { (201, 4000, 200_000) };
    let plan = table::Plan { rounds, operations, only };

    let title = || {
        let (arch, rustc, level) = (std::env::consts::ARCH, env!("BENCH_RUSTC"), env!("BENCH_OPT"));
        println!("{} ({arch}), {rustc}, optimised {level}; plain C: {}, -O3", processor(), env!("BENCH_CC"));
        println!("library: {}", env!("BENCH_LIBRARY"));
        println!("medians of {rounds} rounds of {operations} operations; nanoseconds of processor time for one");
        if translated() {
            println!("THIS RUNS ON AN EMULATOR: its times mean nothing");
        }
        if brief {
            println!("brief: too few rounds for times that mean anything");
        }
    };
    let mut lines = page::lines(&plan);
    lines.extend(stores::lines(&plan));
    let played = playing::lines(&plan, program.as_deref(), records);
    let play_rate = played.first().map(|line| 1e9 / line.card);
    lines.extend(played);
    let mut shown = lines.len();
    if shown > 0 {
        title();
        println!();
        contest::print(&lines);
    }
    if let Some(rate) = play_rate {
        println!("\nplay: {rate:.0} records a second, its start included");
        if std::env::var_os("RUNNER").map_or(false, |runner| !runner.is_empty()) {
            println!("play is for x86-64 and RAN ON AN EMULATOR: its times mean nothing");
        }
    }
    if let Some(file) = drawn {
        let chart = chart::svg(&format!("The card's queues beside their peers, {}", processor()), &lines);
        std::fs::write(&file, chart).unwrap_or_else(|error| panic!("{file}: {error}"));
    }
    if !page {
        shown += details(&plan, shown == 0, title);
    }
    if shown == 0 {
        eprintln!("bench: no row has `{}` in its name", plan.only.unwrap_or_default());
        std::process::exit(2);
    }
}

/// What the page does not have, table by table: how many rows.
fn details(plan: &table::Plan, first: bool, title: impl Fn()) -> usize {
    let mut shown = 0;
    let mut show = |beside: &str, rows: Vec<table::Row>| {
        if first && shown == 0 && !rows.is_empty() {
            title();
        }
        shown += rows.len();
        table::print(beside, &rows);
    };
    show("bucket queue (N = 4096) beside BTreeMap<u32, VecDeque<(u32, u32)>>, 4,000 held", traces::buckets(plan));
    show("bucket queue, three storeys (N = 65,536), beside the same map", traces::deep_buckets(plan));
    show("five ports on one pool (N = 4096) beside five bucket queues and five maps, 4,000 held", halls::rows(plan));
    show("tree beside std's BinaryHeap, 4,000 held", traces::trees(plan));
    show("fair ranks of 64 flows beside the bare tree at the same ranks", fairs::rows(plan));
    show("cluster heap beside std's BinaryHeap, 4,000 held", traces::clusters(plan));
    show(
        "packed heap beside std's BinaryHeap, beside that by rank alone, and beside the tree of order 4",
        traces::packed(plan),
    );
    show("lines beside BTreeMap<u32, VecDeque<(u32, u32)>>, then beside the bucket queue", lines::rows(plan));
    show("clocked tree beside plain C, 4,000 held or three quarters", cycles::rows(plan));
    let (staged, by_cycle) = stages::rows(plan);
    show(
        "clocked cluster heap (4 x 10) beside the clocked tree of order 2 x 11, for one operation, 1,900 a round",
        staged,
    );
    stages::print(&by_cycle);
    shown
}
