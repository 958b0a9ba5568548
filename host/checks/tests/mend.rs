//! The operator's tool, run as its users run it: a store that is whole, stores broken in each way, and bad input.

use checks::{library, outside, root, run};
use models::mend::{put, Slot, Store, WORDS};
use std::path::Path;
use std::process::{Command, Output};

fn tool(folder: &Path, words: &[&str]) -> Output {
    let mut command = Command::new(root().join("host/mend.sh"));
    run(command.args(words).current_dir(folder).env("CARD_LIB", library()))
}

fn bytes(words: &[u32]) -> Vec<u8> {
    words.iter().flat_map(|w| w.to_le_bytes()).collect()
}

fn words(bytes: &[u8]) -> Vec<u32> {
    bytes.chunks(4).map(|b| u32::from_le_bytes([b[0], b[1], b[2], b[3]])).collect()
}

/// Store A of the paper's cases, two words longer than needed.
fn store_a() -> Vec<u32> {
    let mut store = vec![0; 6 * WORDS];
    for (rank, tag) in [(5, 50), (3, 30), (8, 80), (1, 10)] {
        put(&mut store, 2, 2, Slot { rank, tag, length: 2 * rank, count: 1 });
    }
    store.extend([77, 78]);
    store
}

/// The tool on store A with some words spoilt: what it says, and the words it writes beside.
fn said(name: &str, spoilt: &[(usize, usize, u32)]) -> (String, Option<Vec<u32>>) {
    let folder = outside(&format!("mend-{name}"));
    let mut store = store_a();
    for (slot, word, value) in spoilt {
        store[WORDS * slot + word] = *value;
    }
    let file = folder.join("a store");
    std::fs::write(&file, bytes(&store)).unwrap();
    let output = tool(&folder, &["a store", "2", "2"]);
    let error = String::from_utf8_lossy(&output.stderr).into_owned();
    assert_eq!((output.status.code(), error.as_str()), (Some(0), ""));
    assert_eq!(std::fs::read(&file).unwrap(), bytes(&store), "the first store is left alone");
    let beside = std::fs::read(folder.join("a store.mended")).ok().map(|b| words(&b));
    assert_eq!(std::fs::read_dir(&folder).unwrap().count(), 1 + beside.is_some() as usize);
    std::fs::remove_dir_all(&folder).unwrap();
    (String::from_utf8(output.stdout).unwrap(), beside)
}

#[test]
fn a_whole_store_is_left_as_it_is() {
    assert_eq!(said("whole", &[]), ("no slot is broken\n".to_string(), None));
}

/// Each way of being broken, in words, and what is written then: a store that passes, with the same elements but for those skipped.
#[test]
fn a_broken_store_is_mended_beside() {
    let (rank, tag, length, count) = (0, 1, 2, 3);
    let cases = [
        (
            "count",
            vec![(0, count, 3)],
            "slot 0 is broken: level 1, node 0, slot 0\nits count is 3, and the counts under it make 2",
            0,
        ),
        (
            "rank",
            vec![(4, rank, 0)],
            "slot 4 is broken: level 2, node 1, slot 0\nits rank is 0, below 1 of the slot above it",
            0,
        ),
        (
            "left rank",
            vec![(3, rank, 7)],
            "slot 3 is broken: level 2, node 0, slot 1\nits count is 0 and its rank is 7",
            0,
        ),
        (
            "left tag",
            vec![(5, tag, 7)],
            "slot 5 is broken: level 2, node 1, slot 1\nits count is 0 and its tag is 7",
            0,
        ),
        (
            "left length",
            vec![(5, length, 7)],
            "slot 5 is broken: level 2, node 1, slot 1\nits count is 0 and its length is 7",
            0,
        ),
        (
            "under",
            vec![(1, rank, 0), (1, tag, 0), (1, length, 0), (1, count, 0)],
            "slot 1 is broken: level 1, node 0, slot 1\nits count is 0 and the counts under it make 1",
            0,
        ),
        (
            "two",
            vec![(4, rank, 0), (4, tag, 0), (4, count, 9)],
            "slot 1 is broken: level 1, node 0, slot 1\nits count is 2, and the counts under it make 10",
            1,
        ),
    ];
    for (name, spoilt, says, skipped) in cases {
        let (text, beside) = said(name, &spoilt);
        assert_eq!(text, format!("{says}\nskipped for want of a tag: {skipped}\nmended: a store.mended\n"), "{name}");
        let after = beside.expect("a mended store");
        let mut before = store_a();
        for (slot, word, value) in spoilt {
            before[WORDS * slot + word] = value;
        }
        let elements = |words: &[u32]| {
            let held = Store::new(words, 2, 2).unwrap().held();
            let mut all: Vec<_> = held.iter().filter(|s| s.tag != 0).map(|s| (s.rank, s.tag, s.length)).collect();
            all.sort_unstable();
            all
        };
        assert_eq!(elements(&before), elements(&after), "{name}");
        assert_eq!(Store::new(&after, 2, 2).unwrap().first_broken(), None, "{name}");
        assert_eq!(after[6 * WORDS..], [77, 78], "{name}: words behind the store");
    }
}

/// Bad input: this exit status, this line on standard error, nothing on standard output and no file.
#[test]
fn bad_input_is_refused() {
    let folder = outside("mend-bad");
    let mut broken = store_a();
    broken[3] = 9;
    std::fs::write(folder.join("store"), bytes(&broken)).unwrap();
    std::fs::write(folder.join("odd"), [1, 2, 3, 4, 5]).unwrap();
    std::fs::write(folder.join("short"), bytes(&broken[..23])).unwrap();
    std::fs::write(folder.join("taken"), bytes(&broken)).unwrap();
    std::fs::write(folder.join("taken.mended"), "mine").unwrap();
    let files = std::fs::read_dir(&folder).unwrap().count();
    let usage = "mend STORE ORDER LEVELS\n";
    for (words, status, says) in [
        (&["store"][..], 2, usage.to_string()),
        (&["store", "2", "2", "2"], 2, usage.to_string()),
        (&["store", "two", "2"], 2, format!("mend: ORDER and LEVELS are numbers\n{usage}")),
        (&["store", "2", "-1"], 2, format!("mend: ORDER and LEVELS are numbers\n{usage}")),
        (&["store", "3", "2"], 1, "mend: store: there is no tree of order 3 with 2 levels\n".to_string()),
        (&["store", "2", "0"], 1, "mend: store: there is no tree of order 2 with 0 levels\n".to_string()),
        (
            &["store", "2", "4294967295"],
            1,
            "mend: store: there is no tree of order 2 with 4294967295 levels\n".to_string(),
        ),
        (&["short", "2", "2"], 1, "mend: short: a tree of order 2 with 2 levels has 24 words, not 23\n".to_string()),
        (&["odd", "2", "2"], 1, "mend: odd: 5 bytes are no whole number of 32-bit words\n".to_string()),
        (&["none", "2", "2"], 1, "mend: none: No such file or directory (os error 2)\n".to_string()),
        (&["taken", "2", "2"], 1, "mend: taken.mended: File exists (os error 17)\n".to_string()),
    ] {
        let output = tool(&folder, words);
        assert_eq!((output.status.code(), String::from_utf8_lossy(&output.stderr).into_owned()), (Some(status), says));
        assert!(output.stdout.is_empty());
        assert_eq!(std::fs::read_dir(&folder).unwrap().count(), files, "a file was written");
    }
    assert_eq!(std::fs::read(folder.join("taken.mended")).unwrap(), b"mine");
    std::fs::remove_dir_all(&folder).unwrap();
}
