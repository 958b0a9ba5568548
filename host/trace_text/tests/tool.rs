//! The tool, run as its users run it: there and back, and each kind of bad input.

use std::path::PathBuf;
use std::process::{Command, Output, Stdio};
use std::sync::atomic::{AtomicUsize, Ordering};

fn tool(words: &[&str], input: &[u8]) -> Output {
    let mut command = Command::new(env!("CARGO_BIN_EXE_trace_text"));
    command.args(words).stdin(Stdio::piped()).stdout(Stdio::piped()).stderr(Stdio::piped());
    let mut child = command.spawn().unwrap();
    std::io::Write::write_all(&mut child.stdin.take().unwrap(), input).unwrap();
    child.wait_with_output().unwrap()
}

/// A folder of this test's own.
fn folder(name: &str) -> PathBuf {
    let folder = PathBuf::from(env!("CARGO_TARGET_TMPDIR")).join(name);
    let _ = std::fs::remove_dir_all(&folder);
    std::fs::create_dir_all(&folder).unwrap();
    folder
}

/// Bad input: exit status 1, this line on standard error, and nothing written, to standard output or to a file that is named.
fn refused(kind: &str, input: &[u8], says: &str) {
    static COUNT: AtomicUsize = AtomicUsize::new(0);
    let folder = folder(&format!("bad-{}", COUNT.fetch_add(1, Ordering::Relaxed)));
    let (from, to) = (folder.join("from"), folder.join("to"));
    std::fs::write(&from, input).unwrap();
    let (from, to) = (from.to_str().unwrap(), to.to_str().unwrap());
    for words in [&[kind, "-"][..], &[kind, from], &[kind, from, to]] {
        let output = tool(words, if words[1] == "-" { input } else { b"" });
        assert_eq!(output.status.code(), Some(1), "{says}");
        assert_eq!(String::from_utf8_lossy(&output.stderr), format!("trace_text: {}: {says}\n", words[1]));
        assert!(output.stdout.is_empty());
    }
    assert_eq!(std::fs::read_dir(&folder).unwrap().count(), 1, "{says}: a file was written");
}

#[test]
fn there_and_back() {
    let text = "order 2 levels 2\npush 5 50\npop\nidle\nreplace 4 7\npush 0 0\npush 4294967295 4294967295\n";
    let mut trace = b"PFT\x01\x00\x02\x02".to_vec();
    for (code, rank, tag) in [(1u8, 5, 50), (2, 0, 0), (0, 0, 0), (3, 4, 7), (1, 0, 0), (1, u32::MAX, u32::MAX)] {
        trace.push(code);
        trace.extend_from_slice(&u32::to_le_bytes(rank));
        trace.extend_from_slice(&u32::to_le_bytes(tag));
    }
    let made = tool(&["to-trace", "-"], text.as_bytes());
    assert_eq!((made.status.code(), made.stdout, made.stderr), (Some(0), trace.clone(), vec![]));
    let back = tool(&["to-text", "-"], &trace);
    assert_eq!((back.status.code(), back.stdout, back.stderr), (Some(0), text.as_bytes().to_vec(), vec![]));
    let loose = "\n# a comment\n order  2 levels 2 # the shape\r\n\n\tpush 5 50\npop\nidle\nreplace 4 7\npush 00 0\npush 4294967295 4294967295";
    assert_eq!(tool(&["to-trace", "-"], loose.as_bytes()).stdout, trace);
    // by files, over one that is there
    let folder = folder("files");
    let (from, to) = (folder.join("from"), folder.join("to"));
    std::fs::write(&from, text).unwrap();
    std::fs::write(&to, "old").unwrap();
    let made = tool(&["to-trace", from.to_str().unwrap(), to.to_str().unwrap()], b"");
    assert_eq!((made.status.code(), made.stdout, std::fs::read(&to).unwrap()), (Some(0), vec![], trace));
    assert_eq!(std::fs::read_dir(&folder).unwrap().count(), 2);
}

/// A line `version 2` makes a trace with lengths; `version 1` says what is so without it.
#[test]
fn there_and_back_with_lengths() {
    let text =
        "version 2\norder 2 levels 2\npush 5 50 64\npop\nidle\nreplace 4 7 0\npush 4294967295 4294967295 4294967295\n";
    let mut trace = b"PFT\x02\x00\x02\x02".to_vec();
    for (code, rank, tag, length) in
        [(1u8, 5, 50, 64), (2, 0, 0, 0), (0, 0, 0, 0), (3, 4, 7, 0), (1, u32::MAX, u32::MAX, u32::MAX)]
    {
        trace.push(code);
        for number in [rank, tag, length] {
            trace.extend_from_slice(&u32::to_le_bytes(number));
        }
    }
    let made = tool(&["to-trace", "-"], text.as_bytes());
    assert_eq!((made.status.code(), made.stdout, made.stderr), (Some(0), trace.clone(), vec![]));
    let back = tool(&["to-text", "-"], &trace);
    assert_eq!((back.status.code(), back.stdout, back.stderr), (Some(0), text.as_bytes().to_vec(), vec![]));
    let loose = format!("# lengths\n\n{}", text.replace("version 2\n", " version  2 # with lengths\r\n\n"));
    assert_eq!(tool(&["to-trace", "-"], loose.as_bytes()).stdout, trace);
    let one = "order 2 levels 2\npush 5 50\n";
    assert_eq!(trace_text::to_trace(format!("version 1\n{one}").as_bytes()), trace_text::to_trace(one.as_bytes()));
}

#[test]
fn every_shape_of_the_program_and_no_other() {
    for order in 0..=255u32 {
        for levels in 0..=255u32 {
            let slots: Option<u64> =
                (1..=levels).try_fold(0u64, |sum, k| (order as u64).checked_pow(k)?.checked_add(sum));
            let good = [2, 4, 8].contains(&order) && levels >= 1 && slots.map_or(false, |slots| slots <= 4094);
            let text = format!("order {order} levels {levels}\n");
            for (version, line) in [(1, ""), (2, "version 2\n")] {
                let text = format!("{line}{text}");
                assert_eq!(trace_text::to_trace(text.as_bytes()).is_ok(), good, "{text}");
                let header = [b'P', b'F', b'T', version, 0, order as u8, levels as u8];
                assert_eq!(trace_text::to_text(&header).ok(), if good { Some(text) } else { None });
            }
        }
    }
}

#[test]
fn bad_texts() {
    let shape = "order 2 levels 2\n";
    let after = |line: &str| format!("{shape}\n{line}\n");
    refused("to-trace", b"", "line 1: there is no line `order M levels L`");
    refused("to-trace", b"\n# nothing\n", "line 1: there is no line `order M levels L`");
    let first = "the first line is the shape, as in `order 2 levels 2`, or `version 2` and then the shape";
    refused("to-trace", b"# first\npush 5 50\n", &format!("line 2: {first}"));
    refused("to-trace", b"order 2", &format!("line 1: {first}"));
    refused("to-trace", b"version 2\nversion 2\norder 2 levels 2\n", &format!("line 2: {first}"));
    refused("to-trace", b"version\norder 2 levels 2\n", &format!("line 1: {first}"));
    refused("to-trace", b"version 2 order 2 levels 2\n", &format!("line 1: {first}"));
    refused("to-trace", b"version 2\n", "line 1: there is no line `order M levels L`");
    refused("to-trace", b"\nversion 3\norder 2 levels 2\n", "line 2: version 3: it is 1 or 2");
    refused("to-trace", b"version 0\n", "line 1: version 0: it is 1 or 2");
    refused("to-trace", b"version two\n", "line 1: `two` is no number from 0 to 4294967295");
    refused("to-trace", b"order 3 levels 2\n", "line 1: order 3: it is 2, 4 or 8");
    refused("to-trace", b"order 4 levels 6\n", "line 1: levels 6: of order 4 the trace program takes 1 to 5");
    refused("to-trace", b"order 2 levels 0\n", "line 1: levels 0: of order 2 the trace program takes 1 to 11");
    refused("to-trace", b"order two levels 2\n", "line 1: `two` is no number from 0 to 4294967295");
    refused("to-trace", after("push 5").as_bytes(), "line 3: push takes a rank and a tag");
    refused("to-trace", after("push 5 50 500").as_bytes(), "line 3: push takes a rank and a tag");
    refused("to-trace", after("replace").as_bytes(), "line 3: replace takes a rank and a tag");
    refused("to-trace", after("pop 5").as_bytes(), "line 3: pop stands alone");
    refused("to-trace", after("idle idle").as_bytes(), "line 3: idle stands alone");
    refused("to-trace", after("peek").as_bytes(), "line 3: `peek` is none of idle, push, pop, replace");
    refused("to-trace", after(shape.trim()).as_bytes(), "line 3: `order` is none of idle, push, pop, replace");
    refused("to-trace", after("version 2").as_bytes(), "line 3: `version` is none of idle, push, pop, replace");
    let after_two = |line: &str| format!("version 2\n{shape}{line}\n");
    refused("to-trace", after_two("push 5 50").as_bytes(), "line 3: push takes a rank, a tag and a length");
    refused("to-trace", after_two("replace 5 50 64 0").as_bytes(), "line 3: replace takes a rank, a tag and a length");
    refused("to-trace", after_two("idle 0 0 0").as_bytes(), "line 3: idle stands alone");
    refused("to-trace", after_two("push 5 50 x").as_bytes(), "line 3: `x` is no number from 0 to 4294967295");
    for number in ["4294967296", "-1", "+1", "0x10", "99999999999999999999", "5.0", "½"] {
        let says = format!("line 3: `{number}` is no number from 0 to 4294967295");
        refused("to-trace", after(&format!("push {number} 1")).as_bytes(), &says);
        refused("to-trace", after(&format!("replace 1 {number}")).as_bytes(), &says);
    }
    refused("to-trace", b"order 2 levels 2\npop\n\xff\n", "line 3: this is no text");
}

#[test]
fn bad_traces() {
    let good = b"PFT\x01\x00\x02\x02\x01\x05\x00\x00\x00\x32\x00\x00\x00";
    let with = |at: usize, byte: u8| {
        let mut bytes = good.to_vec();
        bytes[at] = byte;
        bytes
    };
    refused("to-text", b"", "byte 0: the header is cut: 7 bytes are needed");
    refused("to-text", &good[..6], "byte 6: the header is cut: 7 bytes are needed");
    refused("to-text", &with(0, b'p'), "byte 0: a trace begins with the bytes PFT");
    refused("to-text", b"PX", "byte 1: a trace begins with the bytes PFT");
    refused("to-text", &with(3, 0), "byte 3: version 0: it is 1 or 2");
    refused("to-text", &with(3, 3), "byte 3: version 3: it is 1 or 2");
    refused("to-text", &with(4, 1), "byte 3: version 257: it is 1 or 2");
    refused("to-text", &with(5, 3), "byte 5: order 3: it is 2, 4 or 8");
    refused("to-text", &with(6, 12), "byte 5: levels 12: of order 2 the trace program takes 1 to 11");
    refused("to-text", &with(7, 4), "record 1 (byte 7): code 4: it is 0 to 3");
    refused("to-text", &with(7, 2), "record 1 (byte 7): code 2 with rank 5, tag 50: all must be 0");
    refused("to-text", &[&good[..], &[1, 2, 3]].concat(), "record 2 (byte 16): the record is cut: 3 bytes of 9");
    refused("to-text", &with(3, 2), "record 1 (byte 7): the record is cut: 9 bytes of 13");
    let two = [&with(3, 2)[..], &[64, 0, 0, 0]].concat();
    let idle = [&two[..], &[0; 12], &[9]].concat();
    refused("to-text", &idle, "record 2 (byte 20): code 0 with rank 0, tag 0, length 150994944: all must be 0");
    refused("to-text", &[&two[..], &[1; 12]].concat(), "record 2 (byte 20): the record is cut: 12 bytes of 13");
    refused("to-text", &[&two[..], &[9; 13]].concat(), "record 2 (byte 20): code 9: it is 0 to 3");
}

#[test]
fn bad_calls() {
    for words in [&[][..], &["to-trace"], &["to-trace", "a", "b", "c"], &["to-nothing", "a"]] {
        let output = tool(words, b"");
        assert_eq!((output.status.code(), output.stdout.is_empty()), (Some(2), true), "{words:?}");
        assert!(!output.stderr.is_empty());
    }
    let output = tool(&["to-trace", "/nowhere/at/all"], b"");
    assert_eq!((output.status.code(), output.stdout), (Some(1), vec![]));
    assert!(String::from_utf8_lossy(&output.stderr).starts_with("trace_text: /nowhere/at/all: "));
    let output = tool(&["to-trace", "-", "/nowhere/at/all"], b"order 2 levels 2\n");
    assert_eq!((output.status.code(), output.stdout), (Some(1), vec![]));
    assert!(String::from_utf8_lossy(&output.stderr).starts_with("trace_text: /nowhere/at/all: "));
}
