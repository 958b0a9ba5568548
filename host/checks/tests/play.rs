//! Runs the trace program on good and bad traces and compares what it writes with the model.

use checks::{play, x86};
use models::rng::{seed, Rng};
use models::tree::Shape;
use std::io::{Read, Write};
use std::process::Stdio;

/// How the input reaches the program.
#[derive(Clone, Copy, PartialEq)]
enum Feed {
    Whole,
    Pieces(usize),
}

/// The versions of a trace.
const VERSIONS: [u8; 2] = [1, 2];

fn header(version: u8, order: u8, levels: u8) -> Vec<u8> {
    vec![b'P', b'F', b'T', version, 0, order, levels]
}

/// A record's bytes; one of version 1 has no length.
fn record(version: u8, code: u8, rank: u32, tag: u32, length: u32) -> Vec<u8> {
    let mut bytes = vec![code];
    bytes.extend_from_slice(&rank.to_le_bytes());
    bytes.extend_from_slice(&tag.to_le_bytes());
    if version == 2 {
        bytes.extend_from_slice(&length.to_le_bytes());
    }
    bytes
}

fn blank(version: u8, code: u8) -> Vec<u8> {
    record(version, code, 0, 0, 0)
}

/// The paper's worked trace; in version 2 its element has a length.
fn worked(version: u8) -> Vec<u8> {
    let mut bytes = header(version, 2, 2);
    bytes.extend(record(version, 1, 5, 50, 64));
    for _ in 0..3 {
        bytes.extend(blank(version, 2));
    }
    bytes
}

/// A good trace: every kind of record, in moods that fill and empty the tree.
fn good(rng: &mut Rng, version: u8, order: u8, levels: u8, records: u64) -> Vec<u8> {
    let mut bytes = header(version, order, levels);
    let ranks = rng.pick(&[1, 3, 20, 1000, 1 << 32]);
    let mut weights = (70, 10, 10);
    for _ in 0..records {
        if rng.once_in(40) {
            weights =
                rng.pick(&[(90, 3, 3), (50, 20, 10), (5, 45, 10), (3, 60, 3), (10, 5, 45), (2, 48, 0), (95, 0, 0)]);
        }
        let (push, pop, replace) = weights;
        let (rank, tag) = (rng.below(ranks) as u32, if rng.once_in(20) { 0 } else { rng.word() });
        let length = if rng.once_in(20) { 0 } else { rng.word() };
        let at = rng.below(100);
        bytes.extend(if at < push {
            record(version, 1, rank, tag, length)
        } else if at < push + pop {
            blank(version, 2)
        } else if at < push + pop + replace {
            record(version, 3, rank, tag, length)
        } else {
            blank(version, 0)
        });
    }
    bytes
}

/// Every shape that the program takes.
fn shapes() -> Vec<(u8, u8)> {
    let mut all = Vec::new();
    for order in [2u8, 4, 8] {
        for levels in 1..=11u8 {
            if let Some(shape) = Shape::new(order as u32, levels as u32) {
                if shape.capacity() <= 4094 {
                    all.push((order, levels));
                }
            }
        }
    }
    all
}

/// What the program writes for this input.
fn written(bytes: &[u8], feed: Feed) -> Result<Vec<u8>, String> {
    let mut command = x86(&play());
    let mut child = command
        .stdin(Stdio::piped())
        .stdout(Stdio::piped())
        .spawn()
        .map_err(|e| format!("{command:?} does not start: {e}"))?;
    let mut stdin = child.stdin.take().unwrap();
    let mut stdout = child.stdout.take().unwrap();
    let bytes = bytes.to_vec();
    let writer = std::thread::spawn(move || {
        // a program that has its answer may stop reading: what it wrote decides
        match feed {
            Feed::Whole => {
                let _ = stdin.write_all(&bytes);
            }
            Feed::Pieces(size) => {
                for (i, piece) in bytes.chunks(size).enumerate() {
                    if stdin.write_all(piece).and_then(|()| stdin.flush()).is_err() {
                        break;
                    }
                    if i % 8 == 0 {
                        std::thread::sleep(std::time::Duration::from_micros(300));
                    }
                }
            }
        }
    });
    let mut written = Vec::new();
    stdout.read_to_end(&mut written).map_err(|e| e.to_string())?;
    let status = child.wait().map_err(|e| e.to_string())?;
    writer.join().map_err(|_| "the writer stopped".to_string())?;
    if !status.success() {
        return Err(format!("the program ended with {status}"));
    }
    Ok(written)
}

/// The first line that differs.
fn difference(got: &[u8], expected: &[u8]) -> String {
    let (got, expected) = (String::from_utf8_lossy(got), String::from_utf8_lossy(expected));
    let (mut a, mut b) = (got.split('\n'), expected.split('\n'));
    for n in 1.. {
        let (x, y) = (a.next(), b.next());
        if x != y {
            return format!("line {n} is {x:?}, the model says {y:?}");
        }
        if x.is_none() {
            break;
        }
    }
    String::from("equal")
}

fn fed(name: String, bytes: Vec<u8>, feed: Feed) {
    let expected = models::trace::play(&bytes);
    match written(&bytes, feed) {
        Ok(got) => assert!(got == expected, "seed {}, {name}: {}", seed(), difference(&got, &expected)),
        Err(what) => panic!("seed {}, {name}: {what}", seed()),
    }
}

fn same(name: String, bytes: Vec<u8>) {
    fed(name, bytes, Feed::Whole);
}

#[test]
fn the_worked_trace_and_records_of_zeros() {
    let says = "1 pushed\n2 too soon\n3 out 5 50\n4 too soon\nheld 0 drained 0\n";
    assert_eq!(String::from_utf8_lossy(&models::trace::play(&worked(1))), says);
    assert_eq!(String::from_utf8_lossy(&models::trace::play(&worked(2))), says.replace("5 50", "5 50 64"));
    for version in VERSIONS {
        same(format!("version {version}, the worked trace"), worked(version));
        let mut zeros = header(version, 2, 1);
        for code in [1, 0, 3, 2, 0, 2, 1, 1, 1, 3, 0, 3, 2] {
            zeros.extend(blank(version, code));
        }
        same(format!("version {version}, rank 0, tag 0"), zeros);
        for length in [0, 1] {
            let mut low = header(version, 2, 1);
            for code in [1, 0, 3, 2, 0, 2, 1, 1, 1, 3, 0, 3, 2] {
                let strip = (code == 1 || code == 3) as u32;
                low.extend(record(version, code, 0, strip, length * strip));
            }
            same(format!("version {version}, rank 0, tag 1, length {length}"), low);
        }
        let mut high = header(version, 8, 1);
        for code in [1, 0, 3, 1, 0, 2, 0] {
            let numbers = if code == 0 || code == 2 { 0 } else { u32::MAX };
            high.extend(record(version, code, numbers, numbers, numbers));
        }
        same(format!("version {version}, the highest rank, tag and length"), high);
        let mut kinds = header(version, 4, 2);
        kinds.extend(record(version, 1, 0x0403_0201, 0x0807_0605, 0x0c0b_0a09));
        kinds.extend(blank(version, 0));
        kinds.extend(blank(version, 2));
        same(format!("version {version}, each byte of rank, tag and length"), kinds);
    }
}

#[test]
fn every_good_shape() {
    let rng = &mut Rng::new(seed(), 601);
    for (order, levels) in shapes() {
        for version in VERSIONS {
            let name = format!("version {version}, order {order}, levels {levels}");
            same(format!("{name}, no record"), header(version, order, levels));
            let records = 20 + rng.below(300);
            same(name, good(rng, version, order, levels, records));
        }
    }
}

#[test]
fn filled_to_the_brim_and_emptied() {
    let rng = &mut Rng::new(seed(), 602);
    for (order, levels) in [(2, 1), (2, 2), (2, 3), (2, 6), (4, 1), (4, 2), (4, 3), (8, 1), (8, 2)] {
        for version in VERSIONS {
            let capacity = Shape::new(order as u32, levels as u32).unwrap().capacity();
            let mut bytes = header(version, order, levels);
            for i in 0..capacity + 2 {
                bytes.extend(record(version, 1, rng.below(50) as u32, i as u32, 3 * i as u32));
            }
            bytes.extend(blank(version, 0));
            for i in 0..20 {
                bytes.extend(record(version, 3, rng.below(60) as u32, 1000 + i, i));
                if !rng.once_in(4) {
                    bytes.extend(blank(version, 0));
                }
            }
            for _ in 0..2 * capacity + 6 {
                bytes.extend(blank(version, 2));
            }
            same(format!("version {version}, order {order}, levels {levels}"), bytes);
        }
    }
}

#[test]
fn work_left_for_the_last_drain() {
    let rng = &mut Rng::new(seed(), 603);
    for (order, levels) in [(2, 3), (2, 8), (4, 4), (8, 3)] {
        for tail in 0..6 {
            let version = 1 + tail % 2;
            let records = 300 + rng.below(100);
            let mut bytes = good(rng, version, order, levels, records);
            for _ in 0..tail {
                bytes.extend(record(version, 1, rng.below(9) as u32, 7, 70));
            }
            same(format!("version {version}, order {order}, levels {levels}, {tail} pushes at the end"), bytes);
        }
    }
}

#[test]
fn bad_headers() {
    for version in VERSIONS {
        for at in 0..5 {
            for to in [0u8, 1, 2, 3, b'p', b'P', b'F', 255] {
                let mut bytes = worked(version);
                if bytes[at] != to {
                    bytes[at] = to;
                    same(format!("version {version}, byte {at} is {to}"), bytes);
                }
            }
        }
    }
    for (order, levels) in [
        (0, 1),
        (1, 1),
        (3, 1),
        (5, 2),
        (6, 1),
        (7, 1),
        (9, 1),
        (16, 1),
        (64, 1),
        (255, 1),
        (2, 0),
        (4, 0),
        (8, 0),
        (0, 0),
        (2, 12),
        (2, 13),
        (2, 32),
        (2, 64),
        (2, 255),
        (4, 6),
        (4, 7),
        (4, 16),
        (4, 255),
        (8, 4),
        (8, 5),
        (8, 22),
        (8, 255),
        (255, 255),
    ] {
        same(format!("order {order}, levels {levels}, no record"), header(1, order, levels));
        for version in VERSIONS {
            let mut bytes = header(version, order, levels);
            bytes.extend(&worked(version)[7..]);
            same(format!("version {version}, order {order}, levels {levels}"), bytes);
        }
    }
}

/// Records of one version under the header of the other.
#[test]
fn the_other_version() {
    let rng = &mut Rng::new(seed(), 610);
    for version in VERSIONS {
        for records in [1, 8, 9, 12, 13, 26, 117] {
            let mut bytes = good(rng, version, 2, 3, records);
            bytes[3] = 3 - version;
            same(format!("{records} records of version {version}"), bytes);
        }
    }
}

#[test]
fn a_trace_cut_at_each_length() {
    for version in VERSIONS {
        let mut bytes = header(version, 2, 3);
        bytes.extend(record(version, 1, 9, 90, 900));
        bytes.extend(record(version, 3, 4, 40, 400));
        bytes.extend(blank(version, 2));
        bytes.extend(record(version, 7, 1, 1, 1));
        for length in 0..=bytes.len() {
            same(format!("version {version}, {length} bytes"), bytes[..length].to_vec());
        }
    }
}

#[test]
fn bad_records() {
    let rng = &mut Rng::new(seed(), 606);
    for version in VERSIONS {
        for code in [4u8, 5, 6, 7, 9, 16, 127, 128, 254, 255, b'1', b'\n'] {
            for after in [0, 1, 4] {
                let mut bytes = good(rng, version, 2, 3, after);
                bytes.extend(blank(version, code));
                bytes.extend(good(rng, version, 2, 3, 3));
                same(format!("version {version}, code {code} as record {}", after + 1), bytes);
            }
        }
        let size = blank(version, 0).len();
        for code in [0u8, 2] {
            for byte in 1..size {
                let before = rng.below(5);
                let mut bytes = good(rng, version, 4, 2, before);
                let at = bytes.len();
                bytes.extend(blank(version, code));
                bytes[at + byte] = rng.pick(&[1, 128, 255]);
                bytes.extend(record(version, 1, 1, 1, 1));
                same(format!("version {version}, code {code}, byte {byte} not 0"), bytes);
            }
        }
        for length in 1..size {
            for code in [0u8, 1, 2, 3, 4, 255] {
                let mut bytes = good(rng, version, 8, 1, 3);
                bytes.extend(&blank(version, code)[..length]);
                same(format!("version {version}, a record of code {code} cut to {length} bytes"), bytes);
            }
        }
    }
}

#[test]
fn any_bytes() {
    let rng = &mut Rng::new(seed(), 607);
    for i in 0..24 {
        let version = rng.pick(&VERSIONS);
        let mut bytes =
            if i % 3 == 0 { Vec::new() } else { header(version, rng.pick(&[2, 4, 8]), 1 + rng.below(3) as u8) };
        for _ in 0..rng.below(60) {
            bytes.push(rng.pick(&[0, 0, 0, 0, 1, 2, 3, 255, 80, 70, 84]));
        }
        same(format!("{i}"), bytes);
    }
}

#[test]
fn fed_in_pieces() {
    let rng = &mut Rng::new(seed(), 608);
    for size in [1, 2, 5, 7, 8, 9, 10, 13] {
        for version in VERSIONS {
            let bytes = good(rng, version, 2, 4, 30);
            fed(format!("version {version}, {size} bytes at a time"), bytes, Feed::Pieces(size));
        }
    }
    for records in [453, 454, 455, 456, 909, 910, 911, 7280, 7281, 7282] {
        // around the lengths of usual buffers
        let bytes = good(rng, 1, 4, 3, records);
        fed(format!("{records} records"), bytes, Feed::Pieces(4096));
    }
    for records in [314, 315, 316, 5040, 5041] {
        let bytes = good(rng, 2, 4, 3, records);
        fed(format!("{records} records of version 2"), bytes, Feed::Pieces(4096));
    }
}

#[test]
fn a_hundred_thousand_records() {
    let rng = &mut Rng::new(seed(), 609);
    for (version, order, levels) in [(1, 2, 1), (2, 2, 11), (1, 4, 5), (2, 8, 3)] {
        same(format!("version {version}, order {order}, levels {levels}"), good(rng, version, order, levels, 100_000));
    }
    let mut bytes = good(rng, 1, 2, 5, 100_000);
    bytes.extend(blank(1, 200));
    same("a bad record at the end".into(), bytes);
    let mut bytes = good(rng, 2, 4, 4, 100_000);
    bytes.extend(&record(2, 1, 1, 1, 1)[..4]);
    same("a cut record at the end".into(), bytes);
}

/// The program reads 36,855 bytes at a time, 4,095 records of version 1 or 2,835 of version 2: traces that end just there, one record
/// before and one behind, well, with a bad record and with a cut one.
#[test]
fn around_the_end_of_a_piece() {
    let rng = &mut Rng::new(seed(), 620);
    for (version, piece) in [(1, 4095), (2, 2835)] {
        for records in [piece - 1, piece, piece + 1, 2 * piece - 1, 2 * piece, 2 * piece + 1] {
            for feed in [Feed::Whole, Feed::Pieces(36855)] {
                let name = format!("version {version}, {records} records");
                let bytes = good(rng, version, 2, 5, records);
                for code in [4, 200] {
                    let bad = [&bytes[..], &blank(version, code)].concat();
                    fed(format!("{name} and a bad one"), bad, feed);
                }
                let one = record(version, 1, 7, 70, 700);
                for length in [1, one.len() - 1] {
                    let cut = [&bytes[..], &one[..length]].concat();
                    fed(format!("{name} and {length} bytes of one"), cut, feed);
                }
                let more = [&bytes[..], &blank(version, 9), &one].concat();
                fed(format!("{name}, a bad one and a good one"), more, feed);
                fed(name, bytes, feed);
            }
        }
    }
}

/// A write that fails is told on standard error, and nothing more is read: the writer of an endless trace is let go.
#[test]
fn a_write_that_fails_ends_the_play() {
    let full = std::fs::OpenOptions::new().write(true).open("/dev/full").unwrap();
    let mut child = x86(&play()).stdin(Stdio::piped()).stdout(full).stderr(Stdio::piped()).spawn().unwrap();
    let mut stdin = child.stdin.take().unwrap();
    let records = blank(2, 0).repeat(4096);
    let mut sent = stdin.write_all(&header(2, 2, 2)).map(|()| 0);
    // far more than any pipe holds
    for n in 0..1000 {
        sent = sent.and_then(|_| stdin.write_all(&records)).map(|()| n);
    }
    assert!(sent.is_err(), "the program read on");
    drop(stdin);
    let output = child.wait_with_output().unwrap();
    assert_eq!(String::from_utf8_lossy(&output.stderr), "play: a write failed\n");
}

/// A read that fails is no end of input: no line is written for it, and standard error says so.
#[test]
fn a_read_that_fails_is_told_apart() {
    let folder = std::fs::File::open("/").unwrap();
    let output = x86(&play()).stdin(folder).output().unwrap();
    assert_eq!((output.stdout, String::from_utf8_lossy(&output.stderr).as_ref()), (vec![], "play: a read failed\n"));
}
