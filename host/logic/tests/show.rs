//! The page and the picture: the page carries the run whole and nothing from elsewhere, and the picture is the docs' own.

use card_host::{ClockedTree, Element, Length, Rank, Tag};
use logic::run::Run;
use logic::show::{page, picture, Fails, CYCLES};

const POP: &str = include_str!("../../examples/pop.txt");

fn made(text: &str, from: u64, upto: Option<u64>) -> Result<String, Fails> {
    let mut file = Vec::new();
    page(&mut Run::new(text.as_bytes())?, &mut file, from, upto)?;
    Ok(String::from_utf8(file).unwrap())
}

/// The run that a page carries.
fn run(page: &str) -> &str {
    let from = page.find("const run = ").unwrap() + 12;
    &page[from..from + page[from..].find(";\n").unwrap()]
}

/// The numbers of a list of lists, as JSON has them: `[[1,2],[3,4]]`.
fn lists(text: &str) -> Vec<Vec<u32>> {
    let inner = text.strip_prefix('[').unwrap().strip_suffix(']').unwrap();
    let parts = inner.split("],[").map(|l| l.trim_matches(|c| c == '[' || c == ']'));
    parts.filter(|l| !l.is_empty()).map(|l| l.split(',').map(|n| n.parse().unwrap()).collect()).collect()
}

/// What stands behind a name up to a closing word.
fn behind<'a>(line: &'a str, name: &str, end: &str) -> &'a str {
    let from = line.find(name).unwrap() + name.len();
    &line[from..from + line[from..].find(end).unwrap()]
}

/// Played back from the page alone, the slots and records are the library's after every cycle.
#[test]
fn the_page_carries_the_run() {
    let page = made(POP, 0, None).unwrap();
    let cycles: Vec<&str> = run(&page).split("{asked:").skip(1).collect();
    assert_eq!(cycles.len(), 12);
    let mut tree = ClockedTree::new(2, 3).unwrap();
    let (mut slots, mut records) = (vec![0; 4 * 14], vec![[0; 5]; 2]);
    let first = [0, 2, 6];
    for (line, text) in cycles.iter().zip(POP.lines().skip(2)) {
        let words: Vec<u32> = text.split(' ').skip(1).map(|w| w.parse().unwrap()).collect();
        let said = match text.split(' ').next() {
            Some("push") => {
                tree.push(Element::new(Rank(words[0]), Tag(words[1]), Length(words[2]))).map(|()| "pushed".to_string())
            }
            Some("pop") => tree.pop().map(|x| format!("out {} {} {}", x.rank.0, x.tag.0, x.length.0)),
            _ => tree.idle().map(|()| "idle".to_string()),
        };
        assert_eq!(behind(line, "said:\"", "\""), said.unwrap());
        assert_eq!(behind(line, "mark:", ","), tree.mark().to_string());
        assert_eq!(behind(line, "held:", ","), tree.held().unwrap().to_string());
        for w in lists(&format!("{}]", behind(line, "writes:", "],records"))) {
            let at = 4 * (first[w[0] as usize - 1] + 2 * w[1] + w[2]) as usize;
            slots[at..at + 4].copy_from_slice(&w[3..]);
        }
        for r in lists(&format!("{}]", behind(line, "records:", "]}"))) {
            records[r[0] as usize - 2].copy_from_slice(&r[1..6]);
        }
        assert_eq!(slots, tree.words(), "{text}");
        let own: Vec<[u32; 5]> = tree.records().iter().map(|r| (*r).into()).collect();
        assert_eq!(records, own, "{text}");
    }
    // nothing comes from elsewhere
    for word in ["http:", "https:", "src=", "@import", "url("] {
        assert!(!page.contains(word), "{word}");
    }
}

/// A part of a run begins with the state at its first cycle.
#[test]
fn a_page_of_a_part() {
    let part = made(POP, 9, Some(11)).unwrap();
    let run = run(&part);
    assert!(run.contains("from:9,") && run.contains("[1,10,40,3]"), "{run}");
    assert_eq!(run.matches("{asked:").count(), 2);
    for (from, upto) in [(13, None), (0, Some(13))] {
        match made(POP, from, upto) {
            Err(Fails::Asked(what)) => assert_eq!(what, "cycle 13: the run has cycles 0 to 12"),
            other => panic!("{:?}", other.map(|_| ())),
        }
    }
    let long = format!("order 2 levels 2\n{}", "idle\n".repeat(CYCLES as usize + 1));
    assert!(matches!(made(&long, 0, None), Err(Fails::Asked(_))));
    assert!(made(&long, 1, None).is_ok());
    assert!(matches!(made("order 2 levels 2\npush\n", 0, None), Err(Fails::Trace(_))));
}

/// The docs' picture is what the tool draws.
#[test]
fn the_docs_have_the_picture() {
    let svg = picture(&mut Run::new(POP.as_bytes()).unwrap(), 10).unwrap();
    assert_eq!(svg, include_str!("../../../docs/pop.svg"));
    assert!(svg.contains("cycle 10: pop → out 1 10 40; mark on, held 6") && svg.contains("▶ pending: take"));
    assert!(matches!(picture(&mut Run::new(POP.as_bytes()).unwrap(), 13), Err(Fails::Asked(_))));
    assert!(matches!(picture(&mut Run::new(&b"order 8 levels 3\n"[..]).unwrap(), 0), Err(Fails::Asked(_))));
}
