//! Holds the three descriptions of the library's functions to each other: the C header, the list of the calls that Rust's functions are
//! made of, and the exported functions of the library's own source.
//!
//! Each function's parameters must have the same names, types and order in all three, a slice being a pointer and then a length in the
//! header; the source's `usize`, of 64 bits, is `card_len` in C. The header's declarations are written from the list, to the byte.

use checks::table::{calls, of_list, written, Call, Kind, HEADER, LIST};
use checks::{boundary, exports, root, text};
use std::collections::{BTreeMap, BTreeSet};

/// A function: its parameters as `name: type`, and what it answers.
#[derive(Clone, PartialEq, Eq, Debug)]
struct Function {
    parameters: Vec<String>,
    answer: String,
}

impl Function {
    fn text(&self) -> String {
        format!("({}) -> {}", self.parameters.join(", "), self.answer)
    }
}

type Functions = BTreeMap<String, Function>;

/// The text without `//` and `/* */` comments.
fn without_comments(text: &str) -> String {
    let bytes: Vec<char> = text.chars().collect();
    let (mut at, mut out) = (0, String::new());
    while at < bytes.len() {
        let next = bytes.get(at + 1).copied();
        if bytes[at] == '/' && next == Some('/') {
            while at < bytes.len() && bytes[at] != '\n' {
                at += 1;
            }
        } else if bytes[at] == '/' && next == Some('*') {
            at += 2;
            while at + 1 < bytes.len() && !(bytes[at] == '*' && bytes[at + 1] == '/') {
                at += 1;
            }
            at += 2;
            out.push(' ');
        } else {
            out.push(bytes[at]);
            at += 1;
        }
    }
    out
}

/// Words and spaces as one space each.
fn squeezed(text: &str) -> String {
    text.split_whitespace().collect::<Vec<_>>().join(" ")
}

/// The text up to the parenthesis that closes the one before `text`, and what follows it.
fn to_the_end(text: &str) -> Option<(&str, &str)> {
    let mut depth = 1;
    for (i, c) in text.char_indices() {
        match c {
            '(' => depth += 1,
            ')' => depth -= 1,
            _ => {}
        }
        if depth == 0 {
            return Some((&text[..i], &text[i + 1..]));
        }
    }
    None
}

/// Parameters that stand as `name: type`, a pointer and a length put together as a slice.
fn joined(flat: Vec<(String, String)>) -> Result<Vec<String>, String> {
    let mut out = Vec::new();
    let mut rest = flat.into_iter();
    while let Some((name, kind)) = rest.next() {
        let slice = match kind.split_once(' ') {
            Some(("*mut", of)) => format!("&mut [{of}]"),
            Some(("*const", of)) => format!("&[{of}]"),
            None if kind == "u32" => {
                out.push(format!("{name}: u32"));
                continue;
            }
            _ => return Err(format!("{name} has the type {kind}")),
        };
        match rest.next() {
            Some((length, kind)) if kind == "Len" && length == format!("{name}_len") => {
                out.push(format!("{name}: {slice}"))
            }
            other => return Err(format!("after {name} stands {other:?} and no {name}_len")),
        }
    }
    Ok(out)
}

fn name_and_type(parameter: &str) -> Result<(String, String), String> {
    let (name, kind) = parameter.split_once(':').ok_or(format!("no type in {parameter}"))?;
    Ok((name.trim().to_string(), squeezed(kind)))
}

fn split(parameters: &str) -> Vec<String> {
    parameters.split(',').map(squeezed).filter(|p| !p.is_empty()).collect()
}

/// The exported functions of the library's source.
fn of_source(text: &str) -> Result<Functions, String> {
    let text = without_comments(text);
    let mut found = Functions::new();
    let mut rest = text.as_str();
    let key = "extern \"C\" fn ";
    while let Some(at) = rest.find(key) {
        let before = squeezed(&rest[..at]);
        let after = &rest[at + key.len()..];
        let (name, after) = after.split_once('(').ok_or("no parenthesis after a name")?;
        let (parameters, after) = to_the_end(after).ok_or("no closing parenthesis")?;
        // lifetimes are no part of what C sees
        let name = name.split('<').next().unwrap_or("").trim().to_string();
        if !before.ends_with("#[unsafe(no_mangle)] pub") {
            return Err(format!("{name} is not marked #[unsafe(no_mangle)] pub"));
        }
        let answer = match after.trim_start().strip_prefix("->") {
            Some(after) => {
                let end = after.trim_start();
                end.chars().take_while(|c| c.is_alphanumeric() || *c == '_').collect()
            }
            None => String::from("nothing"),
        };
        let mut list = Vec::new();
        for p in split(parameters) {
            let (n, t) = name_and_type(&p)?;
            let words: Vec<&str> = t.trim_start_matches('&').split(' ').filter(|w| !w.starts_with('\'')).collect();
            let reference = if t.starts_with('&') { "&" } else { "" };
            // a struct of numbers of 32 bits is so many words to the source
            let of = words.join(" ").replace("[[u32; 6]]", "[ClusterRecord]").replace("[[u32; 5]]", "[Record]");
            list.push(format!("{n}: {reference}{of}"));
        }
        if found.insert(name.clone(), Function { parameters: list, answer }).is_some() {
            return Err(format!("{name} stands there twice"));
        }
        rest = after;
    }
    Ok(found)
}

/// The calls of the list.
fn of_calls(calls: &[Call]) -> Functions {
    let of = |(name, kind): &(String, Kind)| match kind {
        Kind::Number => format!("{name}: u32"),
        Kind::Slice(false, of) => format!("{name}: &[{of}]"),
        Kind::Slice(true, of) => format!("{name}: &mut [{of}]"),
    };
    let answer = |call: &Call| String::from(if call.length { "usize" } else { "u32" });
    let function = |call: &Call| Function { parameters: call.arguments.iter().map(of).collect(), answer: answer(call) };
    calls.iter().map(|call| (call.name.clone(), function(call))).collect()
}

/// The text without the header's own small functions: each from its first word to the brace that closes it.
fn without_inlines(text: &str) -> String {
    let mut parts = text.split("static inline");
    let mut out = parts.next().unwrap_or("").to_string();
    for part in parts {
        out.push_str(part.split_once("\n}").map_or("", |(_, rest)| rest));
    }
    out
}

/// A record's name in Rust: its words begin large.
fn camel(name: &str) -> String {
    let large = |word: &str| word[..1].to_uppercase() + &word[1..];
    name.split('_').filter(|word| !word.is_empty()).map(large).collect()
}

/// The C declarations.
fn of_header(text: &str) -> Result<Functions, String> {
    let text = without_inlines(&without_comments(text));
    let lines: Vec<&str> = text.lines().filter(|l| !l.trim_start().starts_with('#')).collect();
    let text = lines.join("\n");
    let mut found = Functions::new();
    for declaration in text.split(';') {
        let declaration = squeezed(declaration);
        let declaration = declaration.trim_start_matches("extern \"C\" {").trim();
        // the assertion of a record's layout is a type
        let (start, after) = match declaration.split_once('(') {
            Some(parts) if !declaration.starts_with("typedef ") => parts,
            _ => continue,
        };
        let (parameters, after) = to_the_end(after).ok_or("no closing parenthesis")?;
        if !after.trim().is_empty() {
            return Err(format!("{after} after {start}"));
        }
        let (answer, name) = start.trim().rsplit_once(' ').ok_or(format!("no type before {start}"))?;
        let answer = match answer {
            "uint32_t" => "u32".to_string(),
            "card_len" => "usize".to_string(),
            other => other.to_string(),
        };
        let mut flat = Vec::new();
        for p in split(parameters).into_iter().filter(|p| p != "void") {
            let at = p.rfind(|c: char| !(c.is_alphanumeric() || c == '_')).ok_or(format!("no type in {p}"))?;
            let (kind, n) = (squeezed(&p[..at + 1]), p[at + 1..].to_string());
            let (lent, of) = match kind.strip_suffix(" *") {
                Some(of) => of.strip_prefix("const ").map_or(("*mut ", of), |of| ("*const ", of)),
                None => ("", kind.as_str()),
            };
            let of = match of {
                "uint32_t" => String::from("u32"),
                "uint64_t" if !lent.is_empty() => String::from("u64"),
                "card_len" if lent.is_empty() => String::from("Len"),
                other => match other.strip_prefix("struct card_") {
                    Some(record) if !lent.is_empty() => camel(record),
                    _ => return Err(format!("{name}: {n} has the type {kind}")),
                },
            };
            let kind = lent.to_string() + &of;
            flat.push((n, kind));
        }
        let parameters = joined(flat).map_err(|e| format!("{name}: {e}"))?;
        if found.insert(name.to_string(), Function { parameters, answer }).is_some() {
            return Err(format!("{name} stands there twice"));
        }
    }
    Ok(found)
}

#[test]
fn header_declarations_and_source_agree() {
    let paths = [HEADER, LIST, "the source of card_c"];
    let tables = [of_header(&text(&root().join(paths[0]))), Ok(of_calls(&calls())), of_source(&exports())];
    let tables: Vec<Functions> =
        tables.into_iter().zip(paths).map(|(t, path)| t.unwrap_or_else(|e| panic!("{path}: {e}"))).collect();
    let names: BTreeSet<&String> = tables.iter().flat_map(|t| t.keys()).collect();
    assert!(names.len() >= 25, "{} functions found", names.len());
    let mut wrong = String::new();
    for name in names {
        let said: Vec<Option<&Function>> = tables.iter().map(|t| t.get(name)).collect();
        if !said.iter().all(|f| f.is_some() && *f == said[0]) {
            for (f, path) in said.iter().zip(paths) {
                wrong += &format!("\n{name} in {path}: {}", f.map_or("not there".to_string(), |f| f.text()));
            }
        }
    }
    assert!(wrong.is_empty(), "{wrong}");
}

/// The version stands in the source's contract, in its code, in the header and in the wrapper: one number.
#[test]
fn one_version() {
    let number_in = |path: &str, all: &str, before: &str, after: &str| {
        let found: Vec<&str> = all.split(before).skip(1).filter_map(|rest| rest.split(after).next()).collect();
        assert_eq!(found.len(), 1, "{path}: {before}");
        found[0].trim().parse::<u32>().unwrap_or_else(|_| panic!("{path}: {} is no number", found[0]))
    };
    let number = |path: &str, before: &str, after: &str| number_in(path, &text(&root().join(path)), before, after);
    let version = number_in("card_c", &exports(), "fn card_version() -> u32\n    ensures { result ≡ ", " }");
    assert_eq!(number("host/card.h", "#define CARD_VERSION ", "u\n"), version);
    assert_eq!(number("host/card/src/lib.rs", "pub const VERSION: u32 = ", ";"), version);
}

/// A function from its name to its body: parameters, answer and clauses.
fn stated(text: &str, before: &str, name: &str) -> Vec<String> {
    let start = format!("\n{before}{name}(");
    let starts = text.split(&start).skip(1);
    starts.map(|rest| squeezed(rest.split("\n{").next().unwrap_or(""))).collect()
}

/// The static library states of each function what the boundary crates state of it, word for word, and they state it once.
#[test]
fn the_library_states_what_is_proved_below_it() {
    let (library, below) = (exports(), boundary().into_values().collect::<Vec<_>>().join("\n"));
    for name in of_source(&library).unwrap().keys() {
        let (ours, theirs) = (stated(&library, "pub extern \"C\" fn ", name), stated(&below, "pub fn ", name));
        assert!(ours.len() == 1 && ours[0].contains(" ensures "), "{name}: {ours:?}");
        // a trailing comma is a matter of layout
        let flat =
            |all: Vec<String>| all.into_iter().map(|it| it.replace(", )", ")").replace("( ", "(")).collect::<Vec<_>>();
        assert_eq!(flat(ours), flat(theirs), "{name}");
    }
}

/// What the list's declarations would be stands in the header, to the byte, comments and all.
#[test]
fn the_header_is_written_from_the_list() {
    let header = text(&root().join(HEADER));
    let again = written(&header, &calls()).unwrap_or_else(|error| panic!("{HEADER}: {error}"));
    for (line, (is, ought)) in header.lines().zip(again.lines()).enumerate() {
        assert_eq!(is, ought, "{HEADER}:{}: `cargo run -p checks --bin header` writes it anew", line + 1);
    }
    assert!(header == again, "{HEADER}: `cargo run -p checks --bin header` writes it anew");
    assert!(
        calls().iter().all(|call| call.name == "card_version" || !call.says.is_empty()),
        "a call without a comment"
    );
}

/// What is written from a list: a slice as a pointer and a length, `const` where it is only read; comments, and lines that are full.
#[test]
fn declarations_from_a_list() {
    let list = "calls! {
        /// Of the one.
        /// And more.
        fn one(from: &[u64], to: &mut [u32], order, records: &mut [LongRecord], out: &mut [u32]);
        // a word
        #[doc = \"Rust's own.\"]
        fn two() -> usize;
    }";
    let calls = of_list(list).unwrap();
    let header = "a\n\n/* Old. */\nuint32_t card_one(uint32_t wrong,\n  uint32_t more);\n\n/* Apart. */\n#define B\ncard_len card_two();\nz\n";
    let expected = "a\n
/* Of the one.
   And more. */
uint32_t card_one(const uint64_t *from, card_len from_len, uint32_t *to, card_len to_len,
                  uint32_t order, struct card_long_record *records, card_len records_len,
                  uint32_t *out, card_len out_len);

/* Apart. */
#define B
card_len card_two(void);
z
";
    assert_eq!(written(header, &calls), Ok(String::from(expected)));
    assert_eq!(written(expected, &calls), Ok(String::from(expected)));
    // a call without a place, or with two
    assert!(written("a\nuint32_t card_one();\n", &calls).unwrap_err().starts_with("card_two has 0 places"));
    let twice = format!("{expected}card_len card_two();\n");
    assert!(written(&twice, &calls).unwrap_err().starts_with("card_two has 2 places"));
    // what is no call
    for line in [
        "fn a(b: u32);",
        "fn a(b: [u32]);",
        "fn a(b: &u32);",
        "fn a(B);",
        "fn a() -> u64;",
        "fn a()",
        "fn a(b;",
        "fn a();\nfn a();",
    ] {
        assert!(of_list(line).is_err(), "{line}");
    }
}

/// The soak makes every call, and the stack of every call is measured.
#[test]
fn the_soak_and_the_stack_have_every_call() {
    let declared = of_header(&text(&root().join("host/card.h"))).unwrap();
    for program in ["host/checks/c/soak.c", "host/checks/c/stack.c"] {
        let program_text = text(&root().join(program));
        for name in declared.keys() {
            assert!(program_text.contains(&format!("{name}(")), "{program} does not call {name}");
        }
    }
}

/// Every unsafe block of the folder says why it is safe, and none stands outside the bench and the one file that calls the library: there
/// one is every call's, and two look at how a record lies.
#[test]
fn every_unsafe_block_says_why() {
    fn walk(folder: &std::path::Path, found: &mut Vec<std::path::PathBuf>) {
        for entry in std::fs::read_dir(folder).unwrap().map(|entry| entry.unwrap().path()) {
            if entry.is_dir() && !entry.ends_with("target") {
                walk(&entry, found);
            } else if entry.extension().map_or(false, |e| e == "rs") && !entry.ends_with("header.rs") {
                found.push(entry);
            }
        }
    }
    let mut files = Vec::new();
    walk(&root().join("host"), &mut files);
    let mut calling = 0;
    for file in files {
        let text = text(&file);
        let lines: Vec<&str> = text.lines().collect();
        for (i, line) in lines.iter().enumerate() {
            let code = line.split("//").next().unwrap_or("");
            if code.contains("unsafe {") || code.contains("unsafe impl") {
                let said = lines[..i].iter().rev().take(3).any(|l| l.contains("// SAFETY: "));
                assert!(said, "{}:{}: an unsafe block without a word", file.display(), i + 1);
                let at = file.strip_prefix(root()).unwrap();
                let own = at.ends_with("card/src/raw.rs");
                assert!(own || at.starts_with("host/bench/src"), "{}:{}: an unsafe block", at.display(), i + 1);
                calling += own as u32;
            }
        }
    }
    assert_eq!(calling, 3);
}
