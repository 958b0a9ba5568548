//! Holds `docs/PROMISES.md` to the sources: its tables are the public and the exported functions, its list of helpers the other crates
//! with public functions, every edit that the prover must refuse is named, and every name and file in backticks is there. The names of
//! the other pages that go by definitions are there too.

use checks::{boundary, root, text, EXPORT};
use std::collections::{BTreeMap, BTreeSet};
use std::path::Path;
use std::sync::Mutex;

type Names = BTreeSet<String>;

/// The files of `crates/` by their paths from there, those of programs' data too.
struct Sources {
    files: BTreeMap<String, String>,
    /// What each of them declares.
    declared: BTreeMap<String, Names>,
    /// The text of the C header and of the wrapper.
    host: String,
}

fn walk(folder: &Path, path: &str, files: &mut BTreeMap<String, String>) {
    for entry in std::fs::read_dir(folder).expect("a folder of crates/") {
        let entry = entry.unwrap();
        let name = format!("{path}{}", entry.file_name().to_string_lossy());
        if name.ends_with("/out") {
            // what rt makes
        } else if entry.file_type().unwrap().is_dir() {
            walk(&entry.path(), &format!("{name}/"), files);
        } else {
            files.insert(name, String::from_utf8_lossy(&std::fs::read(entry.path()).unwrap()).into_owned());
        }
    }
}

/// What stands before a name that is declared.
const BEFORE: [&str; 8] = ["pub ", "abbrev ", "unfoldable ", "fn ", "extern \"C\" ", "struct ", "enum ", "const "];

/// What a line of a proof, or else of code, declares: a signature, a record, a data type; of a `pub use` the names that it passes on.
fn declares(line: &str, proof: bool) -> Vec<&str> {
    let mut rest = line.trim_start();
    if ["--", "//", "use ", "ghost "].iter().any(|other| rest.starts_with(other)) {
        return Vec::new();
    }
    while let Some(after) = BEFORE.iter().find_map(|word| rest.strip_prefix(word)) {
        rest = after;
    }
    if rest.starts_with("use ") {
        let names = rest.split_once('{').map_or("", |(_, names)| names.trim_end_matches('}'));
        return names.split(", ").collect();
    }
    let kind = rest.strip_prefix("record ").or_else(|| rest.strip_prefix("data "));
    let (name, after) = kind.unwrap_or(rest).split_once(|c: char| " (:{<,=;".contains(c)).unwrap_or((rest, ""));
    if !proof || kind.is_some() || after.starts_with(": ") {
        vec![name]
    } else {
        Vec::new()
    }
}

fn read() -> Sources {
    let mut files = BTreeMap::new();
    walk(&root().join("crates"), "", &mut files);
    let mut declared = BTreeMap::new();
    for (path, text) in &files {
        let proof = path.ends_with(".antt");
        if proof || path.ends_with(".rt") {
            let names = text.lines().flat_map(|line| declares(line, proof)).map(String::from).collect();
            declared.insert(path.clone(), names);
        }
    }
    let mut wrapper = BTreeMap::new();
    walk(&root().join("host/card/src"), "", &mut wrapper);
    let host = wrapper.into_values().chain([text(&root().join("host/card.h"))]).collect();
    Sources { files, declared, host }
}

/// The sources, read once for all tests.
fn sources() -> &'static Sources {
    static READ: Mutex<Option<&'static Sources>> = Mutex::new(None);
    READ.lock().unwrap().get_or_insert_with(|| Box::leak(Box::new(read())))
}

impl Sources {
    fn crates(&self) -> Names {
        self.files.keys().filter_map(|path| path.split_once('/')).map(|(name, _)| name.to_string()).collect()
    }

    /// What stands behind some words at the start of a line in a crate's code, up to a parenthesis, a semicolon or type parameters.
    fn behind(&self, name: &str, words: &str) -> Names {
        let (folder, words) = (format!("{name}/src/"), format!("\n{words}"));
        let texts = self.files.iter().filter(|(path, _)| path.starts_with(&folder)).map(|(_, text)| text);
        let items = texts.flat_map(|text| text.split(&words).skip(1));
        items.filter_map(|rest| rest.split(|c| "(;<".contains(c)).next()).map(String::from).collect()
    }

    /// The public functions of a crate, and those of others that it passes on.
    fn public(&self, name: &str) -> Names {
        let mut all = self.behind(name, "pub fn ");
        let passed = self.behind(name, "pub use ");
        let items = passed.iter().filter_map(|path| path.split("::").last());
        all.extend(items.filter(|item| item.starts_with(char::is_lowercase)).map(String::from));
        all
    }

    /// The files that a path of the page can be: as it is, or the end of one.
    fn meant(&self, path: &str) -> Vec<&String> {
        let end = format!("/{path}");
        self.files.keys().filter(|file| *file == path || file.ends_with(&end)).collect()
    }

    fn declares(&self, file: &str, name: &str) -> bool {
        self.declared.get(file).map_or(false, |names| names.contains(name))
    }

    /// Whether what stands in backticks is there: a file, a folder, an edit, an item of a crate, or a name.
    fn has(&self, word: &str) -> bool {
        if let Some((owner, item)) = word.split_once("::").filter(|_| !self.host.contains(word)) {
            let src = format!("{owner}/src/");
            let here = |file: &String| {
                file.starts_with(&src) && (self.declares(file, item) || file.ends_with(&format!("/{item}.rt")))
            };
            return self.files.keys().any(here);
        }
        if word.ends_with('/') {
            return self.files.keys().any(|file| format!("/crates/{file}").contains(&format!("/{word}")));
        }
        if let Some((owner, label)) = word.split_once('/') {
            let folder = format!("{word}/");
            let edit = format!("{owner}/must-fail/{label}.edit");
            let there = |file: &String| file.starts_with(&folder) || *file == edit;
            return !self.meant(word).is_empty() || self.files.keys().any(there);
        }
        let named = self.declared.values().any(|names| names.contains(word)) || self.crates().contains(word);
        let file = !self.meant(word).is_empty() || !self.meant(&format!("{word}.antt")).is_empty();
        named || file || (word.contains(|c: char| c == '_' || c.is_uppercase()) && self.host.contains(word))
    }
}

fn page() -> String {
    text(&root().join("docs/PROMISES.md"))
}

/// The page's part under a heading.
fn section<'a>(page: &'a str, heading: &str) -> &'a str {
    let start = page.find(&format!("\n## {heading}\n")).unwrap_or_else(|| panic!("PROMISES has no part `{heading}`"));
    let part = &page[start + 4..];
    part.find("\n## ").map_or(part, |end| &part[..end])
}

/// What stands in backticks, and before each the text between.
fn ticked(line: &str) -> Vec<(&str, &str)> {
    let parts: Vec<&str> = line.split('`').collect();
    parts.chunks_exact(2).map(|pair| (pair[0], pair[1])).collect()
}

fn words(line: &str) -> Vec<&str> {
    ticked(line).into_iter().map(|(_, word)| word).collect()
}

/// The rows of a part's tables, in cells, without their heads.
fn rows(part: &str) -> Vec<Vec<&str>> {
    let cells = |line: &str| !line.is_empty() && line.starts_with("| `");
    part.lines().filter(|line| cells(line)).map(|line| line.trim_matches('|').split(" | ").collect()).collect()
}

/// One line for each name that the page or the sources have alone.
fn differ(what: &str, page: &Names, sources: &Names, wrong: &mut Vec<String>) {
    wrong.extend(sources.difference(page).map(|name| format!("PROMISES, {what}: `{name}` is missing")));
    wrong.extend(page.difference(sources).map(|name| format!("PROMISES, {what}: `{name}` is not in the sources")));
}

fn told(wrong: &[String]) {
    assert!(wrong.is_empty(), "\n{}\n", wrong.join("\n"));
}

#[test]
fn public_functions_are_those_of_the_sources() {
    let (page, sources) = (page(), sources());
    let part = section(&page, "Every public function");
    let boundary = boundary();
    let (mut wrong, mut listed) = (Vec::new(), Names::new());
    for row in rows(part) {
        let owner = words(row[0])[0].to_string();
        if !boundary.contains_key(&owner) {
            let named = words(row[1]).into_iter().filter(|word| !word.contains("::")).map(String::from).collect();
            differ(&format!("public functions of `{owner}`"), &named, &sources.public(&owner), &mut wrong);
        }
        listed.insert(owner);
    }
    let helpers = part.split("\n\n").find(|text| text.starts_with("Helpers ")).expect("a list of helpers");
    let helpers = words(helpers.split(". ").next().unwrap()).into_iter().map(String::from).collect();
    let others =
        |name: &String| !listed.contains(name) && !boundary.contains_key(name) && !sources.public(name).is_empty();
    differ("helpers", &helpers, &sources.crates().into_iter().filter(others).collect(), &mut wrong);
    told(&wrong);
}

#[test]
fn exported_functions_are_those_of_the_sources() {
    let (page, sources) = (page(), sources());
    let (mut wrong, mut named) = (Vec::new(), Names::new());
    for row in
        rows(section(&page, "The static library")).into_iter().filter(|row| row[0].contains("`card_") && row.len() == 4)
    {
        let (functions, definitions, file) = (words(row[0]), words(row[1]), words(row[2])[0]);
        // a number needs no definition
        if !definitions.is_empty() && functions.len() != definitions.len() {
            wrong.push(format!("PROMISES, static library: as many definitions as functions beside `{}`", functions[0]));
        }
        for definition in definitions.into_iter().filter(|name| !sources.declares(file, name)) {
            wrong.push(format!("PROMISES, static library: `{definition}` is not in {file}"));
        }
        for function in functions {
            if !named.insert(function.to_string()) {
                wrong.push(format!("PROMISES, static library: `{function}` stands there twice"));
            }
        }
    }
    differ("static library", &named, &sources.behind("card_c", EXPORT), &mut wrong);
    told(&wrong);
}

#[test]
fn every_edit_is_named() {
    let (page, sources) = (page(), sources());
    let all: BTreeSet<&str> = page.lines().flat_map(words).collect();
    let edits = sources.files.keys().filter(|path| path.ends_with(".edit"));
    let short = |path: &String| path.replace("/must-fail/", "/").replace(".edit", "");
    let unnamed = edits.filter(|path| !all.contains(path.as_str()) && !all.contains(short(path).as_str()));
    told(&unnamed.map(|path| format!("PROMISES: the edit {path} is not named")).collect::<Vec<_>>());
}

/// A name as a declaration has it.
fn is_name(word: &str) -> bool {
    word.starts_with(char::is_alphabetic) && word.chars().all(|c| c.is_alphanumeric() || "_-'·".contains(c))
}

/// A text without what stands in its parentheses, up to one that closes nothing.
fn without_parentheses(text: &str) -> String {
    let (mut depth, mut out) = (0, String::new());
    for c in text.chars() {
        match c {
            '(' => depth += 1,
            ')' if depth == 0 => break,
            ')' => depth -= 1,
            _ if depth == 0 => out.push(c),
            _ => {}
        }
    }
    out.replace(" ,", ",")
}

/// Whether a list goes on behind this.
fn joins(between: &str) -> bool {
    matches!(between, ", " | " and ")
}

/// The names that a text begins with, as a list.
fn first_names(text: &str) -> Vec<String> {
    let text = without_parentheses(text);
    let list = ticked(&text).into_iter().enumerate().take_while(|(at, (before, _))| *at == 0 || joins(before));
    list.map(|(_, (_, word))| word).take_while(|word| is_name(word)).map(String::from).collect()
}

/// .. and those that it ends with; none where they stand behind a file, which has them.
fn last_names(text: &str) -> Vec<String> {
    let mut names = Vec::new();
    for (before, word) in ticked(&format!("{text}`")).into_iter().rev() {
        names.push(word.to_string());
        if !joins(before) {
            return if before == ": " || !is_name(word) { Vec::new() } else { names };
        }
    }
    Vec::new()
}

/// The names that a line holds to a file: behind it, or before it in parentheses or with `in`.
fn held(line: &str) -> Vec<(&str, Vec<String>)> {
    let mut found = Vec::new();
    for file in words(line).into_iter().filter(|word| word.ends_with(".antt")) {
        let at = file.as_ptr() as usize - line.as_ptr() as usize;
        let (before, after) = (&line[..at - 1], &line[at + file.len() + 1..]);
        if let Some(names) = after.strip_prefix(": `") {
            found.push((file, first_names(&format!("`{names}"))));
        } else if let Some(names) = before.strip_suffix("` (").or_else(|| before.strip_suffix("` in ")) {
            found.push((file, last_names(names)));
        }
    }
    found
}

/// The lines of a page that are no code, with their numbers.
fn lines(page: &str) -> Vec<(usize, &str)> {
    let (mut code, mut found) = (false, Vec::new());
    for (line, number) in page.lines().zip(1..) {
        code ^= line.starts_with("```");
        if !code && !line.starts_with("    ") {
            found.push((number, line));
        }
    }
    found
}

/// The names, files and items in backticks that are not in the sources.
fn strangers<'a>(line: &'a str, sources: &'a Sources) -> impl Iterator<Item = &'a str> {
    let item = |word: &str| !word.contains(' ') && (word.contains('/') || word.contains("::"));
    words(line).into_iter().filter(move |word| (is_name(word) || item(word)) && !sources.has(word))
}

#[test]
fn every_name_is_where_the_page_has_it() {
    let (page, sources) = (page(), sources());
    let mut wrong = Vec::new();
    for (number, line) in lines(&page) {
        let place = format!("PROMISES, line {number}");
        wrong.extend(strangers(line, sources).map(|word| format!("{place}: `{word}` is not in the sources")));
        for (file, names) in held(line) {
            let files = sources.meant(file);
            let missing = names.into_iter().filter(|name| !files.iter().any(|file| sources.declares(file, name)));
            wrong.extend(missing.map(|name| format!("{place}: `{name}` is not in {file}")));
        }
    }
    told(&wrong);
}

/// Words of these pages that are no names of the sources: of languages and tools, of the format, and examples.
const PLAIN: [&str; 11] =
    ["usize", "size_t", "std", "nonnull", "non_exhaustive", "clang", "memcpy", "memset", "PFT", "else2", "at-look"];

#[test]
fn names_of_the_other_pages_are_there() {
    let sources = sources();
    let mut wrong = Vec::new();
    for name in ["RULES", "DECISIONS", "DESIGN"] {
        let page = text(&root().join(format!("docs/{name}.md")));
        for (number, line) in lines(&page) {
            let missing = strangers(line, sources).filter(|word| !PLAIN.contains(word) && !root().join(word).exists());
            wrong.extend(missing.map(|word| format!("{name}, line {number}: `{word}` is not in the sources")));
        }
    }
    told(&wrong);
}
