//! The list of the exported calls (`host/card/src/calls.rs`), and the declarations of `host/card.h` that are written from it.

use crate::{root, text};

/// The list, and the header that is written from it.
pub const LIST: &str = "host/card/src/calls.rs";
pub const HEADER: &str = "host/card.h";

/// A line of the header's code is no longer.
const WIDTH: usize = 100;

/// What a call takes at a place.
#[derive(Clone, PartialEq, Eq, Debug)]
pub enum Kind {
    /// A number of 32 bits.
    Number,
    /// A slice that is lent: whether it is written, and what it is made of, by its name in Rust.
    Slice(bool, String),
}

/// A call of the list. Its name is C's.
#[derive(Clone, PartialEq, Eq, Debug)]
pub struct Call {
    pub name: String,
    /// The lines of its comment.
    pub says: Vec<String>,
    pub arguments: Vec<(String, Kind)>,
    /// Whether it answers a length, and not a number of 32 bits.
    pub length: bool,
}

/// A type of the list in C: a record's name has its words apart there.
fn in_c(rust: &str) -> String {
    match rust {
        "u32" => String::from("uint32_t"),
        "u64" => String::from("uint64_t"),
        record => record.chars().fold(String::from("struct card"), |name, c| match c {
            'A'..='Z' => name + "_" + &c.to_lowercase().to_string(),
            _ => name + &c.to_string(),
        }),
    }
}

/// An argument of the list: `name`, `name: &[type]` or `name: &mut [type]`.
fn argument(text: &str) -> Result<(String, Kind), String> {
    let (name, kind) = match text.split_once(": ") {
        None => (text, Kind::Number),
        Some((name, lent)) => {
            let (written, of) = match lent.strip_prefix("&mut ") {
                Some(of) => (true, of),
                None => {
                    (false, lent.strip_prefix('&').ok_or_else(|| format!("{text} is neither a slice nor a number"))?)
                }
            };
            let of = of
                .strip_prefix('[')
                .and_then(|of| of.strip_suffix(']'))
                .ok_or_else(|| format!("{text} is no slice"))?;
            (name, Kind::Slice(written, of.to_string()))
        }
    };
    let word = !name.is_empty() && name.chars().all(|c| c.is_ascii_lowercase() || c == '_');
    if word {
        Ok((name.to_string(), kind))
    } else {
        Err(format!("{text} has no name"))
    }
}

/// The calls of a list, in its order. Each stands on a line of its own, below the lines of its comment.
pub fn of_list(list: &str) -> Result<Vec<Call>, String> {
    let (mut calls, mut says) = (Vec::<Call>::new(), Vec::new());
    for line in list.lines().map(str::trim) {
        if let Some(comment) = line.strip_prefix("/// ") {
            says.push(comment.to_string());
        } else if let Some(call) = line.strip_prefix("fn ") {
            let parts = call
                .strip_suffix(';')
                .and_then(|call| call.split_once('('))
                .and_then(|(name, rest)| Some((name, rest.rsplit_once(')')?)));
            let (name, (arguments, answer)) = parts.ok_or_else(|| format!("this is no call: {line}"))?;
            let length = match answer {
                "" => false,
                " -> usize" => true,
                other => return Err(format!("{name} answers{other}")),
            };
            let arguments = arguments.split(", ").filter(|a| !a.is_empty()).map(argument).collect::<Result<_, _>>();
            let call =
                Call { name: format!("card_{name}"), says: std::mem::take(&mut says), arguments: arguments?, length };
            if calls.iter().any(|c| c.name == call.name) {
                return Err(format!("{name} stands there twice"));
            }
            calls.push(call);
        } else if !line.starts_with("#[doc = ") {
            says.clear();
        }
    }
    Ok(calls)
}

impl Call {
    /// Its arguments in C: a slice is a pointer and then a length.
    fn in_c(&self) -> Vec<String> {
        let mut all = Vec::new();
        for (name, kind) in &self.arguments {
            match kind {
                Kind::Number => all.push(format!("uint32_t {name}")),
                Kind::Slice(written, of) => {
                    let lent = if *written { "" } else { "const " };
                    all.extend([format!("{lent}{} *{name}", in_c(of)), format!("card_len {name}_len")]);
                }
            }
        }
        if all.is_empty() {
            all.push(String::from("void"));
        }
        all
    }

    /// What begins its declaration.
    fn head(&self) -> String {
        format!("{} {}(", if self.length { "card_len" } else { "uint32_t" }, self.name)
    }

    /// Its comment and its declaration, as the header has them.
    pub fn declaration(&self) -> String {
        let mut out = String::new();
        if !self.says.is_empty() {
            out += &format!("/* {} */\n", self.says.join("\n   "));
        }
        let head = self.head();
        let (mut line, arguments) = (head.clone(), self.in_c());
        for (i, argument) in arguments.iter().enumerate() {
            let end = if i + 1 == arguments.len() { ");" } else { "," };
            let space = if i == 0 { "" } else { " " };
            if i > 0 && line.len() + space.len() + argument.len() + end.len() > WIDTH {
                out += &format!("{line}\n");
                line = format!("{:1$}", "", head.len());
            } else {
                line += space;
            }
            line += &format!("{argument}{end}");
        }
        out + &line + "\n"
    }
}

/// The header with every declaration written anew, and the comment just above it. A call that is new in the list needs its place:
/// a line `uint32_t card_name();` where it is to stand.
pub fn written(header: &str, calls: &[Call]) -> Result<String, String> {
    let mut out = header.to_string();
    for call in calls {
        let places: Vec<usize> = out.match_indices(&format!("\n{}", call.head())).map(|(at, _)| at + 1).collect();
        let at = match places[..] {
            [at] => at,
            _ => {
                return Err(format!(
                    "{} has {} places in the header: it needs one line `{});`",
                    call.name,
                    places.len(),
                    call.head()
                ))
            }
        };
        let end = at + out[at..].find(");\n").ok_or_else(|| format!("{} has no end", call.name))? + ");\n".len();
        let above = out[..at].strip_suffix("*/\n").and_then(|above| above.rfind("\n/*"));
        out.replace_range(above.map_or(at, |above| above + 1)..end, &call.declaration());
    }
    Ok(out)
}

/// The calls of the repository's list.
pub fn calls() -> Vec<Call> {
    of_list(&text(&root().join(LIST))).unwrap_or_else(|error| panic!("{LIST}: {error}"))
}
