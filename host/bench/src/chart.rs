//! The page's chart: a bar for the card and one for each peer, work under work, each group of work on a scale of its own.

use crate::contest::{number, Line, PLAIN_C};
use std::fmt::Write;

/// Where the bars begin, how long the longest is, how high they are, and how wide all is.
const LEFT: usize = 330;
const LONGEST: f64 = 330.0;
const BAR: usize = 10;
const WIDTH: usize = 840;

fn escaped(text: &str) -> String {
    text.replace('&', "&amp;").replace('<', "&lt;")
}

/// A bar and what stands behind it.
fn bar(svg: &mut String, y: usize, length: f64, fill: &str, text: &str) {
    let after = LEFT as f64 + length + 5.0;
    let _ = writeln!(svg, r#"<rect x="{LEFT}" y="{y}" width="{length:.1}" height="{}" fill="{fill}"/>"#, BAR - 1);
    let _ = writeln!(svg, r#"<text x="{after:.1}" y="{}">{}</text>"#, y + 8, escaped(text));
}

/// One line's name and bars from y on; where the next begins.
fn bars(svg: &mut String, line: &Line, longest: f64, mut y: usize) -> usize {
    let (length, unit) = (|time: f64| (LONGEST * time / longest).max(1.0), line.unit);
    let name = escaped(&line.name);
    let _ = writeln!(svg, r#"<text x="{}" y="{}" text-anchor="end" font-size="10">{name}</text>"#, LEFT - 6, y + 8);
    bar(svg, y, length(line.card), "#1f3a5f", &format!("card {} {unit}", number(line.card)));
    for peer in &line.peers {
        y += BAR;
        let fill = if peer.name == PLAIN_C { "#7a9cc6" } else { "#cccccc" };
        let text = format!("{} {} {unit}, × {:.2}", peer.name, number(peer.time), peer.times);
        bar(svg, y, length(peer.time), fill, &text);
    }
    y + BAR + 5
}

/// The chart of the lines, under a title.
pub fn svg(title: &str, lines: &[Line]) -> String {
    let (mut body, mut y, mut group) = (String::new(), 44, "");
    for line in lines {
        if line.group != group {
            group = line.group;
            y += 8;
        }
        let of_group = lines.iter().filter(|l| l.group == group);
        let longest = of_group.flat_map(|l| l.peers.iter().map(|p| p.time).chain([l.card])).fold(0.0, f64::max);
        y = bars(&mut body, line, longest, y);
    }
    let size = format!(r#"width="{WIDTH}" height="{y}""#);
    let mut svg = format!(r#"<svg xmlns="http://www.w3.org/2000/svg" {size} font-family="sans-serif" font-size="9">"#);
    let title = escaped(title);
    let legend =
        "processor time of one operation, less is better; behind a peer, how many times its time the card takes; \
                  a scale for each group";
    let _ = writeln!(svg, "\n<rect {size} fill=\"#fff\"/>");
    let _ = writeln!(svg, r#"<text x="16" y="18" font-size="13" font-weight="bold">{title}</text>"#);
    let _ = writeln!(svg, r#"<text x="16" y="34" font-size="10">{legend}</text>"#);
    svg + &body + "</svg>\n"
}
