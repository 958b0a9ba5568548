//! Draws how flows of weights 1, 2 and 4 are served by fair ranks, as SVG to standard output. `host/plot.sh` writes it to `docs/fair.svg`.
//!
//! Time is what the line has sent, in cells. Each flow keeps four strips waiting; the one of weight 4 brings nothing for a while.
use card_host::{FairQueue, Flow, Length, Refusal, Tag, Weight};

const WEIGHTS: [u32; 3] = [1, 2, 4];
const STRIPS_WAITING: usize = 4;
/// The flow of weight 4 brings nothing from here to there.
const PAUSE: (u32, u32) = (9_000, 15_000);
const END: u32 = 24_000;

/// A run: for each flow the moments at which it began and ended to be served, with the cells served of it till then.
struct Run {
    served: [Vec<(u32, u32)>; 3],
    /// The moments at which the set of waiting flows changed.
    changes: [u32; 2],
}

/// Lengths between the shortest and the longest, the same in every run.
fn length(n: u32) -> Length {
    Length(1 + n.wrapping_mul(2_654_435_761) % 9216)
}

fn run() -> Result<Run, Refusal> {
    let mut queue = FairQueue::new(4, 3)?;
    let mut run = Run { served: [0; 3].map(|_| vec![(0, 0)]), changes: [0, 0] };
    let (mut now, mut brought, mut waiting) = (0, 0, [0; 3]);
    while now < END {
        for (flow, weight) in WEIGHTS.into_iter().enumerate() {
            let paused = weight == 4 && (PAUSE.0..PAUSE.1).contains(&now);
            while !paused && waiting[flow] < STRIPS_WAITING {
                brought += 1;
                // the tag says whose strip it is
                queue.push(Flow(flow as u32), Weight(weight), Tag(4 * brought + flow as u32), length(brought))?;
                waiting[flow] += 1;
                if now >= PAUSE.1 && run.changes[1] == 0 {
                    run.changes[1] = now;
                }
            }
        }
        let strip = queue.pop()?;
        let (flow, cells) = (strip.tag.0 as usize % 4, (strip.length.0 + 63) / 64);
        let before = run.served[flow][run.served[flow].len() - 1].1;
        run.served[flow].extend([(now, before), (now + cells, before + cells)]);
        now += cells;
        waiting[flow] -= 1;
        if waiting[flow] == 0 && run.changes[0] == 0 {
            run.changes[0] = now;
        }
    }
    Ok(run)
}

/// The cells served of a flow at a moment.
fn at(served: &[(u32, u32)], moment: u32) -> u32 {
    let next = served.partition_point(|(time, _)| *time < moment).min(served.len() - 1);
    let (time, cells) = served[next];
    let before = served[next.saturating_sub(1)].1;
    cells.saturating_sub(time.saturating_sub(moment)).max(before)
}

/// A place in the picture, in tenths.
fn x(time: u32) -> u32 {
    700 + time * 5400 / END
}
fn y(cells: u32) -> u32 {
    3700 - cells * 3400 / 14_000
}
fn tenths(n: u32) -> String {
    format!("{}.{}", n / 10, n % 10)
}
fn point((time, cells): (u32, u32)) -> String {
    format!("{},{}", tenths(x(time)), tenths(y(cells)))
}
fn line(points: &[(u32, u32)], style: &str) {
    let points: Vec<String> = points.iter().map(|p| point(*p)).collect();
    println!("<polyline fill=\"none\" {style} points=\"{}\"/>", points.join(" "));
}
fn word(x: u32, y: u32, style: &str, text: &str) {
    println!("<text x=\"{}\" y=\"{}\" {style}>{text}</text>", tenths(x), tenths(y));
}

fn frame() {
    for step in 0..=6 {
        let (time, cells) = (4000 * step, 2000 * step);
        word(x(time), 3880, "text-anchor=\"middle\"", &time.to_string());
        word(630, y(cells) + 40, "text-anchor=\"end\"", &cells.to_string());
        line(&[(0, cells), (END, cells)], "stroke=\"#ddd\"");
    }
    line(&[(0, 14_000), (0, 0), (END, 0)], "stroke=\"#000\"");
    word(x(END / 2), 4080, "text-anchor=\"middle\"", "cells sent by the line");
    word(700, 210, "", "cells served, by flow");
}

fn main() -> Result<(), Refusal> {
    let Run { served, changes } = run()?;
    println!("<svg xmlns=\"http://www.w3.org/2000/svg\" viewBox=\"0 0 760 420\" font-family=\"sans-serif\" font-size=\"12\">");
    println!("<title>Cells served by flow, for weights 1, 2 and 4</title>");
    println!("<rect width=\"760\" height=\"420\" fill=\"#fff\"/>");
    frame();
    for change in changes {
        line(&[(change, 0), (change, 13_000)], "stroke=\"#888\" stroke-dasharray=\"2 3\"");
    }
    let middle = x((changes[0] + changes[1]) / 2);
    word(middle, y(12_500), "text-anchor=\"middle\" fill=\"#555\"", "no strip of weight 4");
    for (flow, weight) in WEIGHTS.into_iter().enumerate() {
        // beside it the share of its weight among those that wait
        for (from, to, others) in [(0, changes[0], 7), (changes[0], changes[1], 3), (changes[1], END, 7)] {
            if weight == 4 && others == 3 {
                continue;
            }
            let start = at(&served[flow], from);
            let share = [(from, start), (to, start + (to - from) * weight / others)];
            line(&share, "stroke=\"#888\" stroke-width=\"3\" stroke-opacity=\"0.4\"");
        }
        let colour = ["#0a6", "#06c", "#c33"][flow];
        line(&served[flow], &format!("stroke=\"{colour}\" stroke-width=\"1.3\""));
        let (_, cells) = served[flow][served[flow].len() - 1];
        word(6180, y(cells) + 40, &format!("fill=\"{colour}\""), &format!("weight {weight}: {cells}"));
    }
    println!("</svg>");
    Ok(())
}
