//! docs/BENCHMARKS.md.

use std::fmt::Write;

use crate::cases::{Kind, KINDS, SIZES};
use crate::machine::{self, Machine};
use crate::measure::Point;
use crate::stack::Depth;

/// What was measured and how to read it.
const WORDS: &str = include_str!("../words.md");
/// What is known of the points over the aim.
const NOTES: &str = include_str!("../notes.md");

pub fn text(points: &[Point], stacks: &[Depth], machine: &Machine, archive: &str) -> String {
    [
        WORDS,
        "\n## Times\n\nns per call; growth is the time at 4,000 rows over that at 512.\n\n",
        &table(points),
        &over_aim(points),
        NOTES,
        &stack_and_size(stacks, archive),
        &machine_text(machine),
    ]
    .concat()
}

/// One point on one line.
pub fn line(point: &Point) -> String {
    format!(
        "{:24} {:5} rows  ours {:>10.1} ns  second's {:>10.1} ns  ratio {:.2}",
        point.kind.name(),
        point.rows,
        point.ours,
        point.second,
        point.ratio()
    )
}

fn of_kind(points: &[Point], kind: Kind) -> Vec<&Point> {
    points.iter().filter(|point| point.kind == kind).collect()
}

fn growth(points: &[&Point], time: impl Fn(&Point) -> f64) -> f64 {
    let at = |rows| {
        points
            .iter()
            .find(|point| point.rows == rows)
            .map(|point| time(point))
    };
    match (at(512), at(4000)) {
        (Some(few), Some(many)) => many / few,
        _ => f64::NAN,
    }
}

fn table(points: &[Point]) -> String {
    let sizes: Vec<String> = SIZES.iter().map(|rows| format!("{rows} rows")).collect();
    let mut text = format!("| Call | Program | {} | Growth |\n", sizes.join(" | "));
    text += "|---|---|--:|--:|--:|--:|--:|\n";
    for kind in KINDS {
        let points = of_kind(points, kind);
        let ours = times(&points, |point| point.ours);
        let second = times(&points, |point| point.second);
        let ratios: Vec<String> = points
            .iter()
            .map(|point| format!("{:.2}", point.ratio()))
            .collect();
        let _ = writeln!(text, "| {} | ours | {ours} |", kind.name());
        let _ = writeln!(text, "| | second's | {second} |");
        let _ = writeln!(text, "| | **ratio** | **{}** | |", ratios.join("** | **"));
    }
    text
}

/// The cells of one program's line.
fn times(points: &[&Point], time: impl Fn(&Point) -> f64) -> String {
    let mut cells: Vec<String> = points
        .iter()
        .map(|point| format!("{:.0}", time(point)))
        .collect();
    cells.push(format!("{:.1}", growth(points, time)));
    cells.join(" | ")
}

/// Which points miss the aim; nothing fails by it.
fn over_aim(points: &[Point]) -> String {
    let mut text =
        "\n## Against the aim\n\nThe aim: a ratio of at most 1.0 at every point, ".to_string();
    text += "and a growth of at most 9.\n\n";
    let late = points.iter().filter(|point| point.ratio() > 1.0);
    let late: Vec<String> = late
        .map(|point| {
            format!(
                "{} at {} rows ({:.2})",
                point.kind.name(),
                point.rows,
                point.ratio()
            )
        })
        .collect();
    let steep = KINDS.iter().filter_map(|&kind| {
        let growth = growth(&of_kind(points, kind), |point| point.ours);
        (growth > 9.0).then(|| format!("{} ({growth:.1})", kind.name()))
    });
    let steep: Vec<String> = steep.collect();
    let _ = writeln!(text, "- Ratio over 1.0: {}.", listed(&late));
    let _ = writeln!(text, "- Growth over 9: {}.", listed(&steep));
    text
}

fn listed(items: &[String]) -> String {
    match items.is_empty() {
        true => "none".to_string(),
        false => items.join(", "),
    }
}

fn stack_and_size(stacks: &[Depth], archive: &str) -> String {
    let size = match machine::text_size(archive) {
        Some(size) => size.to_string(),
        None => "unknown".to_string(),
    };
    format!(
        "\n## Stack and code\n\nDeepest stack of a call, in octets:\n\n{}\n\
         Code: {size} octets (.text of libkajakulm.a).\n",
        depths(stacks)
    )
}

pub fn depths(stacks: &[Depth]) -> String {
    let mut text = "| Rows in each table | Ours | Second's |\n|--:|--:|--:|\n".to_string();
    for depth in stacks {
        let _ = writeln!(
            text,
            "| {} | {} | {} |",
            depth.rows, depth.ours, depth.second
        );
    }
    text
}

fn machine_text(machine: &Machine) -> String {
    format!(
        "\n## The machine\n\n- Processor: {}\n- Kernel: {}\n- {}\n- {}\n",
        machine.processor, machine.kernel, machine.rustc, machine.rt
    )
}
