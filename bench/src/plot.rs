//! docs/benchmarks.svg: one panel for each kind of call, log axes.

use std::fmt::Write;

use crate::cases::{Kind, KINDS, SIZES};
use crate::measure::Point;

const WIDTH: f64 = 300.0;
const HEIGHT: f64 = 260.0;
const COLUMNS: usize = 4;
const LEFT: f64 = 52.0;
const RIGHT: f64 = 14.0;
const TOP: f64 = 30.0;
const BOTTOM: f64 = 36.0;
/// Powers of ten at the ends of the time axis.
const LOW: i32 = 1;
const HIGH: i32 = 6;
const OURS: &str = "#0b6e4f";
const SECOND: &str = "#c0392b";

pub fn svg(points: &[Point]) -> String {
    let lines = (KINDS.len() + 1).div_ceil(COLUMNS);
    let (width, height) = (WIDTH * COLUMNS as f64, HEIGHT * lines as f64);
    let mut svg = format!(
        "<svg xmlns=\"http://www.w3.org/2000/svg\" width=\"{width}\" height=\"{height}\" \
         viewBox=\"0 0 {width} {height}\" font-family=\"sans-serif\" font-size=\"11\">\n\
         <rect width=\"100%\" height=\"100%\" fill=\"white\"/>\n"
    );
    for (place, kind) in KINDS.into_iter().enumerate() {
        let points: Vec<&Point> = points.iter().filter(|point| point.kind == kind).collect();
        panel(&mut svg, corner(place), kind, &points);
    }
    legend(&mut svg, corner(KINDS.len()));
    svg += "</svg>\n";
    svg
}

fn corner(place: usize) -> (f64, f64) {
    let (column, line) = (place % COLUMNS, place / COLUMNS);
    (WIDTH * column as f64, HEIGHT * line as f64)
}

/// Where a number of rows stands, in its panel.
fn x(rows: f64) -> f64 {
    let (low, high) = (0.8f64.ln(), 8000.0f64.ln());
    LEFT + (WIDTH - LEFT - RIGHT) * (rows.ln() - low) / (high - low)
}

/// Where a time in ns stands, in its panel.
fn y(time: f64) -> f64 {
    let part = (time.log10() - f64::from(LOW)) / f64::from(HIGH - LOW);
    TOP + (HEIGHT - TOP - BOTTOM) * (1.0 - part)
}

fn panel(svg: &mut String, (left, top): (f64, f64), kind: Kind, points: &[&Point]) {
    let _ = writeln!(svg, "<g transform=\"translate({left} {top})\">");
    text(
        svg,
        (LEFT, 18.0),
        "start",
        "black\" font-weight=\"bold",
        kind.name(),
    );
    axes(svg);
    let ours: Vec<_> = points
        .iter()
        .map(|point| (point.rows, point.ours))
        .collect();
    let second: Vec<_> = points
        .iter()
        .map(|point| (point.rows, point.second))
        .collect();
    curve(svg, &second, SECOND, "5 3");
    curve(svg, &ours, OURS, "none");
    for point in points {
        let at = (
            x(point.rows as f64) - 6.0,
            y(point.ours.max(point.second)) - 6.0,
        );
        text(svg, at, "end", "#444", &format!("{:.2}", point.ratio()));
    }
    *svg += "</g>\n";
}

fn axes(svg: &mut String) {
    let (low, high) = (y(10f64.powi(LOW)), y(10f64.powi(HIGH)));
    for power in LOW..=HIGH {
        let at = y(10f64.powi(power));
        line(svg, (LEFT, at), (WIDTH - RIGHT, at));
        text(
            svg,
            (LEFT - 5.0, at + 4.0),
            "end",
            "#444",
            time_label(power),
        );
    }
    for rows in SIZES {
        let at = x(rows as f64);
        line(svg, (at, low), (at, high));
        text(svg, (at, low + 14.0), "middle", "#444", &rows.to_string());
    }
    text(
        svg,
        ((LEFT + WIDTH - RIGHT) / 2.0, low + 28.0),
        "middle",
        "#444",
        "rows in each table",
    );
}

fn time_label(power: i32) -> &'static str {
    match power {
        1 => "10 ns",
        2 => "100 ns",
        3 => "1 µs",
        4 => "10 µs",
        5 => "100 µs",
        _ => "1 ms",
    }
}

fn line(svg: &mut String, from: (f64, f64), to: (f64, f64)) {
    let _ = writeln!(
        svg,
        "<line x1=\"{:.1}\" y1=\"{:.1}\" x2=\"{:.1}\" y2=\"{:.1}\" stroke=\"#ddd\"/>",
        from.0, from.1, to.0, to.1
    );
}

fn text(svg: &mut String, at: (f64, f64), anchor: &str, fill: &str, words: &str) {
    let _ = writeln!(
        svg,
        "<text x=\"{:.1}\" y=\"{:.1}\" text-anchor=\"{anchor}\" fill=\"{fill}\">{words}</text>",
        at.0, at.1
    );
}

fn curve(svg: &mut String, times: &[(usize, f64)], colour: &str, dashes: &str) {
    let at: Vec<String> = times
        .iter()
        .map(|&(rows, time)| format!("{:.1},{:.1}", x(rows as f64), y(time)))
        .collect();
    let _ = writeln!(
        svg,
        "<polyline points=\"{}\" fill=\"none\" stroke=\"{colour}\" stroke-width=\"2\" \
         stroke-dasharray=\"{dashes}\"/>",
        at.join(" ")
    );
    for &(rows, time) in times {
        let (x, y) = (x(rows as f64), y(time));
        let _ = writeln!(
            svg,
            "<circle cx=\"{x:.1}\" cy=\"{y:.1}\" r=\"3\" fill=\"{colour}\"/>"
        );
    }
}

fn legend(svg: &mut String, (left, top): (f64, f64)) {
    let _ = writeln!(svg, "<g transform=\"translate({left} {top})\">");
    text(
        svg,
        (LEFT, 18.0),
        "start",
        "black\" font-weight=\"bold",
        "ns per call over rows",
    );
    curve_key(svg, 60.0, OURS, "none", "ours (proved)");
    curve_key(svg, 85.0, SECOND, "5 3", "second program");
    text(
        svg,
        (LEFT, 115.0),
        "start",
        "#444",
        "number: ours over the second program's",
    );
    *svg += "</g>\n";
}

fn curve_key(svg: &mut String, at: f64, colour: &str, dashes: &str, words: &str) {
    let _ = writeln!(
        svg,
        "<line x1=\"{LEFT}\" y1=\"{at}\" x2=\"{}\" y2=\"{at}\" stroke=\"{colour}\" \
         stroke-width=\"2\" stroke-dasharray=\"{dashes}\"/>",
        LEFT + 40.0
    );
    text(svg, (LEFT + 50.0, at + 4.0), "start", "black", words);
}
