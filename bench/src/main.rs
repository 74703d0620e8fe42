//! Measures the proved node beside the second program, and writes
//! docs/BENCHMARKS.md and docs/benchmarks.svg. Nothing here judges a time.

mod cases;
mod machine;
mod measure;
mod ours;
mod plot;
mod report;
mod rows;
mod second;
mod stack;
mod wire;

use std::path::PathBuf;
use std::{env, fs, process};

fn main() {
    let arguments: Vec<String> = env::args().skip(1).collect();
    let words: Vec<&str> = arguments.iter().map(String::as_str).collect();
    match words[..] {
        ["write", archive, folder] => write(archive, PathBuf::from(folder)),
        ["print", kind, rows] => print(kind, rows),
        ["stack"] => print!("{}", report::depths(&stack::deepest(&flat(cases::all())))),
        ["ours", kind, rows, calls] | ["second", kind, rows, calls] => {
            repeat(words[0] == "ours", kind, rows, calls)
        }
        _ => {
            eprintln!("bench write ARCHIVE FOLDER | print KIND ROWS | stack | ours|second KIND ROWS CALLS");
            process::exit(2);
        }
    }
}

/// The whole table, to FOLDER.
fn write(archive: &str, folder: PathBuf) {
    let cases = cases::all();
    let points: Vec<_> = cases.iter().map(|draws| measure::point(draws)).collect();
    let stacks = stack::deepest(&flat(cases));
    let text = report::text(&points, &stacks, &machine::describe(), archive);
    print!("{text}");
    fs::write(folder.join("BENCHMARKS.md"), text).expect("BENCHMARKS.md");
    fs::write(folder.join("benchmarks.svg"), plot::svg(&points)).expect("benchmarks.svg");
}

/// A part of the table: "all" is every kind, 0 every number of rows.
fn print(kind: &str, rows: &str) {
    let rows: usize = rows.parse().expect("ROWS");
    for draws in cases::all() {
        let case = &draws[0];
        if (kind == "all" || kind == case.kind.tag()) && (rows == 0 || rows == case.rows) {
            println!("{}", report::line(&measure::point(&draws)));
        }
    }
}

fn flat(draws: Vec<Vec<cases::Case>>) -> Vec<cases::Case> {
    draws.into_iter().flatten().collect()
}

/// One program alone, for a profiler.
fn repeat(is_ours: bool, kind: &str, rows: &str, calls: &str) {
    let rows: usize = rows.parse().expect("ROWS");
    let calls: usize = calls.parse().expect("CALLS");
    let case = flat(cases::all())
        .into_iter()
        .find(|case| case.kind.tag() == kind && case.rows == rows)
        .expect("no such case");
    match is_ours {
        true => measure::repeat(&mut ours::Ours::new(&case), calls),
        false => measure::repeat(&mut second::Second::new(&case), calls),
    }
}
