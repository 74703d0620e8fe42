//! The command line.

use std::fs;
use std::process::ExitCode;

use crate::generate;
use crate::list::List;
use crate::lockstep::{self, Seen};
use crate::node;
use crate::run::{self, Check, Failure, Totals};
use crate::sent;
use crate::text;

pub const USAGE: &str = "\
compare                       the fixed seeds, 250,000 calls
compare --seed S [--calls N]  lists of one seed until N calls are made (50,000)
compare --replay FILE         a list in the text form
compare --list SEED           print the list of one seed in the text form
compare --sent SEED COUNT     print so many messages that the proved node writes
";

/// The run without arguments: each seed with so many calls.
const FIXED_SEEDS: [u64; 5] = [1, 2, 3, 4, 5];
const CALLS: u64 = 50_000;
/// In so many calls all that is possible must have occurred.
const WHOLE: u64 = 200_000;

#[derive(Clone, Debug, PartialEq, Eq)]
enum Command {
    Fixed,
    Seed(u64, u64),
    Replay(String),
    List(u64),
    Sent(u64, usize),
}

pub fn main(arguments: &[String]) -> ExitCode {
    match parse(arguments) {
        Some(Command::Fixed) => runs(&FIXED_SEEDS, CALLS),
        Some(Command::Seed(seed, calls)) => runs(&[seed], calls),
        Some(Command::Replay(file)) => replay(&file),
        Some(Command::List(seed)) => {
            print!("{}", text::write(&generate::list(seed)));
            ExitCode::SUCCESS
        }
        Some(Command::Sent(seed, count)) => sent(seed, count),
        None => {
            eprint!("{USAGE}");
            ExitCode::from(2)
        }
    }
}

fn parse(arguments: &[String]) -> Option<Command> {
    let words: Vec<&str> = arguments.iter().map(String::as_str).collect();
    match words[..] {
        [] => Some(Command::Fixed),
        ["--seed", seed] => Some(Command::Seed(seed.parse().ok()?, CALLS)),
        ["--seed", seed, "--calls", calls] => {
            Some(Command::Seed(seed.parse().ok()?, calls.parse().ok()?))
        }
        ["--replay", file] => Some(Command::Replay(file.to_string())),
        ["--list", seed] => Some(Command::List(seed.parse().ok()?)),
        ["--sent", seed, count] => Some(Command::Sent(seed.parse().ok()?, count.parse().ok()?)),
        _ => None,
    }
}

fn runs(seeds: &[u64], calls: u64) -> ExitCode {
    let mut totals = Totals::default();
    for &seed in seeds {
        if let Err(failure) = run::run(seed, calls, &mut totals) {
            report(&failure);
            return ExitCode::FAILURE;
        }
    }
    println!("{}", totals.histogram);
    println!(
        "{} calls in {} lists: alike",
        totals.histogram.calls, totals.lists
    );
    println!(
        "more memory: {} fresh lists, {} calls struck out, {} calls again: alike",
        totals.fresh_lists, totals.struck, totals.again
    );
    let missing = totals.histogram.missing();
    let impossible = totals.histogram.impossible();
    for name in &missing {
        println!("not met: {name}");
    }
    for name in &impossible {
        println!("met, but not possible by 01: {name}");
    }
    let is_whole = missing.is_empty() || totals.histogram.calls < WHOLE;
    match is_whole && impossible.is_empty() {
        true => ExitCode::SUCCESS,
        false => ExitCode::FAILURE,
    }
}

/// Prints the failing list, shrunk, in the text form.
fn report(failure: &Failure) {
    eprintln!("list of seed {} differs; shrinking it", failure.seed);
    println!("# list of seed {}: {}", failure.seed, failure.difference);
    let least = failure.shrunk();
    println!("# shrunk: {}", least.difference);
    if let Check::MoreMemory(instances, routes) = least.check {
        println!("# with tables larger by {instances} and {routes} rows");
    }
    print!("{}", text::write(&least.list));
}

/// A message a line, in hexadecimal.
fn sent(seed: u64, count: usize) -> ExitCode {
    match sent::messages(seed, count) {
        Ok(messages) => {
            for message in messages {
                println!("{}", text::hexadecimal(&message));
            }
            ExitCode::SUCCESS
        }
        Err(difference) => {
            eprintln!("{difference}");
            ExitCode::FAILURE
        }
    }
}

fn replay(file: &str) -> ExitCode {
    let list = fs::read_to_string(file)
        .map_err(|error| error.to_string())
        .and_then(|text| text::read(&text).map_err(|malformed| malformed.to_string()));
    match list {
        Ok(list) => replay_list(&list),
        Err(why) => {
            eprintln!("{file}: {why}");
            ExitCode::from(2)
        }
    }
}

/// Each call's outcome, then demand 3 if the list starts with a fresh node.
fn replay_list(list: &List) -> ExitCode {
    let mut number = 0;
    let mut found = lockstep::run(list, node::proved, node::second, &mut |seen| {
        number += 1;
        println!("{number}: {}", outcome_line(seen));
    });
    if found.is_ok() && list.is_fresh() {
        found = [(0, 0), (1, 1), (70, 70)]
            .into_iter()
            .try_for_each(|more| run::check(list, Check::MoreMemory(more.0, more.1)));
    }
    match found {
        Ok(()) => {
            println!("alike");
            ExitCode::SUCCESS
        }
        Err(difference) => {
            println!("{difference}");
            ExitCode::FAILURE
        }
    }
}

fn outcome_line(seen: &Seen) -> String {
    let outcome = seen.outcome;
    format!(
        "time {} answer {} forward {} way {} reply {} way {} own number {}",
        seen.call.time,
        outcome.answer,
        outcome.forward_length,
        outcome.forward_way,
        outcome.reply_length,
        outcome.reply_way,
        outcome.seq
    )
}

#[cfg(test)]
mod tests {
    use super::*;

    fn parsed(line: &str) -> Option<Command> {
        let words: Vec<String> = line.split_whitespace().map(String::from).collect();
        parse(&words)
    }

    #[test]
    fn arguments() {
        assert_eq!(parsed(""), Some(Command::Fixed));
        assert_eq!(parsed("--seed 7"), Some(Command::Seed(7, CALLS)));
        assert_eq!(parsed("--seed 7 --calls 9"), Some(Command::Seed(7, 9)));
        assert_eq!(parsed("--list 8"), Some(Command::List(8)));
        assert_eq!(parsed("--sent 8 50"), Some(Command::Sent(8, 50)));
        assert_eq!(
            parsed("--replay list.txt"),
            Some(Command::Replay("list.txt".to_string()))
        );
        for line in ["--seed", "--seed x", "--calls 5", "list.txt", "--list -1"] {
            assert_eq!(parsed(line), None);
        }
    }
}
