//! Runs recorded lists of calls from standard input and prints after each call
//! what it came to, and the tally at the end of each list.
//!
//! A record is a line: a letter that says its kind, four hexadecimal digits
//! that count its octets, and the octets in hexadecimal, numbers with their
//! most significant octet first. The kinds: n a fresh node, m a message, s a
//! start, a b c d r t k what a host hands in, e the end of a list.
//! `../traces/README.md` has the octets of each, and what is printed.

use std::fmt::Write as _;
use std::io::{self, Read, Write};
use std::process::ExitCode;

use reference::node::MAX_MESSAGE;
use reference::table::{Row, MAX_TARGETS, REQUEST};
use reference::{
    receive, start, Address, Buffers, Destination, InstanceRow, Outcome, Received, RouteRow,
    Settings, Start, State, Tally, Target,
};

/// Longer than any buffer of a list.
const MEMORY: usize = 2048;

fn main() -> ExitCode {
    let mut input = String::new();
    if io::stdin().lock().read_to_string(&mut input).is_err() {
        return ExitCode::FAILURE;
    }
    let mut output = String::new();
    let end = run(&input, &mut output);
    if io::stdout().write_all(output.as_bytes()).is_err() {
        return ExitCode::FAILURE;
    }
    match end {
        Ok(()) => ExitCode::SUCCESS,
        Err(why) => {
            eprintln!("traces: {why}");
            ExitCode::FAILURE
        }
    }
}

fn run(input: &str, output: &mut String) -> Result<(), String> {
    let mut host: Option<Host> = None;
    let mut lists = 0;
    for (place, line) in input.lines().enumerate() {
        let wrong = |why| format!("line {}: {why}", place + 1);
        let (kind, octets) = record(line).ok_or(wrong("not a record"))?;
        let mut octets = Octets(&octets);
        if kind == 'n' {
            lists += 1;
            say(output, format_args!("list {lists}\n"));
            host = Some(Host::new(&mut octets).ok_or(wrong("too short"))?);
            continue;
        }
        let present = host.as_mut().ok_or(wrong("no node"))?;
        present
            .take(kind, &mut octets, output)
            .ok_or(wrong("too short, or of no kind"))?;
        if kind == 'e' {
            host = None;
        }
    }
    host.map_or(Ok(()), |_| Err("a list has no end".to_string()))
}

/// Writing to a string does not fail.
fn say(output: &mut String, text: std::fmt::Arguments) {
    let _ = output.write_fmt(text);
}

fn record(line: &str) -> Option<(char, Vec<u8>)> {
    let digits = line.get(5..)?;
    if !line[1..].bytes().all(|digit| digit.is_ascii_hexdigit()) {
        return None;
    }
    let pairs = (0..digits.len()).step_by(2);
    let octets: Option<Vec<u8>> = pairs
        .map(|place| u8::from_str_radix(digits.get(place..place + 2)?, 16).ok())
        .collect();
    let octets = octets?;
    let count = usize::from_str_radix(&line[1..5], 16).ok()?;
    (count == octets.len()).then_some((line.chars().next()?, octets))
}

/// What is left of a record's octets.
struct Octets<'a>(&'a [u8]);

impl Octets<'_> {
    fn array<const N: usize>(&mut self) -> Option<[u8; N]> {
        let (head, rest) = self.0.split_at_checked(N)?;
        self.0 = rest;
        head.try_into().ok()
    }

    fn octet(&mut self) -> Option<u8> {
        self.array().map(u8::from_be_bytes)
    }

    fn pair(&mut self) -> Option<u16> {
        self.array().map(u16::from_be_bytes)
    }

    fn size(&mut self) -> Option<usize> {
        self.pair().map(usize::from)
    }

    fn eight(&mut self) -> Option<u64> {
        self.array().map(u64::from_be_bytes)
    }

    fn settings(&mut self) -> Option<Settings> {
        Some(Settings {
            receiving: self.array()?,
            sending: self.array()?,
        })
    }

    fn target(&mut self) -> Option<Target> {
        Some(Target {
            seq: self.octet()?,
            prefix_length: self.octet()?,
            address: self.array()?,
        })
    }

    fn targets(&mut self) -> Option<[Target; MAX_TARGETS]> {
        let mut targets = [Target::default(); MAX_TARGETS];
        for target in &mut targets {
            *target = self.target()?;
        }
        Some(targets)
    }

    fn row(&mut self) -> Option<InstanceRow> {
        let [kind, instance, seq, s, h, replied, endless, count] = self.array()?;
        Some(InstanceRow {
            kind,
            instance,
            seq,
            s,
            h,
            replied,
            endless,
            count,
            rank: self.pair()?,
            dodagid: self.array()?,
            neighbour: self.array()?,
            deadline: self.eight()?,
            targets: self.targets()?,
        })
    }

    fn route(&mut self) -> Option<RouteRow> {
        let [used, instance, seq, endless] = self.array()?;
        Some(RouteRow {
            used,
            instance,
            seq,
            endless,
            source: self.array()?,
            destination: self.array()?,
            next_hop: self.array()?,
            deadline: self.eight()?,
        })
    }
}

/// A node with its memory.
struct Host {
    settings: Settings,
    clock: u64,
    own_seq: u8,
    instances: Vec<InstanceRow>,
    routes: Vec<RouteRow>,
    forward: Vec<u8>,
    reply: Vec<u8>,
    forward_size: usize,
    reply_size: usize,
    tally: Tally,
    calls: u32,
}

impl Host {
    /// Clock 0, own number 240, no row in use.
    fn new(octets: &mut Octets) -> Option<Self> {
        Some(Host {
            settings: octets.settings()?,
            clock: 0,
            own_seq: 240,
            instances: vec![InstanceRow::default(); octets.size()?],
            routes: vec![RouteRow::default(); octets.size()?],
            forward: vec![0; MEMORY],
            reply: vec![0; MEMORY],
            forward_size: MAX_MESSAGE,
            reply_size: MAX_MESSAGE,
            tally: Tally::default(),
            calls: 0,
        })
    }

    fn take(&mut self, kind: char, octets: &mut Octets, output: &mut String) -> Option<()> {
        match kind {
            'm' => {
                let outcome = self.message(octets)?;
                self.tell(&outcome, output);
            }
            's' => {
                let outcome = self.start(octets)?;
                self.tell(&outcome, output);
            }
            'a' => self.settings = octets.settings()?,
            'b' => (self.forward_size, self.reply_size) = (octets.size()?, octets.size()?),
            'c' => self.clock = octets.eight()?,
            'd' => self.own_seq = octets.octet()?,
            'r' => {
                let row = self.instances.get_mut(octets.size()?)?;
                *row = octets.row()?;
            }
            't' => {
                let route = self.routes.get_mut(octets.size()?)?;
                *route = octets.route()?;
            }
            'k' => {
                let count = self.tally.counts.get_mut(usize::from(octets.octet()?))?;
                *count = octets.array().map(u32::from_be_bytes)?;
            }
            'e' => say(
                output,
                format_args!("tally{}\n", numbers(&self.tally.counts)),
            ),
            _ => return None,
        }
        Some(())
    }

    fn message(&mut self, octets: &mut Octets) -> Option<Outcome> {
        let time = octets.eight()?;
        let received = Received {
            neighbour: octets.array()?,
            upward_good: octets.octet()? != 0,
            downward_good: octets.octet()? != 0,
            rank_increase: octets.pair()?,
            to_group: octets.octet()? != 0,
            octets: octets.0,
        };
        self.call(|settings, state, buffers, tally| {
            receive(settings, time, &received, state, buffers, tally)
        })
    }

    fn start(&mut self, octets: &mut Octets) -> Option<Outcome> {
        let time = octets.eight()?;
        let [instance, h, compr, l, rank_limit] = octets.array()?;
        let mut targets = Vec::new();
        while !octets.0.is_empty() {
            targets.push(octets.target()?);
        }
        let fields = Start {
            instance,
            h,
            compr,
            l,
            rank_limit,
            targets: &targets,
        };
        self.call(|settings, state, buffers, tally| {
            start(settings, time, &fields, state, buffers, tally)
        })
    }

    fn call(
        &mut self,
        event: impl FnOnce(&Settings, &mut State, &mut Buffers, &mut Tally) -> Outcome,
    ) -> Option<Outcome> {
        let mut state = State {
            clock: &mut self.clock,
            own_seq: &mut self.own_seq,
            instances: &mut self.instances,
            routes: &mut self.routes,
        };
        let mut buffers = Buffers {
            forward: self.forward.get_mut(..self.forward_size)?,
            reply: self.reply.get_mut(..self.reply_size)?,
        };
        self.calls += 1;
        Some(event(
            &self.settings,
            &mut state,
            &mut buffers,
            &mut self.tally,
        ))
    }

    /// A call's outcome, the octets that it wrote, and the rows that are live
    /// by the clock as it left it.
    fn tell(&self, outcome: &Outcome, output: &mut String) {
        say(output, format_args!("call {}", self.calls));
        say(output, format_args!(" answer {}", outcome.answer));
        let sent = [
            ("forward", outcome.forward_length, &outcome.forward_to),
            ("reply", outcome.reply_length, &outcome.reply_to),
        ];
        for (name, length, to) in sent {
            say(output, format_args!(" {name} {length} {}", way(to)));
        }
        say(output, format_args!(" clock {}", self.clock));
        say(output, format_args!(" number {}\n", self.own_seq));
        for ((name, length, _), buffer) in sent.iter().zip([&self.forward, &self.reply]) {
            if *length > 0 {
                say(output, format_args!("{name} {}\n", hex(&buffer[..*length])));
            }
        }
        for (number, row) in self.instances.iter().enumerate() {
            if row.is_live(self.clock) {
                say(output, format_args!("row {number} {}\n", row_words(row)));
            }
        }
        for (number, route) in self.routes.iter().enumerate() {
            if route.is_live(self.clock) {
                say(
                    output,
                    format_args!("route {number} {}\n", route_words(route)),
                );
            }
        }
    }
}

fn numbers(counts: &[u32]) -> String {
    counts.iter().map(|count| format!(" {count}")).collect()
}

fn hex(octets: &[u8]) -> String {
    octets.iter().map(|octet| format!("{octet:02x}")).collect()
}

fn way(to: &Destination) -> String {
    match to {
        Destination::Nowhere => "nowhere".to_string(),
        Destination::Group => "group".to_string(),
        Destination::Neighbour(address) => hex(address),
        Destination::Caller => "caller".to_string(),
    }
}

fn until(endless: u8, deadline: u64) -> String {
    match endless {
        0 => deadline.to_string(),
        _ => "endless".to_string(),
    }
}

/// The fields that 01 names for the row's kind.
fn row_words(row: &InstanceRow) -> String {
    let key = format!("{} {} {}", row.instance, hex(&row.dodagid), row.seq);
    let until = until(row.endless, row.deadline);
    if row.kind != REQUEST {
        return format!("reply {key} {} {until}", row.rank);
    }
    let flag = |value| u8::from(value != 0);
    let neighbour: &Address = &row.neighbour;
    let mut words = format!(
        "request {key} {} {} {} {} {} {until} {}",
        flag(row.s),
        flag(row.h),
        row.rank,
        hex(neighbour),
        flag(row.replied),
        row.count
    );
    for target in row.own_targets() {
        let address = hex(&target.address);
        words += &format!(" {}/{}/{address}", target.seq, target.prefix_length);
    }
    words
}

fn route_words(route: &RouteRow) -> String {
    format!(
        "{} {} {} {} {} {}",
        hex(&route.source),
        hex(&route.destination),
        route.instance,
        hex(&route.next_hop),
        route.seq,
        until(route.endless, route.deadline)
    )
}

#[cfg(test)]
mod tests {
    use super::*;

    const NODE: &str =
        "n0024fd000000000000000000000000000002fd00000000000000000000000000000200040004\n";
    /// 01's whole example.
    const WHOLE: &str = "m004e0000000000000000fe8000000000000000000000000000050101010001\
        8100030020000000fd0000000000000000000000000000010b03c087f0\
        0d120000fd000000000000000000000000000009\n";

    fn ran(input: &str) -> (String, Result<(), String>) {
        let mut output = String::new();
        let end = run(input, &mut output);
        (output, end)
    }

    #[test]
    fn whole_example() {
        let (output, end) = ran(&format!("{NODE}{WHOLE}e0000\n"));
        assert_eq!(end, Ok(()));
        let lines: Vec<&str> = output.lines().collect();
        assert_eq!(lines.len(), 6);
        assert_eq!(
            lines[1],
            "call 1 answer 0 forward 49 group reply 0 nowhere clock 0 number 240"
        );
        assert!(lines[2].starts_with("forward 8100040020000000fd"));
        assert!(lines[3].starts_with("row 0 request 129 fd"));
        assert!(lines[3].contains(" 240 1 1 1024 fe80"));
        assert!(lines[4].starts_with("route 0 fd"));
        assert_eq!(lines[5], format!("tally 1{}", " 0".repeat(17)));
    }

    #[test]
    fn what_is_handed_in() {
        let own = &NODE[5..69];
        let route = format!("t003e000301050701{}", "00".repeat(56));
        let input = format!(
            "{NODE}a0020{own}\nb000404d304d4\nc00080000000000000007\nd000105\n{route}\n{WHOLE}e0000\n"
        );
        let (output, end) = ran(&input);
        assert_eq!(end, Ok(()));
        // A forward buffer of 1,235 octets, and a time before the clock.
        assert!(
            output.contains("call 1 answer 1 forward 0 nowhere reply 0 nowhere clock 7 number 5")
        );
        assert!(output.contains("route 3 "));
    }

    #[test]
    fn wrong_lines() {
        for line in [
            "",
            "m",
            "e0001",
            "e000000",
            "e00g0",
            "x0000",
            "c0001ff",
            "m0001\u{e4}",
        ] {
            assert!(ran(&format!("{NODE}{line}\n")).1.is_err(), "{line}");
        }
        assert!(ran("e0000\n").1.is_err());
        assert!(ran(NODE).1.is_err());
    }
}
