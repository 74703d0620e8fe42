//! A list from text.

use std::fmt;
use std::net::Ipv6Addr;
use std::str::FromStr;

use kajakulm::{Address, InstanceRow, Link, RouteRow, Settings, StartFields, Target};

use crate::list::{Call, Event, List, Step, MOST_OCTETS};

/// A line that is not of the form, and why.
#[derive(Clone, Debug, PartialEq, Eq)]
pub struct Malformed {
    pub line: usize,
    pub why: String,
}

impl fmt::Display for Malformed {
    fn fmt(&self, formatter: &mut fmt::Formatter<'_>) -> fmt::Result {
        write!(formatter, "line {}: {}", self.line, self.why)
    }
}

/// Reads the text form; empty lines and lines that start with '#' are left out.
pub fn read(text: &str) -> Result<List, Malformed> {
    let mut list = List::new(
        Settings {
            receiving: [0; 16],
            sending: [0; 16],
        },
        0,
        0,
    );
    for (place, line) in text.lines().enumerate() {
        let line = line.trim();
        if line.is_empty() || line.starts_with('#') {
            continue;
        }
        read_line(&mut list, line).map_err(|why| Malformed {
            line: place + 1,
            why,
        })?;
    }
    Ok(list)
}

fn read_line(list: &mut List, line: &str) -> Result<(), String> {
    let mut words = Words::new(line);
    match words.name {
        "own" => {
            list.own.receiving = address(words.plain()?)?;
            list.own.sending = address(words.plain()?)?;
        }
        "tables" => {
            list.instances = number(words.plain()?)?;
            list.routes = number(words.plain()?)?;
        }
        _ => list.steps.push(step(&mut words)?),
    }
    words.end()
}

fn step(words: &mut Words) -> Result<Step, String> {
    match words.name {
        "clock" => Ok(Step::Clock(number(words.plain()?)?)),
        "seq" => Ok(Step::Seq(number(words.plain()?)?)),
        "tally" => Ok(Step::Tally(
            number(words.plain()?)?,
            number(words.plain()?)?,
        )),
        "row" => Ok(Step::Row(number(words.plain()?)?, Box::new(row(words)?))),
        "route" => Ok(Step::Route(
            number(words.plain()?)?,
            Box::new(route(words)?),
        )),
        "message" => Ok(Step::Call(Box::new(call(words, message)?))),
        "start" => Ok(Step::Call(Box::new(call(words, start)?))),
        other => Err(format!("'{other}' is not the name of a line")),
    }
}

/// The words of a line: its name, plain words, then NAME=VALUE in any order.
struct Words<'a> {
    name: &'a str,
    rest: Vec<&'a str>,
}

impl<'a> Words<'a> {
    fn new(line: &'a str) -> Self {
        let mut words = line.split_whitespace();
        let name = words.next().unwrap_or("");
        Words {
            name,
            rest: words.collect(),
        }
    }

    /// The next word that is not NAME=VALUE.
    fn plain(&mut self) -> Result<&'a str, String> {
        match self.rest.first() {
            Some(word) if !word.contains('=') => Ok(self.rest.remove(0)),
            _ => Err(format!("'{}' lacks a word", self.name)),
        }
    }

    fn value(&mut self, name: &str) -> Option<&'a str> {
        let is_named = |word: &&str| word.split_once('=').is_some_and(|(key, _)| key == name);
        let place = self.rest.iter().position(is_named)?;
        self.rest.remove(place).split_once('=').map(|pair| pair.1)
    }

    /// A number that is 0 if it is not there.
    fn number<T: FromStr + Default>(&mut self, name: &str) -> Result<T, String> {
        self.value(name)
            .map_or(Ok(T::default()), |text| number(text))
    }

    /// An address that is all zero if it is not there.
    fn address(&mut self, name: &str) -> Result<Address, String> {
        self.value(name).map_or(Ok([0; 16]), address)
    }

    fn end(&self) -> Result<(), String> {
        match self.rest.first() {
            None => Ok(()),
            Some(word) => Err(format!("'{word}' has no meaning in '{}'", self.name)),
        }
    }
}

fn number<T: FromStr>(text: &str) -> Result<T, String> {
    text.parse()
        .map_err(|_| format!("'{text}' is not a number that fits"))
}

fn address(text: &str) -> Result<Address, String> {
    match text.parse::<Ipv6Addr>() {
        Ok(address) => Ok(address.octets()),
        Err(_) => Err(format!("'{text}' is not an address")),
    }
}

fn target(text: &str) -> Result<Target, String> {
    let parts: Vec<&str> = text.split('/').collect();
    match parts[..] {
        [seq, plen, addr] => Ok(Target {
            seq: number(seq)?,
            plen: number(plen)?,
            addr: address(addr)?,
        }),
        _ => Err(format!("'{text}' is not SEQ/LENGTH/ADDRESS")),
    }
}

fn targets(text: Option<&str>) -> Result<Vec<Target>, String> {
    match text {
        None | Some("") => Ok(Vec::new()),
        Some(text) => text.split(',').map(target).collect(),
    }
}

fn octets(text: &str) -> Result<Vec<u8>, String> {
    let wrong = || format!("'{text}' is not a run of hexadecimal octets");
    if !text.len().is_multiple_of(2) || !text.bytes().all(|digit| digit.is_ascii_hexdigit()) {
        return Err(wrong());
    }
    let pairs = (0..text.len()).step_by(2);
    pairs
        .map(|place| u8::from_str_radix(&text[place..place + 2], 16).map_err(|_| wrong()))
        .collect()
}

fn row(words: &mut Words) -> Result<InstanceRow, String> {
    let given = targets(words.value("targets"))?;
    let mut targets = [Target::default(); 8];
    let places = targets.get_mut(..given.len());
    places
        .ok_or("more than 8 targets in a row")?
        .copy_from_slice(&given);
    Ok(InstanceRow {
        kind: words.number("kind")?,
        instance: words.number("instance")?,
        seq: words.number("seq")?,
        s: words.number("s")?,
        h: words.number("h")?,
        replied: words.number("replied")?,
        endless: words.number("endless")?,
        count: words.number("count")?,
        rank: words.number("rank")?,
        dodagid: words.address("dodagid")?,
        neighbour: words.address("neighbour")?,
        targets,
        deadline: words.number("deadline")?,
    })
}

fn route(words: &mut Words) -> Result<RouteRow, String> {
    Ok(RouteRow {
        kind: words.number("kind")?,
        instance: words.number("instance")?,
        seq: words.number("seq")?,
        endless: words.number("endless")?,
        source: words.address("source")?,
        destination: words.address("destination")?,
        next: words.address("next")?,
        deadline: words.number("deadline")?,
    })
}

fn size(words: &mut Words, name: &str) -> Result<usize, String> {
    words.value(name).map_or(Ok(MOST_OCTETS), number)
}

fn call(words: &mut Words, event: fn(&mut Words) -> Result<Event, String>) -> Result<Call, String> {
    let own = match (words.value("receiving"), words.value("sending")) {
        (None, None) => None,
        (Some(receiving), Some(sending)) => Some(Settings {
            receiving: address(receiving)?,
            sending: address(sending)?,
        }),
        _ => return Err("receiving and sending go together".to_string()),
    };
    Ok(Call {
        own,
        time: words.number("time")?,
        forward_size: size(words, "forward")?,
        reply_size: size(words, "reply")?,
        event: event(words)?,
    })
}

fn message(words: &mut Words) -> Result<Event, String> {
    let link = Link {
        neighbour: words.address("neighbour")?,
        upward: words.number("upward")?,
        downward: words.number("downward")?,
        increase: words.number("increase")?,
        group: words.number("group")?,
    };
    let octets = octets(words.value("octets").unwrap_or(""))?;
    Ok(Event::Message { octets, link })
}

fn start(words: &mut Words) -> Result<Event, String> {
    let fields = StartFields {
        instance: words.number("instance")?,
        h: words.number("h")?,
        compr: words.number("compr")?,
        l: words.number("l")?,
        limit: words.number("limit")?,
    };
    let targets = targets(words.value("targets"))?;
    Ok(Event::Start { fields, targets })
}
