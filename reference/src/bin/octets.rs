//! Reads records (two octets of length, big-endian, then the octets) from
//! standard input and prints for each what `wire::read` says of it.

use std::fmt::Write as _;
use std::io::{self, BufWriter, Read, Write};

use reference::wire::{self, Kind, Message};

fn main() -> io::Result<()> {
    let mut input = Vec::new();
    io::stdin().lock().read_to_end(&mut input)?;
    let mut output = BufWriter::new(io::stdout().lock());
    for (index, octets) in records(&input).enumerate() {
        writeln!(output, "{}", line(index + 1, octets))?;
    }
    output.flush()
}

/// The records of a run; one that is cut by the end of the input ends it.
fn records(mut input: &[u8]) -> impl Iterator<Item = &[u8]> {
    std::iter::from_fn(move || {
        let [high, low, rest @ ..] = input else {
            return None;
        };
        let length = usize::from(u16::from_be_bytes([*high, *low]));
        let (record, rest) = rest.split_at_checked(length)?;
        input = rest;
        Some(record)
    })
}

fn line(number: usize, octets: &[u8]) -> String {
    match wire::read(octets) {
        Err(answer) => format!("{number} {answer}"),
        Ok(message) => format!("{number} 0 {}", fields(&message)),
    }
}

fn fields(message: &Message) -> String {
    let base = &message.base;
    let mut text = format!(
        "{} {} {} {} {} {} {} {} {} {} {} {} {} {} {}",
        match message.kind {
            Kind::Rreq => "rreq",
            Kind::Rrep => "rrep",
        },
        base.instance,
        base.version,
        base.rank,
        u8::from(base.g),
        base.prf,
        hex(&base.dodagid),
        message
            .configuration
            .map_or("-".to_string(), |configuration| hex(&configuration.octets)),
        u8::from(message.flag),
        u8::from(message.h),
        message.compr,
        message.l,
        message.rank_limit,
        message.number,
        message.vector.len(),
    );
    for address in message.vector.iter() {
        let _ = write!(text, " {}", hex(address));
    }
    let _ = write!(text, " {}", message.targets.len());
    for target in message.targets.iter() {
        let address = hex(&target.address);
        let _ = write!(text, " {}/{}/{address}", target.seq, target.prefix_length);
    }
    text
}

fn hex(octets: &[u8]) -> String {
    octets.iter().map(|octet| format!("{octet:02x}")).collect()
}

#[cfg(test)]
mod tests {
    use super::*;

    #[test]
    fn cut_records_end_the_run() {
        let all: Vec<&[u8]> = records(&[0, 1, 7, 0, 0, 0, 2, 8]).collect();
        assert_eq!(all, [&[7][..], &[][..]]);
        assert_eq!(records(&[0]).count(), 0);
        assert_eq!(records(&[]).count(), 0);
    }

    #[test]
    fn lines() {
        let mut octets = vec![0x81, 9, 3, 0, 0xa5, 1, 2, 3];
        octets.extend([0xfd; 16]);
        octets.extend([0x0b, 5, 0x9c, 0x85, 240, 1, 2]);
        octets.extend([0x0d, 5, 0xf1, 0x94, 0x20, 0x01, 0xdf]);
        assert_eq!(
            line(3, &octets),
            "3 0 rreq 129 9 768 1 5 fdfdfdfdfdfdfdfdfdfdfdfdfdfdfdfd - 1 0 14 1 5 240 \
             1 fdfdfdfdfdfdfdfdfdfdfdfdfdfd0102 1 241/20/2001d000000000000000000000000000"
        );
        octets.extend([4, 14, 0, 1, 2, 3, 4, 5, 6, 7, 8, 9, 10, 11, 12, 0x1d]);
        octets[24] = 0x0c;
        assert_eq!(line(4, &octets), "4 3");
        octets[24] = 0x0b;
        assert!(line(4, &octets).contains(" 000102030405060708090a0b0c1d "));
        octets[4] = 0;
        assert_eq!(line(5, &octets), "5 4");
    }
}
