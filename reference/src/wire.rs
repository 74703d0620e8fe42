//! The octets on the air: the DIO base, the Configuration, RREQ, RREP and ART.

use core::num::NonZeroU16;

use crate::address::{self, Address};
use crate::list::List;
use crate::rank;
use crate::table::{Target, Targets, MAX_PREFIX_LENGTH};

/// The refusals that depend on the octets alone.
pub const MALFORMED: u8 = 3;
pub const WRONG_COUNTS: u8 = 4;
pub const UNFIT_DODAGID: u8 = 5;
pub const TOO_MANY: u8 = 6;

pub const MAX_VECTOR: usize = 16;
/// An option's body has at most 255 octets, three of them before the vector.
pub const MAX_VECTOR_OCTETS: usize = 252;

const BASE_LENGTH: usize = 24;
const MOP: u8 = 4;

const PAD1: u8 = 0x00;
const CONFIGURATION: u8 = 0x04;
const RREQ: u8 = 0x0b;
const RREP: u8 = 0x0c;
const ART: u8 = 0x0d;

const CONFIGURATION_LENGTH: usize = 14;

pub type Vector = List<Address, MAX_VECTOR>;

#[derive(Clone, Copy, Debug, PartialEq, Eq)]
pub enum Kind {
    Rreq,
    Rrep,
}

/// The DIO base, without what is always sent as 0 and without MOP, always 4.
#[derive(Clone, Copy, Debug, PartialEq, Eq)]
pub struct Base {
    pub instance: u8,
    pub version: u8,
    pub rank: u16,
    pub g: bool,
    pub prf: u8,
    pub dodagid: Address,
}

/// The body of a DODAG Configuration option.
#[derive(Clone, Copy, Debug, PartialEq, Eq)]
pub struct Configuration {
    pub octets: [u8; CONFIGURATION_LENGTH],
}

impl Configuration {
    /// MinHopRankIncrease, "body octets 6 and 7, from 0".
    pub fn min_hop_rank_increase(&self) -> u16 {
        u16::from_be_bytes([self.octets[6], self.octets[7]])
    }

    pub fn default_lifetime(&self) -> u8 {
        self.octets[11]
    }

    pub fn lifetime_unit(&self) -> u16 {
        u16::from_be_bytes([self.octets[12], self.octets[13]])
    }
}

/// A request or a reply.
#[derive(Clone, Copy, Debug, PartialEq, Eq)]
pub struct Message {
    pub kind: Kind,
    pub base: Base,
    pub configuration: Option<Configuration>,
    /// S of an RREQ, G of an RREP.
    pub flag: bool,
    pub h: bool,
    /// 0 when H is 1.
    pub compr: u8,
    pub l: u8,
    pub rank_limit: u8,
    /// Orig SeqNo of an RREQ, Delta of an RREP.
    pub number: u8,
    /// Whole addresses: the elided octets are restored.
    pub vector: Vector,
    /// Without repeats and with spare bits zero; of a reply exactly one.
    pub targets: Targets,
}

impl Message {
    /// "Without it: 256 and endless."
    pub fn min_hop_rank_increase(&self) -> NonZeroU16 {
        self.configuration
            .and_then(|configuration| NonZeroU16::new(configuration.min_hop_rank_increase()))
            .unwrap_or(rank::DEFAULT_MIN_HOP_RANK_INCREASE)
    }

    /// How long a route lasts in ms; `None`: endless. "A route lasts Default
    /// Lifetime times Lifetime Unit seconds; Default Lifetime 255 is endless."
    pub fn route_lifetime(&self) -> Option<u64> {
        let configuration = self.configuration?;
        match configuration.default_lifetime() {
            255 => None,
            lifetime => Some(1000 * u64::from(lifetime) * u64::from(configuration.lifetime_unit())),
        }
    }

    /// How long an instance row lasts in ms; `None`: no limit.
    pub fn instance_lifetime(&self) -> Option<u64> {
        instance_lifetime(self.l)
    }
}

/// "L is 0 none, 1 16 s, 2 64 s, 3 256 s."
pub fn instance_lifetime(l: u8) -> Option<u64> {
    match l & 3 {
        0 => None,
        1 => Some(16_000),
        2 => Some(64_000),
        _ => Some(256_000),
    }
}

/// The body of an RREQ or an RREP; both have the same form.
struct RouteOption<'a> {
    flag: bool,
    h: bool,
    compr: u8,
    l: u8,
    rank_limit: u8,
    third: u8,
    vector: &'a [u8],
}

impl<'a> RouteOption<'a> {
    fn read(body: &'a [u8]) -> Result<Self, u8> {
        // "an RREQ or RREP body under 3 octets" is 3.
        let [first, second, third, vector @ ..] = body else {
            return Err(MALFORMED);
        };
        let h = first & 0x40 != 0;
        let option = RouteOption {
            flag: first & 0x80 != 0,
            h,
            compr: if h { 0 } else { first >> 1 & 0x0f },
            l: (first & 1) << 1 | second >> 7,
            rank_limit: second & 0x7f,
            third: *third,
            vector,
        };
        // "With H 1 there is no vector (else 3)"; "A vector that isn't a whole
        // number of addresses" is 3.
        if h && !vector.is_empty() || vector.len() % option.address_length() != 0 {
            return Err(MALFORMED);
        }
        Ok(option)
    }

    fn address_length(&self) -> usize {
        16 - usize::from(self.compr)
    }

    /// "Vector addresses drop their first Compr octets, shared with the DODAGID."
    fn restore(&self, dodagid: &Address) -> Result<Vector, u8> {
        let mut restored = Vector::new();
        for octets in self.vector.chunks_exact(self.address_length()) {
            let mut address = *dodagid;
            address[usize::from(self.compr)..].copy_from_slice(octets);
            if !restored.push(address) {
                return Err(TOO_MANY);
            }
        }
        Ok(restored)
    }
}

/// "Length 0 means a whole 16-octet address; else Ceil(length/8) octets".
fn target_octets(prefix_length: u8) -> usize {
    match prefix_length {
        0 => 16,
        length => usize::from(length).div_ceil(8),
    }
}

fn read_target(body: &[u8]) -> Result<Target, u8> {
    let [seq, second, octets @ ..] = body else {
        return Err(MALFORMED);
    };
    let prefix_length = second & 0x7f;
    if octets.len() != target_octets(prefix_length) {
        return Err(MALFORMED);
    }
    let mut address = address::ALL_ZERO;
    address[..octets.len()].copy_from_slice(octets);
    Ok(Target {
        seq: *seq,
        prefix_length,
        address: address::without_spare_bits(&address, prefix_length),
    })
}

fn read_configuration(body: &[u8]) -> Result<Configuration, u8> {
    let octets = body.try_into().map_err(|_| MALFORMED)?;
    let configuration = Configuration { octets };
    // "must not be 0, else 3".
    if configuration.min_hop_rank_increase() == 0
        || configuration.default_lifetime() == 0
        || configuration.lifetime_unit() == 0
    {
        return Err(MALFORMED);
    }
    Ok(configuration)
}

/// Adds a target unless it is there already: "A target listed twice [...]
/// counts once, at its first place; the 8 are counted after that." `false` if
/// it would be the ninth.
#[must_use]
pub fn add_target(targets: &mut Targets, target: Target) -> bool {
    targets.iter().any(|known| known.is_same(&target)) || targets.push(target)
}

/// Judges the octets alone: 3, then 4, then 5, then 6; otherwise the message.
pub fn read(octets: &[u8]) -> Result<Message, u8> {
    let (base, mut rest) = octets.split_at_checked(BASE_LENGTH).ok_or(MALFORMED)?;

    let mut configuration = None;
    let (mut rreq, mut rreq_count) = (None, 0usize);
    let (mut rrep, mut rrep_count) = (None, 0usize);
    let (mut art, mut art_count) = (None, 0usize);
    let mut targets = Targets::new();
    let mut too_many_targets = false;

    while let [option_type, after_type @ ..] = rest {
        if *option_type == PAD1 {
            rest = after_type;
            continue;
        }
        // "An option past the end [...] is 3."
        let (length, after_length) = after_type.split_first().ok_or(MALFORMED)?;
        let (body, after_body) = after_length
            .split_at_checked(usize::from(*length))
            .ok_or(MALFORMED)?;
        rest = after_body;
        match *option_type {
            CONFIGURATION => {
                // "One DODAG Configuration [...] at most, else 3".
                let earlier = configuration.replace(read_configuration(body)?);
                if earlier.is_some() {
                    return Err(MALFORMED);
                }
            }
            RREQ => {
                rreq = Some(RouteOption::read(body)?);
                rreq_count += 1;
            }
            RREP => {
                rrep = Some(RouteOption::read(body)?);
                rrep_count += 1;
            }
            ART => {
                let target = read_target(body)?;
                too_many_targets |= !add_target(&mut targets, target);
                art = Some(target);
                art_count += 1;
            }
            // "Unknown types are skipped."
            _ => {}
        }
    }

    let (kind, option) = match (rreq, rreq_count, rrep, rrep_count, art, art_count) {
        (Some(rreq), 1, None, 0, Some(_), _) => (Kind::Rreq, rreq),
        (None, 0, Some(rrep), 1, Some(art), 1) => {
            // "one ART, which must be a whole address (else 3)".
            if art.prefix_length != 0 {
                return Err(MALFORMED);
            }
            (Kind::Rrep, rrep)
        }
        _ => return Err(WRONG_COUNTS),
    };
    if base[4] >> 3 & 7 != MOP {
        return Err(WRONG_COUNTS);
    }

    let mut dodagid = address::ALL_ZERO;
    dodagid.copy_from_slice(&base[8..]);
    if address::is_unfit(&dodagid) {
        return Err(UNFIT_DODAGID);
    }
    let vector = option.restore(&dodagid)?;
    if too_many_targets {
        return Err(TOO_MANY);
    }

    Ok(Message {
        kind,
        base: Base {
            instance: base[0],
            version: base[1],
            rank: u16::from_be_bytes([base[2], base[3]]),
            g: base[4] & 0x80 != 0,
            prf: base[4] & 7,
            dodagid,
        },
        configuration,
        flag: option.flag,
        h: option.h,
        compr: option.compr,
        l: option.l,
        rank_limit: option.rank_limit,
        number: match kind {
            Kind::Rreq => option.third,
            Kind::Rrep => option.third >> 2,
        },
        vector,
        targets,
    })
}

/// Octets written one after another at the start of a buffer.
struct Writer<'a> {
    out: &'a mut [u8],
    length: usize,
}

impl Writer<'_> {
    /// The caller has made sure that the octets fit.
    fn put(&mut self, octets: &[u8]) {
        let end = self.length + octets.len();
        if let Some(place) = self.out.get_mut(self.length..end) {
            place.copy_from_slice(octets);
            self.length = end;
        }
    }
}

/// Writes a request or a reply: base, Configuration if there is one, RREQ or
/// RREP, ARTs. Gives the length; `None`, and nothing written, if a field does
/// not fit its bits or the message does not fit the buffer.
pub fn write(message: &Message, out: &mut [u8]) -> Option<usize> {
    if written_length(message)? > out.len() {
        return None;
    }
    let base = &message.base;
    let mut writer = Writer { out, length: 0 };

    let [rank_high, rank_low] = base.rank.to_be_bytes();
    let flags = u8::from(base.g) << 7 | MOP << 3 | base.prf;
    // DTSN, Flags and Reserved are 0.
    writer.put(&[
        base.instance,
        base.version,
        rank_high,
        rank_low,
        flags,
        0,
        0,
        0,
    ]);
    writer.put(&base.dodagid);

    if let Some(configuration) = &message.configuration {
        writer.put(&[CONFIGURATION, CONFIGURATION_LENGTH as u8]);
        writer.put(&configuration.octets);
    }

    let (option_type, third) = match message.kind {
        Kind::Rreq => (RREQ, message.number),
        Kind::Rrep => (RREP, message.number << 2),
    };
    let vector_length = vector_octets(message.vector.len(), message.compr);
    writer.put(&[
        option_type,
        (3 + vector_length) as u8,
        u8::from(message.flag) << 7
            | u8::from(message.h) << 6
            | message.compr << 1
            | message.l >> 1,
        message.l << 7 | message.rank_limit,
        third,
    ]);
    for address in message.vector.iter() {
        writer.put(&address[usize::from(message.compr)..]);
    }

    for target in message.targets.iter() {
        let octets = target_octets(target.prefix_length);
        let address = address::without_spare_bits(&target.address, target.prefix_length);
        writer.put(&[ART, (2 + octets) as u8, target.seq, target.prefix_length]);
        writer.put(&address[..octets]);
    }
    Some(writer.length)
}

/// How many octets a vector of `count` addresses takes.
pub fn vector_octets(count: usize, compr: u8) -> usize {
    count * 16usize.saturating_sub(usize::from(compr))
}

/// The length of the written message; `None` if a field does not fit its bits.
fn written_length(message: &Message) -> Option<usize> {
    let number_max = match message.kind {
        Kind::Rreq => 255,
        Kind::Rrep => 63,
    };
    let vector_length = vector_octets(message.vector.len(), message.compr);
    let fits = message.base.prf <= 7
        && message.compr <= if message.h { 0 } else { 15 }
        && message.l <= 3
        && message.rank_limit <= 127
        && message.number <= number_max
        && vector_length <= if message.h { 0 } else { MAX_VECTOR_OCTETS }
        && message
            .targets
            .iter()
            .all(|target| target.prefix_length <= MAX_PREFIX_LENGTH);
    let configuration_length = match message.configuration {
        Some(_) => 2 + CONFIGURATION_LENGTH,
        None => 0,
    };
    let targets_length: usize = message
        .targets
        .iter()
        .map(|target| 4 + target_octets(target.prefix_length))
        .sum();
    fits.then_some(BASE_LENGTH + configuration_length + 5 + vector_length + targets_length)
}
