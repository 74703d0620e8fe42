//! The node: one call for a received message, one for a start of our own.
//!
//! In each call all refusals are asked first, in the order of their numbers,
//! and only then is anything changed: "1 to 17 change nothing but the tally."

use crate::address::{self, Address};
use crate::rank;
use crate::sequence::{self, Order};
use crate::table::{self, FreeRows, InstanceRow, RouteKey, RouteRow, Row, Target, Targets};
use crate::tally::Tally;
use crate::wire::{self, Base, Kind, Message, Vector};

pub const MAX_TIME: u64 = 1 << 40;
/// The least length of a buffer and the greatest of a message.
pub const MAX_MESSAGE: usize = 1236;

const DONE: u8 = 0;
const BAD_CALL: u8 = 1;
const BAD_STATE: u8 = 2;
const OWN_DODAGID: u8 = 7;
const NO_PARTNER: u8 = 8;
const LOOP: u8 = 9;
const PREFIX_DIFFERS: u8 = 10;
const LINK: u8 = 11;
const RANK: u8 = 12;
const STALE: u8 = 13;
const NOTHING_NEW: u8 = 14;
const NO_DELTA: u8 = 15;
const VECTOR_FULL: u8 = 16;
const NO_ROW: u8 = 17;

/// Our addresses.
#[derive(Clone, Copy, Debug, PartialEq, Eq)]
pub struct Settings {
    pub receiving: Address,
    pub sending: Address,
}

impl Settings {
    fn owns(&self, address: &Address) -> bool {
        *address == self.receiving || *address == self.sending
    }

    fn is_target(&self, target: &Target) -> bool {
        target.matches(&self.receiving) || target.matches(&self.sending)
    }

    fn is_unfit(&self) -> bool {
        address::is_unfit(&self.receiving) || address::is_unfit(&self.sending)
    }

    /// 10: "one of our addresses differs from the DODAGID in the first Compr
    /// octets". Compr is 0 where H is 1.
    fn differs_in_prefix(&self, dodagid: &Address, compr: u8) -> bool {
        !address::share_octets(&self.receiving, dodagid, compr)
            || !address::share_octets(&self.sending, dodagid, compr)
    }
}

/// A received message with its link facts.
#[derive(Clone, Copy, Debug)]
pub struct Received<'a> {
    pub octets: &'a [u8],
    pub neighbour: Address,
    pub upward_good: bool,
    pub downward_good: bool,
    pub rank_increase: u16,
    /// It came to the group; otherwise to us alone.
    pub to_group: bool,
}

/// What a start of our own discovery brings.
#[derive(Clone, Copy, Debug)]
pub struct Start<'a> {
    pub instance: u8,
    /// On when not 0.
    pub h: u8,
    pub compr: u8,
    pub l: u8,
    pub rank_limit: u8,
    pub targets: &'a [Target],
}

/// The node's state. Fresh: clock 0, own number 240, no row in use.
#[derive(Debug)]
pub struct State<'a> {
    /// The time of the last accepted call.
    pub clock: &'a mut u64,
    pub own_seq: &'a mut u8,
    pub instances: &'a mut [InstanceRow],
    pub routes: &'a mut [RouteRow],
}

#[derive(Debug)]
pub struct Buffers<'a> {
    pub forward: &'a mut [u8],
    pub reply: &'a mut [u8],
}

#[derive(Clone, Copy, Debug, PartialEq, Eq)]
pub enum Destination {
    Nowhere,
    Group,
    Neighbour(Address),
    /// OrigNode's path, for the caller.
    Caller,
}

#[derive(Clone, Copy, Debug, PartialEq, Eq)]
pub struct Outcome {
    /// 0 to 17.
    pub answer: u8,
    pub forward_length: usize,
    pub reply_length: usize,
    pub forward_to: Destination,
    pub reply_to: Destination,
}

impl Outcome {
    /// "lengths zero, destinations nowhere".
    fn silent(answer: u8) -> Self {
        Outcome {
            answer,
            forward_length: 0,
            reply_length: 0,
            forward_to: Destination::Nowhere,
            reply_to: Destination::Nowhere,
        }
    }
}

/// Handles one received DIO body.
pub fn receive(
    settings: &Settings,
    time: u64,
    received: &Received,
    state: &mut State,
    buffers: &mut Buffers,
    tally: &mut Tally,
) -> Outcome {
    let result = try_receive(settings, time, received, state, buffers);
    finish(result, time, state, tally)
}

/// Handles the start of our own discovery.
pub fn start(
    settings: &Settings,
    time: u64,
    start: &Start,
    state: &mut State,
    buffers: &mut Buffers,
    tally: &mut Tally,
) -> Outcome {
    let result = try_start(settings, time, start, state, buffers);
    finish(result, time, state, tally)
}

/// "An accepted call's time becomes the last time."
fn finish(result: Result<Outcome, u8>, time: u64, state: &mut State, tally: &mut Tally) -> Outcome {
    let outcome = match result {
        Ok(outcome) => {
            *state.clock = time;
            outcome
        }
        Err(answer) => Outcome::silent(answer),
    };
    tally.raise(outcome.answer);
    outcome
}

/// What both calls have in answer 1.
fn is_bad_call(settings: &Settings, time: u64, state: &State, buffers: &Buffers) -> bool {
    time < *state.clock
        || time > MAX_TIME
        || buffers.forward.len() < MAX_MESSAGE
        || buffers.reply.len() < MAX_MESSAGE
        || settings.is_unfit()
}

fn is_bad_state(state: &State) -> bool {
    !table::is_sound(*state.own_seq, *state.clock, state.instances, state.routes)
}

fn try_receive(
    settings: &Settings,
    time: u64,
    received: &Received,
    state: &mut State,
    buffers: &mut Buffers,
) -> Result<Outcome, u8> {
    if is_bad_call(settings, time, state, buffers) || received.octets.len() > MAX_MESSAGE {
        return Err(BAD_CALL);
    }
    if is_bad_state(state) {
        return Err(BAD_STATE);
    }
    let message = wire::read(received.octets)?;
    if settings.owns(&message.base.dodagid) {
        return Err(OWN_DODAGID);
    }
    match message.kind {
        Kind::Rreq => request(settings, time, received, &message, state, buffers),
        Kind::Rrep => reply(settings, time, received, &message, state, buffers),
    }
}

/// "A request".
fn request(
    settings: &Settings,
    time: u64,
    received: &Received,
    message: &Message,
    state: &mut State,
    buffers: &mut Buffers,
) -> Result<Outcome, u8> {
    let base = &message.base;
    let min_hop_rank_increase = message.min_hop_rank_increase();

    // "9: our receiving or sending address stands in the vector."
    if message.vector.iter().any(|address| settings.owns(address)) {
        return Err(LOOP);
    }
    if settings.differs_in_prefix(&base.dodagid, message.compr) {
        return Err(PREFIX_DIFFERS);
    }
    // "11: the upward link isn't good."
    if !received.upward_good {
        return Err(LINK);
    }
    // TargNode by the targets in the message, whatever a row holds.
    let is_targ_node = message
        .targets
        .iter()
        .any(|target| settings.is_target(target));
    let own_rank = rank::own_rank(
        base.rank,
        received.rank_increase,
        min_hop_rank_increase,
        message.rank_limit,
        is_targ_node,
    )
    .ok_or(RANK)?;
    // "S out is S in and downward good."
    let s_out = message.flag && received.downward_good;

    // The live row of the key, and the Deltas that live reply rows with our
    // receiving address as DODAGID leave no more free.
    let mut live_index = None;
    let mut deltas_in_use = 0u64;
    let free_rows = table::survey(state.instances, time, |index, row: &InstanceRow| {
        if row.kind == table::REQUEST {
            if row.instance == base.instance && row.dodagid == base.dodagid {
                live_index = Some(index);
            }
        } else if row.dodagid == settings.receiving {
            let delta = row.instance.wrapping_sub(base.instance);
            if delta <= 63 {
                deltas_in_use |= 1 << delta;
            }
        }
    });
    let live = live_index.map(|index| &state.instances[index]);

    // 13: both the row's and the route's, before 14.
    let order = live.map(|row| sequence::compare(message.number, row.seq));
    if matches!(order, Some(Order::Older | Order::NotComparable)) {
        return Err(STALE);
    }
    let route = message.h.then(|| RouteRow {
        used: table::USED,
        source: settings.receiving,
        destination: base.dodagid,
        instance: base.instance,
        next_hop: received.neighbour,
        seq: message.number,
        endless: endless(message.route_lifetime()),
        deadline: deadline(time, message.route_lifetime()),
    });
    let route_place = find_route_place(&route, state.routes, time)?;

    // "equal and (we replied, or own rank not lower) is 14; equal and lower
    // rank updates the row".
    let updated = live.filter(|_| order == Some(Order::Equal));
    if updated.is_some_and(|row| row.replied != 0 || own_rank >= row.rank) {
        return Err(NOTHING_NEW);
    }

    // "TargNode replies where the row is new or afresh".
    let replies = is_targ_node && updated.is_none();
    let delta = deltas_in_use.trailing_ones() as u8;
    if replies && delta > 63 {
        return Err(NO_DELTA);
    }

    // "Targets we match are taken out of row and forward"; of an update remain
    // "those also in the row, in the message's order with its Dest SeqNos".
    let mut targets = Targets::new();
    for target in message.targets.iter() {
        let is_kept = !settings.is_target(target)
            && updated
                .is_none_or(|row| row.own_targets().iter().any(|known| known.is_same(target)));
        if is_kept {
            // As many as the message's at most, so there is room.
            let _ = targets.push(*target);
        }
    }

    // "Forward to the group, if targets remain (and own integer rank is under
    // RankLimit, if not 0)". "16 only when forwarding."
    let forwards = !targets.is_empty()
        && rank::is_under_limit(own_rank, min_hop_rank_increase, message.rank_limit);
    let mut vector = message.vector;
    if forwards && !message.h {
        add_own_addresses(&mut vector, message.compr, settings)?;
    }

    // "A new row takes the lowest-numbered row that isn't live, a request row
    // before its reply row."
    let mut free = free_rows.iter().copied();
    let row_index = live_index.or_else(|| free.next()).ok_or(NO_ROW)?;
    let reply_index = match replies {
        true => Some(free.next().ok_or(NO_ROW)?),
        false => None,
    };
    let route_index = route_place.index()?;

    // Nothing is refused from here on.
    let is_update = updated.is_some();
    let row = &mut state.instances[row_index];
    if !is_update {
        *row = InstanceRow {
            kind: table::REQUEST,
            instance: base.instance,
            dodagid: base.dodagid,
            seq: message.number,
            replied: u8::from(replies),
            endless: endless(message.instance_lifetime()),
            deadline: deadline(time, message.instance_lifetime()),
            ..InstanceRow::default()
        };
    }
    row.s = u8::from(s_out);
    row.h = u8::from(message.h);
    row.rank = own_rank;
    row.neighbour = received.neighbour;
    row.set_targets(&targets);
    store_route(route, route_index, state.routes);

    let mut outcome = Outcome::silent(DONE);
    if forwards {
        let forward = Message {
            base: Base {
                rank: own_rank,
                ..*base
            },
            flag: s_out,
            vector,
            targets,
            ..*message
        };
        outcome.forward_length = write(&forward, buffers.forward);
        outcome.forward_to = Destination::Group;
    }
    if let Some(reply_index) = reply_index {
        *state.own_seq = sequence::step(*state.own_seq);
        let reply = our_reply(settings, message, s_out, delta, *state.own_seq);
        state.instances[reply_index] = reply_row(&reply, reply.base.rank, time);
        outcome.reply_length = write(&reply, buffers.reply);
        outcome.reply_to = match s_out {
            true => Destination::Neighbour(received.neighbour),
            false => Destination::Group,
        };
    }
    Ok(outcome)
}

/// The reply of TargNode to a request.
fn our_reply(
    settings: &Settings,
    request: &Message,
    s_out: bool,
    delta: u8,
    own_seq: u8,
) -> Message {
    let mut targets = Targets::new();
    // "ART OrigNode with own stepped number"; the list is empty, so there is room.
    let _ = targets.push(Target {
        seq: own_seq,
        prefix_length: 0,
        address: request.base.dodagid,
    });
    Message {
        kind: Kind::Rrep,
        base: Base {
            instance: request.base.instance.wrapping_add(delta),
            version: 0,
            rank: request.min_hop_rank_increase().get(),
            g: false,
            prf: 0,
            dodagid: settings.receiving,
        },
        flag: false,
        rank_limit: 0,
        number: delta,
        // "S out 1: [...] vector and Compr as received. S out 0: [...] vector empty".
        vector: if s_out { request.vector } else { Vector::new() },
        targets,
        // Configuration, H, Compr and L.
        ..*request
    }
}

/// "it holds Dest SeqNo, rank, deadline from L".
fn reply_row(reply: &Message, rank: u16, time: u64) -> InstanceRow {
    InstanceRow {
        kind: table::REPLY,
        instance: reply.base.instance,
        dodagid: reply.base.dodagid,
        seq: reply.targets.first().map_or(0, |target| target.seq),
        rank,
        endless: endless(reply.instance_lifetime()),
        deadline: deadline(time, reply.instance_lifetime()),
        ..InstanceRow::default()
    }
}

/// "A reply".
fn reply(
    settings: &Settings,
    time: u64,
    received: &Received,
    message: &Message,
    state: &mut State,
    buffers: &mut Buffers,
) -> Result<Outcome, u8> {
    let base = &message.base;
    // A reply has exactly one ART.
    let art = message.targets.first().ok_or(wire::WRONG_COUNTS)?;
    let orig_node = art.address;
    // "RPLInstanceID minus Delta, rolling under 0 to 255".
    let partner_instance = base.instance.wrapping_sub(message.number);

    let mut partner_index = None;
    let mut live_index = None;
    let free_rows = table::survey(state.instances, time, |index, row: &InstanceRow| {
        if row.kind == table::REQUEST {
            if row.instance == partner_instance && row.dodagid == orig_node {
                partner_index = Some(index);
            }
        } else if row.instance == base.instance && row.dodagid == base.dodagid {
            live_index = Some(index);
        }
    });
    let partner = partner_index
        .map(|index| &state.instances[index])
        .filter(|row| (row.h != 0) == message.h)
        .ok_or(NO_PARTNER)?;
    let live = live_index.map(|index| &state.instances[index]);

    let is_orig_node = settings.owns(&orig_node);
    // "symmetric if the partner's S is 1 and it came to us alone, else asymmetric".
    let is_symmetric = partner.s != 0 && !received.to_group;

    // 9, and where the reply goes if we are between the ends. With H 1 the
    // vector is empty.
    let destination = if !is_symmetric {
        if message.vector.iter().any(|address| settings.owns(address)) {
            return Err(LOOP);
        }
        Destination::Group
    } else if message.h {
        Destination::Neighbour(partner.neighbour)
    } else if is_orig_node {
        Destination::Caller
    } else {
        Destination::Neighbour(hop_before(settings, &message.vector, orig_node)?)
    };
    if settings.differs_in_prefix(&base.dodagid, message.compr) {
        return Err(PREFIX_DIFFERS);
    }
    // "Symmetric: 11 and 12 aren't asked, own rank is the advertised rank."
    let own_rank = if is_symmetric {
        base.rank
    } else {
        // For a reply, downward is the direction from us to the neighbour.
        if !received.downward_good {
            return Err(LINK);
        }
        rank::own_rank(
            base.rank,
            received.rank_increase,
            message.min_hop_rank_increase(),
            message.rank_limit,
            is_orig_node,
        )
        .ok_or(RANK)?
    };

    // 13 and 14 "as a request row"; a reply row has no "replied".
    let order = live.map(|row| sequence::compare(art.seq, row.seq));
    if matches!(order, Some(Order::Older | Order::NotComparable)) {
        return Err(STALE);
    }
    let route = message.h.then(|| RouteRow {
        used: table::USED,
        source: orig_node,
        destination: base.dodagid,
        instance: partner_instance,
        next_hop: received.neighbour,
        seq: art.seq,
        endless: endless(message.route_lifetime()),
        deadline: deadline(time, message.route_lifetime()),
    });
    let route_place = find_route_place(&route, state.routes, time)?;
    let updated = live.filter(|_| order == Some(Order::Equal));
    if updated.is_some_and(|row| own_rank >= row.rank) {
        return Err(NOTHING_NEW);
    }

    // "else, between the ends, add our addresses as for a request".
    let mut vector = message.vector;
    if !message.h && !is_symmetric && !is_orig_node {
        add_own_addresses(&mut vector, message.compr, settings)?;
    }

    let row_index = live_index
        .or_else(|| free_rows.first().copied())
        .ok_or(NO_ROW)?;
    let route_index = route_place.index()?;

    // Nothing is refused from here on.
    let is_update = updated.is_some();
    let row = &mut state.instances[row_index];
    if is_update {
        row.rank = own_rank;
    } else {
        *row = reply_row(message, own_rank, time);
    }
    store_route(route, route_index, state.routes);

    let mut outcome = Outcome::silent(DONE);
    if !is_orig_node {
        // "RREP fields else unchanged."
        let forward = Message {
            base: Base {
                rank: own_rank,
                ..*base
            },
            vector,
            ..*message
        };
        outcome.forward_length = write(&forward, buffers.forward);
        outcome.forward_to = destination;
    } else if !message.vector.is_empty() {
        outcome.forward_length = write_path(&message.vector, is_symmetric, buffers.forward);
        outcome.forward_to = Destination::Caller;
    }
    Ok(outcome)
}

/// "our receiving address must stand exactly once in the vector (else 9); send
/// to the address before it, or OrigNode".
fn hop_before(settings: &Settings, vector: &Vector, orig_node: Address) -> Result<Address, u8> {
    let mut places = (0..vector.len()).filter(|&place| vector[place] == settings.receiving);
    match (places.next(), places.next()) {
        (Some(0), None) => Ok(orig_node),
        (Some(place), None) => Ok(vector[place - 1]),
        _ => Err(LOOP),
    }
}

/// The caller's path "from OrigNode's side outward: in the vector's order if
/// symmetric, turned round if asymmetric". Gives the number of octets.
fn write_path(vector: &Vector, is_symmetric: bool, out: &mut [u8]) -> usize {
    for (place, octets) in out.chunks_exact_mut(16).take(vector.len()).enumerate() {
        let from = match is_symmetric {
            true => place,
            false => vector.len() - 1 - place,
        };
        octets.copy_from_slice(&vector[from]);
    }
    16 * vector.len()
}

fn try_start(
    settings: &Settings,
    time: u64,
    start: &Start,
    state: &mut State,
    buffers: &mut Buffers,
) -> Result<Outcome, u8> {
    if is_bad_call(settings, time, state, buffers)
        || start.l > 3
        || start.compr > 15
        || start.rank_limit > 127
    {
        return Err(BAD_CALL);
    }
    let targets = start_targets(start.targets).ok_or(BAD_CALL)?;
    if is_bad_state(state) {
        return Err(BAD_STATE);
    }
    // "With H 1 [...] Compr [...] is ignored, sent 0."
    let h = start.h != 0;
    let compr = if h { 0 } else { start.compr };
    if settings.differs_in_prefix(&settings.receiving, compr) {
        return Err(PREFIX_DIFFERS);
    }
    let mut is_live = false;
    let free_rows: FreeRows = table::survey(state.instances, time, |_, row: &InstanceRow| {
        is_live |= row.kind == table::REQUEST
            && row.instance == start.instance
            && row.dodagid == settings.receiving;
    });
    // "14 if a row of that key is live."
    if is_live {
        return Err(NOTHING_NEW);
    }
    let row_index = *free_rows.first().ok_or(NO_ROW)?;

    *state.own_seq = sequence::step(*state.own_seq);
    let message = Message {
        kind: Kind::Rreq,
        base: Base {
            instance: start.instance,
            version: 0,
            rank: rank::DEFAULT_MIN_HOP_RANK_INCREASE.get(),
            g: false,
            prf: 0,
            dodagid: settings.receiving,
        },
        configuration: None,
        flag: true,
        h,
        compr,
        l: start.l,
        rank_limit: start.rank_limit,
        number: *state.own_seq,
        vector: Vector::new(),
        targets,
    };
    let row = &mut state.instances[row_index];
    // "rank 256, neighbour all zero, not replied, all its targets".
    *row = InstanceRow {
        kind: table::REQUEST,
        instance: start.instance,
        dodagid: settings.receiving,
        seq: message.number,
        s: 1,
        h: u8::from(h),
        rank: message.base.rank,
        endless: endless(message.instance_lifetime()),
        deadline: deadline(time, message.instance_lifetime()),
        ..InstanceRow::default()
    };
    row.set_targets(&targets);
    Ok(Outcome {
        forward_length: write(&message, buffers.forward),
        forward_to: Destination::Group,
        ..Outcome::silent(DONE)
    })
}

/// A start's targets without repeats and with spare bits zero; `None` for "0
/// or over 8 targets, a target prefix over 127".
fn start_targets(given: &[Target]) -> Option<Targets> {
    let mut targets = Targets::new();
    for target in given {
        if target.prefix_length > table::MAX_PREFIX_LENGTH {
            return None;
        }
        let address = address::without_spare_bits(&target.address, target.prefix_length);
        if !wire::add_target(&mut targets, Target { address, ..*target }) {
            return None;
        }
    }
    (!targets.is_empty()).then_some(targets)
}

/// "add our receiving address, then the sending one if different"; 16 "past 16
/// addresses or 252 octets".
fn add_own_addresses(vector: &mut Vector, compr: u8, settings: &Settings) -> Result<(), u8> {
    let mut fits = vector.push(settings.receiving);
    if settings.sending != settings.receiving {
        fits &= vector.push(settings.sending);
    }
    if !fits || wire::vector_octets(vector.len(), compr) > wire::MAX_VECTOR_OCTETS {
        return Err(VECTOR_FULL);
    }
    Ok(())
}

/// Where a route goes.
enum RoutePlace {
    /// H is 0: there is none.
    NotNeeded,
    Row(usize),
    Missing,
}

impl RoutePlace {
    /// The row's number if a route is to be stored; 17 if it has no row.
    fn index(&self) -> Result<Option<usize>, u8> {
        match self {
            RoutePlace::NotNeeded => Ok(None),
            RoutePlace::Row(index) => Ok(Some(*index)),
            RoutePlace::Missing => Err(NO_ROW),
        }
    }
}

/// "A live route of the same three with a newer or not comparable number makes
/// 13 (house choice); else it is replaced."
fn find_route_place(
    route: &Option<RouteRow>,
    routes: &[RouteRow],
    time: u64,
) -> Result<RoutePlace, u8> {
    let Some(route) = route else {
        return Ok(RoutePlace::NotNeeded);
    };
    let key: RouteKey = route.key();
    let mut live = None;
    let free = table::survey(routes, time, |index, row: &RouteRow| {
        if row.key() == key {
            live = Some((index, row.seq));
        }
    });
    match (live, free.first()) {
        (Some((index, seq)), _) => match sequence::compare(seq, route.seq) {
            Order::Newer | Order::NotComparable => Err(STALE),
            Order::Equal | Order::Older => Ok(RoutePlace::Row(index)),
        },
        (None, Some(index)) => Ok(RoutePlace::Row(*index)),
        (None, None) => Ok(RoutePlace::Missing),
    }
}

fn store_route(route: Option<RouteRow>, index: Option<usize>, routes: &mut [RouteRow]) {
    if let (Some(route), Some(index)) = (route, index) {
        routes[index] = route;
    }
}

fn endless(lifetime: Option<u64>) -> u8 {
    u8::from(lifetime.is_none())
}

/// A row without a deadline has 0 in its place.
fn deadline(time: u64, lifetime: Option<u64>) -> u64 {
    lifetime.map_or(0, |lifetime| time.saturating_add(lifetime))
}

/// A message of ours always fits: at most 457 octets, and the buffers have 1,236.
fn write(message: &Message, out: &mut [u8]) -> usize {
    wire::write(message, out).unwrap_or(0)
}
