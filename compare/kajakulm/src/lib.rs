//! The proved node, called through the C interface of libkajakulm.a.
//!
//! The records have C's layout. A host may write any value into any field of
//! a row, so every bit pattern of these records is a value of theirs; that is
//! what makes the two functions here safe.

mod c;

pub type Address = [u8; 16];

/// Our addresses.
#[repr(C)]
#[derive(Clone, Copy, Debug, PartialEq, Eq)]
pub struct Settings {
    pub receiving: Address,
    pub sending: Address,
}

#[repr(C)]
#[derive(Clone, Copy, Debug, Default, PartialEq, Eq)]
pub struct Target {
    pub seq: u8,
    pub plen: u8,
    pub addr: Address,
}

/// The link facts of a received message. A flag is on when it is not 0.
#[repr(C)]
#[derive(Clone, Copy, Debug, PartialEq, Eq)]
pub struct Link {
    pub neighbour: Address,
    pub upward: u8,
    pub downward: u8,
    pub increase: u16,
    pub group: u8,
}

/// What a start brings beside its targets.
#[repr(C)]
#[derive(Clone, Copy, Debug, PartialEq, Eq)]
pub struct StartFields {
    pub instance: u8,
    pub h: u8,
    pub compr: u8,
    pub l: u8,
    pub limit: u8,
}

/// Kind 1 is a request row, 2 a reply row, any other value a row not in use.
#[repr(C)]
#[derive(Clone, Copy, Debug, Default, PartialEq, Eq)]
pub struct InstanceRow {
    pub kind: u8,
    pub instance: u8,
    pub seq: u8,
    pub s: u8,
    pub h: u8,
    pub replied: u8,
    pub endless: u8,
    pub count: u8,
    pub rank: u16,
    pub dodagid: Address,
    pub neighbour: Address,
    pub targets: [Target; 8],
    pub deadline: u64,
}

/// Kind 1 is a route in use.
#[repr(C)]
#[derive(Clone, Copy, Debug, Default, PartialEq, Eq)]
pub struct RouteRow {
    pub kind: u8,
    pub instance: u8,
    pub seq: u8,
    pub endless: u8,
    pub source: Address,
    pub destination: Address,
    pub next: Address,
    pub deadline: u64,
}

#[repr(C)]
#[derive(Clone, Copy, Debug, Default, PartialEq, Eq)]
pub struct Tally {
    pub counts: [u32; 18],
}

/// The ways of a destination.
pub const NOWHERE: u8 = 0;
pub const GROUP: u8 = 1;
pub const NEIGHBOUR: u8 = 2;
pub const CALLER: u8 = 3;

/// What a call came to. `clock` and `seq` are the new ones; the host keeps them.
#[repr(C)]
#[derive(Clone, Copy, Debug, PartialEq, Eq)]
pub struct Outcome {
    pub answer: u8,
    pub seq: u8,
    pub forward_way: u8,
    pub reply_way: u8,
    pub forward_length: u64,
    pub reply_length: u64,
    pub clock: u64,
    pub forward_neighbour: Address,
    pub reply_neighbour: Address,
}

/// What the host lends for a call.
#[derive(Debug)]
pub struct Lent<'a> {
    pub instances: &'a mut [InstanceRow],
    pub routes: &'a mut [RouteRow],
    pub forward: &'a mut [u8],
    pub reply: &'a mut [u8],
    pub tally: &'a mut Tally,
}

/// What the host hands in by value at each call.
#[derive(Clone, Copy, Debug)]
pub struct Now {
    pub own: Settings,
    pub clock: u64,
    pub seq: u8,
    pub time: u64,
}

/// Handles one received DIO body. Inlined, so that a caller measures the call and no copy of what it hands in.
#[inline]
pub fn message(lent: Lent, now: Now, octets: &[u8], link: Link) -> Outcome {
    // SAFETY: each pointer comes with its slice's length; the slices do not
    // overlap, since they are borrowed apart; every octet pattern of the
    // records is a value.
    unsafe {
        c::kajakulm_message(
            lent.instances.as_mut_ptr(),
            lent.instances.len(),
            lent.routes.as_mut_ptr(),
            lent.routes.len(),
            lent.forward.as_mut_ptr(),
            lent.forward.len(),
            lent.reply.as_mut_ptr(),
            lent.reply.len(),
            octets.as_ptr(),
            octets.len(),
            now.own,
            now.clock,
            now.seq,
            now.time,
            link,
            lent.tally,
        )
    }
}

/// Handles the start of our own discovery.
#[inline]
pub fn start(lent: Lent, now: Now, targets: &[Target], fields: StartFields) -> Outcome {
    // SAFETY: as for `message`.
    unsafe {
        c::kajakulm_start(
            lent.instances.as_mut_ptr(),
            lent.instances.len(),
            lent.routes.as_mut_ptr(),
            lent.routes.len(),
            lent.forward.as_mut_ptr(),
            lent.forward.len(),
            lent.reply.as_mut_ptr(),
            lent.reply.len(),
            targets.as_ptr(),
            targets.len(),
            now.own,
            now.clock,
            now.seq,
            now.time,
            fields,
            lent.tally,
        )
    }
}

#[cfg(test)]
mod tests;
