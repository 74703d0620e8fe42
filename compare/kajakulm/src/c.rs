//! The functions of libkajakulm.a, as C has them.

use crate::{InstanceRow, Link, Outcome, RouteRow, Settings, StartFields, Tally, Target};

extern "C" {
    pub fn kajakulm_message(
        instances: *mut InstanceRow,
        instance_count: usize,
        routes: *mut RouteRow,
        route_count: usize,
        forward: *mut u8,
        forward_size: usize,
        reply: *mut u8,
        reply_size: usize,
        octets: *const u8,
        octet_count: usize,
        own: Settings,
        clock: u64,
        seq: u8,
        time: u64,
        link: Link,
        tally: *mut Tally,
    ) -> Outcome;

    pub fn kajakulm_start(
        instances: *mut InstanceRow,
        instance_count: usize,
        routes: *mut RouteRow,
        route_count: usize,
        forward: *mut u8,
        forward_size: usize,
        reply: *mut u8,
        reply_size: usize,
        targets: *const Target,
        target_count: usize,
        own: Settings,
        clock: u64,
        seq: u8,
        time: u64,
        start: StartFields,
        tally: *mut Tally,
    ) -> Outcome;
}
