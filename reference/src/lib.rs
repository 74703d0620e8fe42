//! An AODV-RPL node (RFC 9854) under the rules of paper 01.
//!
//! One call handles one event: [`node::receive`] a received DIO body,
//! [`node::start`] the start of our own discovery. Both are total: whatever
//! octets, link facts and tables come in, they end with an [`node::Outcome`].
//! Nothing is allocated; tables, buffers and the tally are lent by the caller.

#![forbid(unsafe_code)]

pub mod address;
pub mod list;
pub mod node;
pub mod rank;
pub mod sequence;
pub mod table;
pub mod tally;
pub mod wire;

pub use address::Address;
pub use node::{receive, start, Buffers, Destination, Outcome, Received, Settings, Start, State};
pub use table::{InstanceRow, RouteRow, Target};
pub use tally::Tally;
