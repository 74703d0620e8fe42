//! The proved node beside the second program, call by call.
//!
//! A list of calls is made from a seed (`generate`), run through both nodes in
//! lockstep (`lockstep`), and, where they differ, made shorter (`shrink`) and
//! printed (`text`). `demand3` feeds a list to nodes with tables of two sizes.

#![forbid(unsafe_code)]

pub mod command;
pub mod demand3;
pub mod generate;
pub mod histogram;
pub mod list;
pub mod lockstep;
pub mod marks;
pub mod node;
pub mod prng;
pub mod rows;
pub mod run;
pub mod second;
pub mod sent;
pub mod shrink;
pub mod text;
pub mod wire;
