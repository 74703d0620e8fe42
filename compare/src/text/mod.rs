//! The text form of a list: one call, or one thing handed in, a line.
//! README.md describes it.

mod read;
mod write;

pub use read::{read, Malformed};
pub use write::{call_line, hexadecimal, step_line, write};

#[cfg(test)]
mod tests;
