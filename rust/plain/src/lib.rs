//! The transport side of one InfiniBand queue pair: headers, cutting messages,
//! the RC and the UC responder, the replay program and the packet lister.
//!
//! A packet starts at its BTH and ends after the pad. Calls answer with the
//! numbers of the paper: 0 to 19 for packets, 32 to 39 for refusals.

#![forbid(unsafe_code)]

mod cut;
mod header;
pub mod list;
mod number;
mod opcode;
mod pair;
mod record;
pub mod replay;
mod responder;
mod ring;

pub use cut::{cut, Connection, Request};
pub use header::{read_header, write_header, Extension, Header};
pub use pair::{Completion, Entry, Inbound, QueuePair, Region, Setup};

/// The reliable connected service, as in bits 7 to 5 of an opcode.
pub const RC: u8 = 0;
/// The unreliable connected service, as in bits 7 to 5 of an opcode.
pub const UC: u8 = 1;

/// The refusals of the host's calls.
pub(crate) mod refusal {
    pub const UNFINISHED: u8 = 32;
    pub const FULL: u8 = 33;
    pub const RANGE: u8 = 34;
    pub const SHORT: u8 = 35;
    pub const STATE: u8 = 36;
    pub const NO_KEY: u8 = 37;
    pub const KEY_USED: u8 = 38;
    pub const BAD_NUMBER: u8 = 39;
}
