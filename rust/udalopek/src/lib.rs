//! The transport side of an InfiniBand queue pair: the responder of a reliable (RC) or unreliable (UC) connection,
//! packet headers read and written, messages cut into packets.
//!
//! The work is done by a static library whose every function is proved to do what the rules say, whatever bytes come
//! in. This crate owns the words and tables that the library is lent and gives its numbers names. It opens no device
//! and sends nothing: packets come in as bytes, and what is to be sent comes out as bytes. A packet begins at its BTH
//! and ends after its pad; the CRCs are the caller's.
//!
//! A SEND of three bytes comes in, and then its duplicate:
//!
//! ```
//! use udalopek::{Answer, Completion, Entry, QueuePair, Service, Setup};
//!
//! let mut memory = vec![0; 4096];
//! let mut pair = QueuePair::set_up(Setup {
//!     service: Service::Rc,
//!     pmtu: 256,
//!     ours: 0x12,
//!     theirs: 0x34,
//!     pkey: 0xffff,
//!     start: 7,
//!     timer: 0,
//!     send: true,
//!     write: true,
//!     read: true,
//!     atomic: true,
//!     memory: memory.len(),
//! })?;
//! pair.post_entry(Entry { number: 5, offset: 2048, length: 128 })?;
//! pair.make_ready()?;
//!
//! let packet = *b"\x04\x10\xff\xff\0\0\0\x12\x80\0\0\x07abc\0";
//! let mut out = [0; 24];
//! let got = pair.inbound(&mut memory, &packet, &mut out)?;
//! assert_eq!(got.answer, Answer::Acknowledged);
//! assert_eq!(&out[..got.outgoing], b"\x11\0\xff\xff\0\0\0\x34\0\0\0\x07\x1f\0\0\x01");
//! assert_eq!(&memory[2048..2052], b"abc\0");
//! assert_eq!(got.completion, Some(Completion { entry: 5, bytes: 3, immediate: None }));
//! assert_eq!((pair.expected(), pair.msn()), (8, 1));
//!
//! // A duplicate of the packet is acknowledged and not executed.
//! let before = memory.clone();
//! let duplicate = pair.inbound(&mut memory, &packet, &mut out)?;
//! assert_eq!(duplicate.answer, Answer::DuplicateAnswered);
//! assert_eq!(duplicate.completion, None);
//! assert_eq!(memory, before);
//! # Ok::<(), udalopek::Refusal>(())
//! ```
#![deny(unsafe_code)]
#![warn(missing_docs)]

mod answer;
mod cut;
mod ffi;
mod header;
mod pair;
#[doc(hidden)]
#[allow(missing_docs)]
pub mod raw;

pub use answer::{Answer, Refusal};
pub use cut::{cut, Connection, Request};
pub use header::{read_header, write_header, Extension, Header};
pub use pair::{Completion, Entry, QueuePair, Received, Region, Service, Setup, State};
