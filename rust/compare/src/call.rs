//! Calls as values, their answers, and both as lines of a script.

use std::fmt::Write;
use std::rc::Rc;

use crate::subject::*;

#[derive(Clone, Debug)]
pub enum Call {
    SetUp(Setup),
    AddRegion(Region),
    RemoveRegion(u32),
    Post(Entry),
    MakeReady,
    Reset,
    /// `memory` and `out` are the lengths lent.
    Inbound {
        memory: usize,
        out: usize,
        packet: Vec<u8>,
    },
    Next {
        memory: usize,
        out: usize,
    },
    /// Reading alone, then writing back.
    ReadHeader(Vec<u8>),
    WriteHeader {
        header: Header,
        out: usize,
    },
    Cut(Cut),
}

#[derive(Clone, Debug)]
pub struct Cut {
    pub connection: Connection,
    pub request: Request,
    pub message: Rc<[u8]>,
    pub first: u32,
    pub index: usize,
    pub out: usize,
}

/// Room for the longest header, RETH and Immediate or AtomicETH after a BTH.
pub const HEADER_ROOM: usize = 40;

/// The kinds of call, by the word a script has for each.
pub const KINDS: [&str; 11] = [
    "pair",
    "region",
    "unregion",
    "post",
    "ready",
    "reset",
    "in",
    "next",
    "header",
    "write-header",
    "cut",
];

impl Call {
    /// The place of the call's kind in `KINDS`.
    pub fn kind(&self) -> usize {
        match self {
            Call::SetUp(_) => 0,
            Call::AddRegion(_) => 1,
            Call::RemoveRegion(_) => 2,
            Call::Post(_) => 3,
            Call::MakeReady => 4,
            Call::Reset => 5,
            Call::Inbound { .. } => 6,
            Call::Next { .. } => 7,
            Call::ReadHeader(_) => 8,
            Call::WriteHeader { .. } => 9,
            Call::Cut(_) => 10,
        }
    }

    /// Whether the call is made on a pair, so that it could change one.
    pub fn on_pair(&self) -> bool {
        !matches!(
            self,
            Call::ReadHeader(_) | Call::WriteHeader { .. } | Call::Cut(_)
        )
    }

    /// Bytes of output lent.
    pub fn output(&self) -> usize {
        match self {
            Call::Inbound { out, .. } | Call::Next { out, .. } => *out,
            Call::WriteHeader { out, .. } => *out,
            Call::Cut(cut) => cut.out,
            Call::ReadHeader(_) => HEADER_ROOM,
            _ => 0,
        }
    }

    /// The line of a script; writing a header from its fields has none.
    pub fn script(&self) -> Option<String> {
        Some(match self {
            Call::SetUp(setup) => format!(
                "pair {} {} {} {} {} {} {} {} {} {} {} {} 0",
                service(setup.service),
                setup.pmtu,
                setup.ours,
                setup.theirs,
                setup.pkey,
                setup.start,
                setup.timer,
                u8::from(setup.send),
                u8::from(setup.write),
                u8::from(setup.read),
                u8::from(setup.atomic),
                setup.memory,
            ),
            Call::AddRegion(region) => format!(
                "region {} {} {} {} {} {} {}",
                region.key,
                region.address,
                region.length,
                region.offset,
                u8::from(region.write),
                u8::from(region.read),
                u8::from(region.atomic),
            ),
            Call::RemoveRegion(key) => format!("unregion {key}"),
            Call::Post(entry) => format!("post {} {} {}", entry.number, entry.offset, entry.length),
            Call::MakeReady => "ready".to_string(),
            Call::Reset => "reset".to_string(),
            Call::Inbound {
                memory,
                out,
                packet,
            } => format!("in {memory} {out} {}", hex(packet)),
            Call::Next { memory, out } => format!("next {memory} {out}"),
            Call::ReadHeader(packet) => format!("header {}", hex(packet)),
            Call::WriteHeader { .. } => return None,
            Call::Cut(cut) => cut.script(),
        })
    }
}

impl Cut {
    fn script(&self) -> String {
        let Connection {
            service: number,
            pmtu,
            pkey,
            dest,
        } = self.connection;
        let (first, index, out) = (self.first, self.index, self.out);
        let start = format!(
            "cut {} {pmtu} {dest} {pkey} {first} {index} {out}",
            service(number)
        );
        let data = hex(&self.message);
        match self.request {
            Request::Send(immediate) => format!("{start} send {} {data}", or_dash(immediate)),
            Request::Write {
                address,
                key,
                immediate,
            } => {
                format!(
                    "{start} write {} {address} {key} {data}",
                    or_dash(immediate)
                )
            }
            Request::Read {
                address,
                key,
                length,
            } => {
                format!("{start} read {address} {key} {length}")
            }
            Request::CmpSwap {
                address,
                key,
                swap,
                compare,
            } => {
                format!("{start} swap {address} {key} {swap} {compare}")
            }
            Request::FetchAdd { address, key, add } => {
                format!("{start} add {address} {key} {add}")
            }
        }
    }
}

/// What a call answers besides the output it wrote.
#[derive(Clone, Copy, Debug, PartialEq, Eq)]
pub struct Answer {
    pub number: u8,
    /// Bytes written at the start of the output.
    pub outgoing: usize,
    pub detail: Detail,
}

#[derive(Clone, Copy, Debug, PartialEq, Eq)]
pub enum Detail {
    Nothing,
    Completion(Completion),
    /// A header that was read.
    Header(Header),
    /// The check that failed in reading a header.
    Check(u8),
    /// The PSN of the message after the one cut.
    NextPsn(u32),
    /// There was no pair to make the call on.
    NoPair,
    /// Memory of another length was lent, and written.
    Spoiled,
    Panicked,
}

impl Answer {
    pub fn new(number: u8, outgoing: usize, detail: Detail) -> Answer {
        Answer {
            number,
            outgoing,
            detail,
        }
    }
}

/// The answer as a script's line has it, with what a line does not show behind.
pub fn answer_line(
    call: &Call,
    answer: &Answer,
    out: &[u8],
    view: Option<&View>,
    memory: &[u8],
) -> String {
    let Answer {
        number,
        outgoing,
        detail,
    } = *answer;
    let written = hex(out.get(..outgoing).unwrap_or(out));
    match (call, detail) {
        (_, Detail::Panicked) => "panicked".to_string(),
        (_, Detail::NoPair) => "no pair".to_string(),
        (Call::Inbound { .. }, _) => {
            let (expected, msn) = view.map_or((0, 0), |view| (view.expected, view.msn));
            let done = match detail {
                Detail::Completion(Completion {
                    entry,
                    bytes,
                    immediate,
                }) => {
                    format!("{entry}:{bytes}:{}:-", or_dash(immediate))
                }
                _ => "-".to_string(),
            };
            format!(
                "{number} 0 {expected} {msn} {written} {done} {:016x}",
                fnv(memory)
            )
        }
        (Call::Next { .. }, _) => format!("{number} {written}"),
        (_, Detail::Check(check)) => format!("{number} {check}"),
        (_, Detail::Header(header)) => format!("{number} {header:?} {written}"),
        (Call::Cut(_), Detail::NextPsn(psn)) => format!("{number} {written} {psn}"),
        (Call::Cut(_), _) => format!("{number} - -"),
        (Call::WriteHeader { .. }, _) => format!("{number} {written}"),
        _ => number.to_string(),
    }
}

fn service(number: u8) -> &'static str {
    if number == RC {
        "rc"
    } else {
        "uc"
    }
}

fn or_dash(immediate: Option<u32>) -> String {
    immediate.map_or("-".to_string(), |immediate| immediate.to_string())
}

pub fn hex(bytes: &[u8]) -> String {
    if bytes.is_empty() {
        return "-".to_string();
    }
    let mut text = String::with_capacity(2 * bytes.len());
    for byte in bytes {
        write!(text, "{byte:02x}").expect("writing to a string does not fail");
    }
    text
}

/// FNV-1a, 64 bits.
fn fnv(bytes: &[u8]) -> u64 {
    bytes.iter().fold(0xcbf2_9ce4_8422_2325, |hash, byte| {
        (hash ^ u64::from(*byte)).wrapping_mul(0x0000_0100_0000_01b3)
    })
}
