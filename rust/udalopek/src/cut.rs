//! Messages cut into packets.
use crate::raw;
use crate::{Refusal, Service};

/// Where packets go.
#[derive(Clone, Copy, Debug, PartialEq, Eq, Hash)]
pub struct Connection {
    /// The connection.
    pub service: Service,
    /// 256, 512, 1024, 2048 or 4096.
    pub pmtu: usize,
    /// P_Key.
    pub pkey: u16,
    /// Destination queue pair, 24 bits.
    pub dest: u32,
}

/// What a message asks for.
#[derive(Clone, Copy, Debug, PartialEq, Eq, Hash)]
pub enum Request {
    /// SEND, with an immediate or without.
    Send(Option<u32>),
    /// RDMA WRITE.
    Write {
        /// Address of the first byte.
        address: u64,
        /// R_Key.
        key: u32,
        /// The immediate, if it is to have one.
        immediate: Option<u32>,
    },
    /// RDMA READ.
    Read {
        /// Address of the first byte.
        address: u64,
        /// R_Key.
        key: u32,
        /// How many bytes are asked for.
        length: u32,
    },
    /// Stores a value if the old one is the one compared with.
    CmpSwap {
        /// Address, a multiple of 8.
        address: u64,
        /// R_Key.
        key: u32,
        /// The value to store.
        swap: u64,
        /// The value to compare with.
        compare: u64,
    },
    /// Adds to a value.
    FetchAdd {
        /// Address, a multiple of 8.
        address: u64,
        /// R_Key.
        key: u32,
        /// The value to add.
        add: u64,
    },
}

/// A request as the library takes it: the kind, and 0 for numbers that it has no use for.
#[derive(Default)]
struct Asked {
    kind: u8,
    address: u64,
    key: u32,
    length: u32,
    swap: u64,
    compare: u64,
    immediate: u32,
}

impl Asked {
    fn of(request: Request) -> Asked {
        match request {
            // The kind with an immediate comes after the one without.
            Request::Send(immediate) => Asked {
                kind: immediate.is_some().into(),
                immediate: immediate.unwrap_or(0),
                ..Asked::default()
            },
            Request::Write {
                address,
                key,
                immediate,
            } => Asked {
                kind: 2 + u8::from(immediate.is_some()),
                address,
                key,
                immediate: immediate.unwrap_or(0),
                ..Asked::default()
            },
            Request::Read {
                address,
                key,
                length,
            } => Asked {
                kind: 4,
                address,
                key,
                length,
                ..Asked::default()
            },
            Request::CmpSwap {
                address,
                key,
                swap,
                compare,
            } => Asked {
                kind: 5,
                address,
                key,
                swap,
                compare,
                ..Asked::default()
            },
            Request::FetchAdd { address, key, add } => Asked {
                kind: 6,
                address,
                key,
                swap: add,
                ..Asked::default()
            },
        }
    }
}

/// Writes one packet of a message, counted from 0, at the start of the output, and answers its length and the PSN that
/// the next message begins with. `first` is the PSN of this message's first packet. A READ or atomic is one packet, and
/// `message` is not looked at. Refused: [`Refusal::BadNumber`], [`Refusal::OutOfRange`], [`Refusal::OutputShort`], in
/// this order.
pub fn cut(
    connection: Connection,
    request: Request,
    message: &[u8],
    first: u32,
    index: usize,
    out: &mut [u8],
) -> Result<(usize, u32), Refusal> {
    let asked = Asked::of(request);
    let mut report = [0; 2];
    let number = raw::cut(
        connection.service.number(),
        connection.pmtu,
        connection.pkey,
        connection.dest,
        first,
        index,
        asked.kind,
        asked.address,
        asked.key,
        asked.length,
        asked.swap,
        asked.compare,
        asked.immediate,
        message,
        out,
        &mut report,
    );
    Refusal::unless_done(number)?;
    Ok((report[0] as usize, report[1] as u32))
}
