//! Cutting a message into packets ("Cutting a message").

use crate::header::{encode_packet, Extension, Header};
use crate::number::{after, is_pmtu, packets, pad, LAST, LIMIT};
use crate::opcode;
use crate::refusal::{BAD_NUMBER, RANGE, SHORT};
use crate::{RC, UC};

/// What a requester asks for. SEND and WRITE take their bytes from the message.
#[derive(Clone, Copy, Debug, PartialEq, Eq)]
pub enum Request {
    Send(Option<u32>),
    Write {
        address: u64,
        key: u32,
        immediate: Option<u32>,
    },
    Read {
        address: u64,
        key: u32,
        length: u32,
    },
    CmpSwap {
        address: u64,
        key: u32,
        swap: u64,
        compare: u64,
    },
    FetchAdd {
        address: u64,
        key: u32,
        add: u64,
    },
}

/// The numbers of the connection that packets are cut for.
#[derive(Clone, Copy, Debug, PartialEq, Eq)]
pub struct Connection {
    pub service: u8,
    pub pmtu: usize,
    pub pkey: u16,
    pub dest: u32,
}

/// Writes packet `index` of a message whose first PSN is `first`. Answers the
/// bytes written and the PSN of the message after this one. Refusals: 39, 34,
/// 35 in that order.
pub fn cut(
    connection: Connection,
    request: Request,
    message: &[u8],
    first: u32,
    index: usize,
    out: &mut [u8],
) -> Result<(usize, u32), u8> {
    let Connection {
        service,
        pmtu,
        pkey,
        dest,
    } = connection;
    let carries = matches!(request, Request::Send(_) | Request::Write { .. });
    let served = service == RC || (service == UC && carries);
    if !served || !is_pmtu(pmtu) || dest > LAST || first > LAST {
        return Err(BAD_NUMBER);
    }

    // A READ moves as many bytes as its DMA length says, but brings none.
    let moved = match request {
        Request::Read { length, .. } => length as usize,
        _ if carries => message.len(),
        _ => 0,
    };
    let message = if carries { message } else { &[] };
    let numbers = packets(moved, pmtu);
    let count = if carries { numbers } else { 1 };
    if moved > LIMIT || index >= count {
        return Err(RANGE);
    }

    let last = index + 1 == count;
    let start = index * pmtu;
    let payload = if last {
        &message[start..]
    } else {
        &message[start..start + pmtu]
    };
    let (low, extension) = shape(request, message.len(), index == 0, last);
    let header = Header {
        opcode: service << 5 | low,
        se: false,
        migreq: false,
        pad: pad(payload.len()) as u8,
        tver: 0,
        pkey,
        reserved8: 0,
        dest,
        ackreq: last,
        reserved7: 0,
        psn: after(first, index as u32),
        extension,
    };
    if out.len() < header.bytes() + payload.len() + usize::from(header.pad) {
        return Err(SHORT);
    }
    let written = encode_packet(&header, payload, out);
    // A message takes its packets' PSNs, a READ those of its responses.
    Ok((written, after(first, numbers as u32)))
}

/// Opcode bits 4 to 0 and extension headers of one packet of a request.
fn shape(request: Request, length: usize, first: bool, last: bool) -> (u8, Extension) {
    match request {
        Request::Send(immediate) => {
            let extension = match immediate {
                Some(immediate) if last => Extension::Immediate(immediate),
                _ => Extension::None,
            };
            (
                opcode::SEND + part(first, last, immediate.is_some()),
                extension,
            )
        }
        Request::Write {
            address,
            key,
            immediate,
        } => {
            let length = length as u32;
            let extension = match immediate {
                Some(immediate) if first && last => Extension::RethImmediate {
                    address,
                    key,
                    length,
                    immediate,
                },
                _ if first => Extension::Reth {
                    address,
                    key,
                    length,
                },
                Some(immediate) if last => Extension::Immediate(immediate),
                _ => Extension::None,
            };
            (
                opcode::WRITE + part(first, last, immediate.is_some()),
                extension,
            )
        }
        Request::Read {
            address,
            key,
            length,
        } => (
            opcode::READ,
            Extension::Reth {
                address,
                key,
                length,
            },
        ),
        Request::CmpSwap {
            address,
            key,
            swap,
            compare,
        } => (
            opcode::CMP_SWAP,
            Extension::Atomic {
                address,
                key,
                swap,
                compare,
            },
        ),
        Request::FetchAdd { address, key, add } => (
            opcode::FETCH_ADD,
            Extension::Atomic {
                address,
                key,
                swap: add,
                compare: 0,
            },
        ),
    }
}

/// First 0, Middle 1, Last 2, Last Imm 3, Only 4, Only Imm 5.
fn part(first: bool, last: bool, immediate: bool) -> u8 {
    match (first, last) {
        (true, false) => 0,
        (false, false) => 1,
        (false, true) => 2 + u8::from(immediate),
        (true, true) => 4 + u8::from(immediate),
    }
}
