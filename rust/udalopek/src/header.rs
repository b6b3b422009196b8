//! Packet headers, read and written.
use crate::raw;
use crate::Refusal;

/// The BTH of a packet, and the headers that follow it.
#[derive(Clone, Copy, Debug, PartialEq, Eq, Hash)]
pub struct Header {
    /// Opcode; its top three bits are the service.
    pub opcode: u8,
    /// Solicited event.
    pub se: bool,
    /// Migration request.
    pub migreq: bool,
    /// Pad bytes after the payload, 0 to 3.
    pub pad: u8,
    /// Transport version, 0.
    pub tver: u8,
    /// P_Key.
    pub pkey: u16,
    /// The 8 reserved bits before the destination.
    pub reserved8: u8,
    /// Destination queue pair, 24 bits.
    pub dest: u32,
    /// An acknowledgement is requested.
    pub ackreq: bool,
    /// The 7 reserved bits before the PSN.
    pub reserved7: u8,
    /// PSN, 24 bits.
    pub psn: u32,
    /// What follows the BTH. The opcode says which.
    pub extension: Extension,
}

/// The headers between the BTH and the payload.
#[derive(Clone, Copy, Debug, PartialEq, Eq, Hash)]
pub enum Extension {
    /// None.
    None,
    /// RETH.
    Reth {
        /// Address.
        address: u64,
        /// R_Key.
        key: u32,
        /// DMA length.
        length: u32,
    },
    /// RETH, then an immediate.
    RethImmediate {
        /// Address.
        address: u64,
        /// R_Key.
        key: u32,
        /// DMA length.
        length: u32,
        /// The immediate.
        immediate: u32,
    },
    /// An immediate alone.
    Immediate(u32),
    /// AtomicETH.
    Atomic {
        /// Address.
        address: u64,
        /// R_Key.
        key: u32,
        /// The value to store, or to add.
        swap: u64,
        /// The value to compare with.
        compare: u64,
    },
    /// AETH.
    Aeth {
        /// ACK or NAK, and which.
        syndrome: u8,
        /// MSN, 24 bits.
        msn: u32,
    },
    /// AETH, then AtomicAckETH.
    AethValue {
        /// ACK or NAK, and which.
        syndrome: u8,
        /// MSN, 24 bits.
        msn: u32,
        /// The value before the atomic.
        value: u64,
    },
}

impl Extension {
    /// Which it is, then address, R_Key, DMA length, swap-or-add, compare, syndrome, MSN, value and immediate; 0 for
    /// what is not there.
    fn words(self) -> [u64; 10] {
        match self {
            Extension::None => [0; 10],
            Extension::Reth {
                address,
                key,
                length,
            } => [1, address, key.into(), length.into(), 0, 0, 0, 0, 0, 0],
            Extension::RethImmediate {
                address,
                key,
                length,
                immediate,
            } => {
                let (key, length, immediate) = (key.into(), length.into(), immediate.into());
                [2, address, key, length, 0, 0, 0, 0, 0, immediate]
            }
            Extension::Immediate(immediate) => [3, 0, 0, 0, 0, 0, 0, 0, 0, immediate.into()],
            Extension::Atomic {
                address,
                key,
                swap,
                compare,
            } => [4, address, key.into(), 0, swap, compare, 0, 0, 0, 0],
            Extension::Aeth { syndrome, msn } => {
                [5, 0, 0, 0, 0, 0, syndrome.into(), msn.into(), 0, 0]
            }
            Extension::AethValue {
                syndrome,
                msn,
                value,
            } => [6, 0, 0, 0, 0, 0, syndrome.into(), msn.into(), value, 0],
        }
    }

    /// Of words that the library wrote, so each fits its field.
    fn of(words: &[u64; 10]) -> Extension {
        let &[follows, address, key, length, swap, compare, syndrome, msn, value, immediate] =
            words;
        let (key, length, immediate) = (key as u32, length as u32, immediate as u32);
        let (syndrome, msn) = (syndrome as u8, msn as u32);
        match follows {
            0 => Extension::None,
            1 => Extension::Reth {
                address,
                key,
                length,
            },
            2 => Extension::RethImmediate {
                address,
                key,
                length,
                immediate,
            },
            3 => Extension::Immediate(immediate),
            4 => Extension::Atomic {
                address,
                key,
                swap,
                compare,
            },
            5 => Extension::Aeth { syndrome, msn },
            6 => Extension::AethValue {
                syndrome,
                msn,
                value,
            },
            _ => unreachable!("the library has no headers {follows}"),
        }
    }
}

/// Reads the headers at the start of a packet of any RC or UC opcode. The error is the number of the check that failed
/// first: 1 length, 2 TVer, 5 service, 8 too short for its headers.
pub fn read_header(packet: &[u8]) -> Result<Header, u8> {
    let mut bth = [0; 11];
    let mut extension = [0; 10];
    let mut report = [0];
    if raw::read_header(packet, &mut bth, &mut extension, &mut report) != 0 {
        return Err(report[0] as u8);
    }
    let [opcode, se, migreq, pad, tver, pkey, reserved8, dest, ackreq, reserved7, psn] = bth;
    Ok(Header {
        opcode: opcode as u8,
        se: se != 0,
        migreq: migreq != 0,
        pad: pad as u8,
        tver: tver as u8,
        pkey: pkey as u16,
        reserved8: reserved8 as u8,
        dest: dest as u32,
        ackreq: ackreq != 0,
        reserved7: reserved7 as u8,
        psn: psn as u32,
        extension: Extension::of(&extension),
    })
}

/// Writes a header at the start of the output and answers its length; bytes past it stay. Refused:
/// [`Refusal::BadNumber`] for a field over its width, a TVer that is not 0, a service that is not RC or UC, or headers
/// that are not those of the opcode; then [`Refusal::OutputShort`].
pub fn write_header(header: &Header, out: &mut [u8]) -> Result<usize, Refusal> {
    let bth = [
        header.opcode.into(),
        header.se.into(),
        header.migreq.into(),
        header.pad.into(),
        header.tver.into(),
        header.pkey.into(),
        header.reserved8.into(),
        header.dest.into(),
        header.ackreq.into(),
        header.reserved7.into(),
        header.psn.into(),
    ];
    let mut report = [0];
    let number = raw::write_header(&bth, &header.extension.words(), out, &mut report);
    Refusal::unless_done(number)?;
    Ok(report[0] as usize)
}
