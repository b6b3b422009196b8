//! Reading and writing headers ("Headers").

use crate::number::LAST;
use crate::opcode::{Class, Form};
use crate::refusal::{BAD_NUMBER, SHORT};

/// Bytes of the BTH.
pub(crate) const BTH: usize = 12;
/// Bytes of the longest packet: BTH, RETH, Immediate and 4,096 of payload.
const LONGEST: usize = 4128;

/// What follows the BTH, in wire order.
#[derive(Clone, Copy, Debug, PartialEq, Eq)]
pub enum Extension {
    None,
    Reth {
        address: u64,
        key: u32,
        length: u32,
    },
    RethImmediate {
        address: u64,
        key: u32,
        length: u32,
        immediate: u32,
    },
    Immediate(u32),
    Atomic {
        address: u64,
        key: u32,
        swap: u64,
        compare: u64,
    },
    Aeth {
        syndrome: u8,
        msn: u32,
    },
    AethValue {
        syndrome: u8,
        msn: u32,
        value: u64,
    },
}

/// The BTH with its extension headers.
#[derive(Clone, Copy, Debug, PartialEq, Eq)]
pub struct Header {
    pub opcode: u8,
    pub se: bool,
    pub migreq: bool,
    pub pad: u8,
    pub tver: u8,
    pub pkey: u16,
    pub reserved8: u8,
    pub dest: u32,
    pub ackreq: bool,
    pub reserved7: u8,
    pub psn: u32,
    pub extension: Extension,
}

impl Extension {
    #[inline]
    fn form(&self) -> Form {
        match self {
            Extension::None => Form::None,
            Extension::Reth { .. } => Form::Reth,
            Extension::RethImmediate { .. } => Form::RethImmediate,
            Extension::Immediate(_) => Form::Immediate,
            Extension::Atomic { .. } => Form::Atomic,
            Extension::Aeth { .. } => Form::Aeth,
            Extension::AethValue { .. } => Form::AethValue,
        }
    }
}

impl Header {
    /// Bytes of the BTH and the extension headers.
    #[inline]
    pub(crate) fn bytes(&self) -> usize {
        BTH + self.extension.form().bytes()
    }

    fn bth(&self) -> Bth {
        let Bth([mut first, mut to, mut sequence]) =
            Bth::new(self.opcode, self.pad, self.pkey, self.dest, self.psn);
        first |= u32::from(self.se) << 23 | u32::from(self.migreq) << 22;
        to |= u32::from(self.reserved8) << 24;
        sequence |= u32::from(self.ackreq) << 31 | u32::from(self.reserved7) << 24;
        Bth([first, to, sequence])
    }
}

#[inline]
fn be32(bytes: &[u8], at: usize) -> u32 {
    u32::from_be_bytes(bytes[at..at + 4].try_into().expect("four bytes"))
}

#[inline]
fn be64(bytes: &[u8], at: usize) -> u64 {
    u64::from_be_bytes(bytes[at..at + 8].try_into().expect("eight bytes"))
}

/// The BTH as the three words it is on the wire; fields are cut out when asked
/// for.
#[derive(Clone, Copy, Debug, PartialEq, Eq)]
pub(crate) struct Bth([u32; 3]);

impl Bth {
    /// A BTH whose SE, MigReq, AckReq and reserved bits are 0.
    #[inline]
    pub fn new(opcode: u8, pad: u8, pkey: u16, dest: u32, psn: u32) -> Bth {
        let first = u32::from(opcode) << 24 | u32::from(pad) << 20 | u32::from(pkey);
        Bth([first, dest, psn])
    }

    #[inline]
    fn from_bytes(bytes: &[u8; BTH]) -> Bth {
        Bth([be32(bytes, 0), be32(bytes, 4), be32(bytes, 8)])
    }

    #[inline]
    pub fn to_bytes(self) -> [u8; BTH] {
        let mut bytes = [0; BTH];
        for (place, word) in bytes.chunks_exact_mut(4).zip(self.0) {
            place.copy_from_slice(&word.to_be_bytes());
        }
        bytes
    }

    #[inline]
    pub fn opcode(self) -> u8 {
        (self.0[0] >> 24) as u8
    }

    #[inline]
    fn se(self) -> bool {
        self.0[0] >> 23 & 1 != 0
    }

    #[inline]
    fn migreq(self) -> bool {
        self.0[0] >> 22 & 1 != 0
    }

    #[inline]
    pub fn pad(self) -> u8 {
        (self.0[0] >> 20 & 3) as u8
    }

    #[inline]
    fn tver(self) -> u8 {
        (self.0[0] >> 16 & 15) as u8
    }

    #[inline]
    pub fn pkey(self) -> u16 {
        self.0[0] as u16
    }

    #[inline]
    fn reserved8(self) -> u8 {
        (self.0[1] >> 24) as u8
    }

    #[inline]
    pub fn dest(self) -> u32 {
        self.0[1] & LAST
    }

    #[inline]
    pub fn ackreq(self) -> bool {
        self.0[2] >> 31 != 0
    }

    #[inline]
    fn reserved7(self) -> u8 {
        (self.0[2] >> 24 & 0x7F) as u8
    }

    #[inline]
    pub fn psn(self) -> u32 {
        self.0[2] & LAST
    }
}

/// A RETH.
#[derive(Clone, Copy, Debug, PartialEq, Eq)]
pub(crate) struct Reth {
    pub address: u64,
    pub key: u32,
    pub length: u32,
}

impl Reth {
    #[inline]
    fn read(bytes: &[u8]) -> Reth {
        let bytes = &bytes[..16];
        Reth {
            address: be64(bytes, 0),
            key: be32(bytes, 8),
            length: be32(bytes, 12),
        }
    }
}

/// An AtomicETH.
#[derive(Clone, Copy, Debug, PartialEq, Eq)]
pub(crate) struct AtomicEth {
    pub address: u64,
    pub key: u32,
    pub swap: u64,
    pub compare: u64,
}

impl AtomicEth {
    #[inline]
    fn read(bytes: &[u8]) -> AtomicEth {
        let bytes = &bytes[..28];
        AtomicEth {
            address: be64(bytes, 0),
            key: be32(bytes, 8),
            swap: be64(bytes, 12),
            compare: be64(bytes, 20),
        }
    }
}

/// A packet taken apart at the borders of its headers.
#[derive(Clone, Copy, Debug)]
pub(crate) struct Packet<'a> {
    pub bth: Bth,
    pub class: Class,
    /// The extension headers, as long as the opcode says.
    extension: &'a [u8],
    /// Payload with pad.
    pub body: &'a [u8],
}

impl<'a> Packet<'a> {
    /// The error names the check that failed: 1 lengths, 2 TVer, 5 service
    /// bits, 8 too short, tested in that order.
    #[inline]
    pub fn read(packet: &'a [u8]) -> Result<Packet<'a>, u8> {
        if packet.len() > LONGEST || packet.len() % 4 != 0 {
            return Err(1);
        }
        let (bth, rest) = packet.split_first_chunk().ok_or(1)?;
        let bth = Bth::from_bytes(bth);
        if bth.tver() != 0 {
            return Err(2);
        }
        let class = Class::of(bth.opcode()).ok_or(5)?;
        let (extension, body) = rest.split_at_checked(usize::from(class.bytes)).ok_or(8)?;
        Ok(Packet {
            bth,
            class,
            extension,
            body,
        })
    }

    /// The RETH, if the opcode has one.
    #[inline]
    pub fn reth(&self) -> Option<Reth> {
        matches!(self.class.form, Form::Reth | Form::RethImmediate)
            .then(|| Reth::read(self.extension))
    }

    /// The AtomicETH, if the opcode has one.
    #[inline]
    pub fn atomic_eth(&self) -> Option<AtomicEth> {
        (self.class.form == Form::Atomic).then(|| AtomicEth::read(self.extension))
    }

    /// The Immediate, if the opcode has one: it is the last header.
    #[inline]
    pub fn immediate(&self) -> Option<u32> {
        match self.class.form {
            Form::Immediate | Form::RethImmediate => {
                self.extension.last_chunk().copied().map(u32::from_be_bytes)
            }
            _ => None,
        }
    }
}

/// Reads a header alone. The error names the check that failed: 1 lengths,
/// 2 TVer, 5 service bits, 8 too short, tested in that order.
pub fn read_header(packet: &[u8]) -> Result<Header, u8> {
    let Packet {
        bth,
        class,
        extension: rest,
        ..
    } = Packet::read(packet)?;
    let extension = match class.form {
        Form::None => Extension::None,
        Form::Reth => {
            let Reth {
                address,
                key,
                length,
            } = Reth::read(rest);
            Extension::Reth {
                address,
                key,
                length,
            }
        }
        Form::RethImmediate => {
            let Reth {
                address,
                key,
                length,
            } = Reth::read(rest);
            Extension::RethImmediate {
                address,
                key,
                length,
                immediate: be32(rest, 16),
            }
        }
        Form::Immediate => Extension::Immediate(be32(rest, 0)),
        Form::Atomic => {
            let AtomicEth {
                address,
                key,
                swap,
                compare,
            } = AtomicEth::read(rest);
            Extension::Atomic {
                address,
                key,
                swap,
                compare,
            }
        }
        Form::Aeth => Extension::Aeth {
            syndrome: rest[0],
            msn: be32(rest, 0) & LAST,
        },
        Form::AethValue => Extension::AethValue {
            syndrome: rest[0],
            msn: be32(rest, 0) & LAST,
            value: be64(rest, 4),
        },
    };
    Ok(Header {
        opcode: bth.opcode(),
        se: bth.se(),
        migreq: bth.migreq(),
        pad: bth.pad(),
        tver: bth.tver(),
        pkey: bth.pkey(),
        reserved8: bth.reserved8(),
        dest: bth.dest(),
        ackreq: bth.ackreq(),
        reserved7: bth.reserved7(),
        psn: bth.psn(),
        extension,
    })
}

/// Writes a header and answers its length. Refusals: 39 (a field over its
/// width, TVer, service bits, headers not those of the opcode), 35.
pub fn write_header(header: &Header, out: &mut [u8]) -> Result<usize, u8> {
    let msn = match header.extension {
        Extension::Aeth { msn, .. } | Extension::AethValue { msn, .. } => msn,
        _ => 0,
    };
    let fits = header.pad <= 3
        && header.tver == 0
        && header.dest <= LAST
        && header.reserved7 <= 0x7F
        && header.psn <= LAST
        && msn <= LAST;
    let class = Class::of(header.opcode);
    if !fits || class.map(|class| class.form) != Some(header.extension.form()) {
        return Err(BAD_NUMBER);
    }
    if out.len() < header.bytes() {
        return Err(SHORT);
    }
    Ok(encode(header, out))
}

/// Writes a header known to be good into an output known to be long enough.
#[inline]
fn encode(header: &Header, out: &mut [u8]) -> usize {
    let bytes = header.bytes();
    let (bth, rest) = out[..bytes].split_at_mut(BTH);
    bth.copy_from_slice(&header.bth().to_bytes());
    match header.extension {
        Extension::None => {}
        Extension::Reth {
            address,
            key,
            length,
        } => put_reth(rest, address, key, length),
        Extension::RethImmediate {
            address,
            key,
            length,
            immediate,
        } => {
            put_reth(rest, address, key, length);
            rest[16..20].copy_from_slice(&immediate.to_be_bytes());
        }
        Extension::Immediate(immediate) => rest.copy_from_slice(&immediate.to_be_bytes()),
        Extension::Atomic {
            address,
            key,
            swap,
            compare,
        } => {
            rest[..8].copy_from_slice(&address.to_be_bytes());
            rest[8..12].copy_from_slice(&key.to_be_bytes());
            rest[12..20].copy_from_slice(&swap.to_be_bytes());
            rest[20..28].copy_from_slice(&compare.to_be_bytes());
        }
        Extension::Aeth { syndrome, msn } => put_aeth(rest, syndrome, msn),
        Extension::AethValue {
            syndrome,
            msn,
            value,
        } => {
            put_aeth(rest, syndrome, msn);
            rest[4..12].copy_from_slice(&value.to_be_bytes());
        }
    }
    bytes
}

#[inline]
fn put_reth(rest: &mut [u8], address: u64, key: u32, length: u32) {
    rest[..8].copy_from_slice(&address.to_be_bytes());
    rest[8..12].copy_from_slice(&key.to_be_bytes());
    rest[12..16].copy_from_slice(&length.to_be_bytes());
}

#[inline]
fn put_aeth(rest: &mut [u8], syndrome: u8, msn: u32) {
    rest[..4].copy_from_slice(&aeth(syndrome, msn));
}

/// An AETH.
#[inline]
pub(crate) fn aeth(syndrome: u8, msn: u32) -> [u8; 4] {
    (u32::from(syndrome) << 24 | msn).to_be_bytes()
}

/// Writes header, payload and zero pad into an output known to be long
/// enough; the header's pad count is that of the payload.
#[inline]
pub(crate) fn encode_packet(header: &Header, payload: &[u8], out: &mut [u8]) -> usize {
    let start = encode(header, out);
    let end = start + payload.len();
    let whole = end + usize::from(header.pad);
    out[start..end].copy_from_slice(payload);
    out[end..whole].fill(0);
    whole
}
