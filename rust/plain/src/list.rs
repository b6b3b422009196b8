//! The packet lister: the fields of each packet's headers in words.

use std::fmt::Display;
use std::io::{self, Write};

use crate::header::{read_header, write_header, Extension, Header};
use crate::opcode;
use crate::{record, UC};

/// The names of the opcodes by their bits 4 to 0.
const NAMES: [&str; 21] = [
    "SEND First",
    "SEND Middle",
    "SEND Last",
    "SEND Last with Immediate",
    "SEND Only",
    "SEND Only with Immediate",
    "RDMA WRITE First",
    "RDMA WRITE Middle",
    "RDMA WRITE Last",
    "RDMA WRITE Last with Immediate",
    "RDMA WRITE Only",
    "RDMA WRITE Only with Immediate",
    "RDMA READ request",
    "RDMA READ response First",
    "RDMA READ response Middle",
    "RDMA READ response Last",
    "RDMA READ response Only",
    "Acknowledge",
    "Atomic Acknowledge",
    "CmpSwap",
    "FetchAdd",
];

/// Lists the packets of the records of `input`.
pub fn list(input: &[u8], output: &mut impl Write) -> io::Result<()> {
    record::for_each(input, output, |output, number, packet| {
        writeln!(output, "packet {number}, {}", bytes(packet.len()))?;
        match read_header(packet) {
            Ok(header) => whole(output, &header, packet),
            Err(check) => dropped(output, check),
        }
    })
}

/// A packet whose header reads.
fn whole(output: &mut impl Write, header: &Header, packet: &[u8]) -> io::Result<()> {
    bth(output, header)?;
    extension(output, header.extension)?;
    let payload = packet.len() - header.bytes();
    item(output, "payload", padded(payload, header.pad))?;
    item(output, "written back", written_back(header, packet))
}

/// A packet whose header does not read, and the check of reading alone that
/// it fails first.
fn dropped(output: &mut impl Write, check: u8) -> io::Result<()> {
    let text = match check {
        1 => "length, not 12 to 4,128 bytes or no multiple of 4",
        2 => "transport version, not 0",
        5 => "service, neither RC nor UC",
        8 => "too short for its headers",
        _ => unreachable!("reading alone has no check {check}"),
    };
    item(output, "dropped", format_args!("check {check}: {text}"))
}

fn bth(output: &mut impl Write, header: &Header) -> io::Result<()> {
    // Reading alone lets no third service through.
    let uc = header.opcode >> 5 == UC;
    let service = if uc { "UC" } else { "RC" };
    let opcode = format!("0x{:02x}  {service} {}", header.opcode, name(header.opcode));
    title(output, "BTH")?;
    field(output, "opcode", opcode)?;
    field(output, "SE", u8::from(header.se))?;
    field(output, "MigReq", u8::from(header.migreq))?;
    field(output, "PadCnt", header.pad)?;
    field(output, "TVer", header.tver)?;
    field(output, "P_Key", hex(header.pkey, 4))?;
    field(output, "reserved 8", hex(header.reserved8, 2))?;
    field(output, "DestQP", hex(header.dest, 6))?;
    field(output, "AckReq", u8::from(header.ackreq))?;
    field(output, "reserved 7", hex(header.reserved7, 2))?;
    field(output, "PSN", header.psn)
}

fn extension(output: &mut impl Write, extension: Extension) -> io::Result<()> {
    match extension {
        Extension::None => Ok(()),
        Extension::Reth {
            address,
            key,
            length,
        } => reth(output, address, key, length),
        Extension::RethImmediate {
            address,
            key,
            length,
            immediate: data,
        } => {
            reth(output, address, key, length)?;
            immediate(output, data)
        }
        Extension::Immediate(data) => immediate(output, data),
        Extension::Atomic {
            address,
            key,
            swap,
            compare,
        } => {
            title(output, "AtomicETH")?;
            field(output, "address", hex(address, 16))?;
            field(output, "R_Key", hex(key, 8))?;
            field(output, "swap/add", hex(swap, 16))?;
            field(output, "compare", hex(compare, 16))
        }
        Extension::Aeth { syndrome, msn } => aeth(output, syndrome, msn),
        Extension::AethValue {
            syndrome,
            msn,
            value,
        } => {
            aeth(output, syndrome, msn)?;
            title(output, "AtomicAckETH")?;
            field(output, "original", hex(value, 16))
        }
    }
}

fn reth(output: &mut impl Write, address: u64, key: u32, length: u32) -> io::Result<()> {
    title(output, "RETH")?;
    field(output, "address", hex(address, 16))?;
    field(output, "R_Key", hex(key, 8))?;
    field(output, "DMA length", length)
}

fn aeth(output: &mut impl Write, syndrome: u8, msn: u32) -> io::Result<()> {
    title(output, "AETH")?;
    field(output, "syndrome", hex(syndrome, 2))?;
    field(output, "MSN", msn)
}

fn immediate(output: &mut impl Write, data: u32) -> io::Result<()> {
    title(output, "Immediate")?;
    field(output, "data", hex(data, 8))
}

/// The name of an RC or UC opcode. UC has SEND and WRITE only: all from READ
/// on is reserved there.
fn name(opcode: u8) -> &'static str {
    let known = if opcode >> 5 == UC {
        &NAMES[..usize::from(opcode::READ)]
    } else {
        &NAMES[..]
    };
    known.get(usize::from(opcode & 31)).unwrap_or(&"reserved")
}

/// The bytes after the headers. The pad is the last of them, unless the packet
/// claims more pad than it has bytes, which reading alone does not look at.
fn padded(payload: usize, pad: u8) -> String {
    let count = bytes(payload);
    if payload < usize::from(pad) {
        format!("{count}, fewer than PadCnt {pad}")
    } else {
        format!("{count}, of which {pad} pad")
    }
}

/// Writes the header again from its fields and compares it with the packet.
fn written_back(header: &Header, packet: &[u8]) -> String {
    let mut out = vec![0; header.bytes()];
    match write_header(header, &mut out) {
        Ok(written) if packet.starts_with(&out[..written]) => "same".to_string(),
        Ok(_) => "DIFFERENT".to_string(),
        Err(number) => format!("refused {number}"),
    }
}

/// A count of bytes in words.
fn bytes(count: usize) -> String {
    let unit = if count == 1 { "byte" } else { "bytes" };
    format!("{count} {unit}")
}

/// A number of this many hexadecimal digits.
fn hex(number: impl Into<u64>, digits: usize) -> String {
    format!("0x{:0digits$x}", number.into())
}

/// The line of a header's name.
fn title(output: &mut impl Write, name: &str) -> io::Result<()> {
    writeln!(output, "  {name}")
}

/// A line about the packet. Its value begins where a field's does.
fn item(output: &mut impl Write, name: &str, value: impl Display) -> io::Result<()> {
    writeln!(output, "  {name:<14}{value}")
}

/// The line of a header's field.
fn field(output: &mut impl Write, name: &str, value: impl Display) -> io::Result<()> {
    writeln!(output, "    {name:<12}{value}")
}

#[cfg(test)]
mod tests {
    use super::*;

    const ACKNOWLEDGE: [u8; 16] = [
        0x11, 0, 0xFF, 0xFF, 0, 0, 0, 0x34, 0, 0, 0, 7, 0x1F, 0, 0, 1,
    ];

    /// No packet shows the two other outcomes, since all that reads is written
    /// back as it was; a header that is not the packet's does.
    #[test]
    fn the_outcomes_of_writing_back() {
        let header = read_header(&ACKNOWLEDGE).unwrap();
        assert_eq!(written_back(&header, &ACKNOWLEDGE), "same");
        for at in 0..ACKNOWLEDGE.len() {
            let mut packet = ACKNOWLEDGE;
            packet[at] ^= 1;
            assert_eq!(written_back(&header, &packet), "DIFFERENT");
        }
        assert_eq!(written_back(&header, &ACKNOWLEDGE[..12]), "DIFFERENT");
        let wide = Header {
            psn: 1 << 24,
            ..header
        };
        assert_eq!(written_back(&wide, &ACKNOWLEDGE), "refused 39");
        let bare = Header {
            extension: Extension::None,
            ..header
        };
        assert_eq!(written_back(&bare, &ACKNOWLEDGE), "refused 39");
    }

    /// A payload is a multiple of 4, so no packet shows these.
    #[test]
    fn payloads_of_a_few_bytes() {
        assert_eq!(padded(1, 1), "1 byte, of which 1 pad");
        assert_eq!(padded(1, 2), "1 byte, fewer than PadCnt 2");
        assert_eq!(padded(2, 2), "2 bytes, of which 2 pad");
        assert_eq!(padded(2, 3), "2 bytes, fewer than PadCnt 3");
    }
}
