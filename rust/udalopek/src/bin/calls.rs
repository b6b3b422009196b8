//! Runs a script of calls, one a line, from standard input, and writes one line of answers for each. The form is made to be
//! compared byte by byte with what any other implementation writes; a line that is no call gets `?`.
use std::fmt::Write as _;
use std::io::{self, BufRead, BufWriter, Write as _};
use std::str::FromStr;
use udalopek::{
    cut, read_header, write_header, Completion, Connection, Entry, Extension, QueuePair, Refusal,
    Region, Request, Service, Setup,
};

/// The longest memory or output that is lent.
const LENT: usize = 16_777_216;

/// The least output that `in` takes.
const REPLY: usize = 24;

/// The longest header: a BTH and an AtomicETH.
const HEADER: usize = 40;

fn main() -> io::Result<()> {
    let mut input = io::stdin().lock();
    let mut output = BufWriter::new(io::stdout().lock());
    let mut host = Host { pair: None };
    let mut line = Vec::new();
    while input.read_until(b'\n', &mut line)? != 0 {
        if line.last() == Some(&b'\n') {
            line.pop();
        }
        let text = std::str::from_utf8(&line).ok();
        let answer = text.and_then(|text| host.call(text));
        writeln!(output, "{}", answer.as_deref().unwrap_or("?"))?;
        line.clear();
    }
    output.flush()
}

/// The pair that the last accepted `pair` line set up, with its memory.
struct Host {
    pair: Option<(QueuePair, Vec<u8>)>,
}

impl Host {
    /// The answer to a line, or none if it is no call.
    fn call(&mut self, line: &str) -> Option<String> {
        let words: Vec<&str> = line.split(' ').collect();
        Some(match *words.as_slice() {
            ["pair", service, pmtu, ours, theirs, pkey, start, timer, send, write, read, atomic, memory, qkey] =>
            {
                // The Q_Key is of the datagram service, which is not here yet.
                number::<u32>(qkey)?;
                self.set_up(Setup {
                    service: service_named(service)?,
                    pmtu: number_or(pmtu, usize::MAX)?,
                    ours: number_or(ours, u32::MAX)?,
                    theirs: number_or(theirs, u32::MAX)?,
                    // No P_Key is 0, nor over 16 bits.
                    pkey: number_or(pkey, 0)?,
                    start: number_or(start, u32::MAX)?,
                    timer: number_or(timer, u8::MAX)?,
                    send: flag(send)?,
                    write: flag(write)?,
                    read: flag(read)?,
                    atomic: flag(atomic)?,
                    memory: number_or(memory, usize::MAX)?,
                })
            }
            ["region", key, address, length, offset, write, read, atomic] => {
                let region = Region {
                    key: number(key)?,
                    address: number_or(address, u64::MAX)?,
                    length: number_or(length, u64::MAX)?,
                    offset: number_or(offset, u64::MAX)?,
                    write: flag(write)?,
                    read: flag(read)?,
                    atomic: flag(atomic)?,
                };
                self.on_pair(Refusal::WrongState, |pair| pair.add_region(region))
            }
            ["unregion", key] => {
                // No key has more than 32 bits, so none is taken back.
                let known = number::<u32>(key);
                number_or(key, 0)?;
                self.on_pair(Refusal::NoSuchKey, |pair| {
                    known.map_or(Err(Refusal::NoSuchKey), |key| pair.remove_region(key))
                })
            }
            ["post", name, offset, length] => {
                let entry = Entry {
                    number: number(name)?,
                    offset: number_or(offset, u64::MAX)?,
                    length: number_or(length, u64::MAX)?,
                };
                self.on_pair(Refusal::WrongState, |pair| pair.post_entry(entry))
            }
            ["ready"] => self.on_pair(Refusal::WrongState, QueuePair::make_ready),
            ["reset"] => self.on_pair(Refusal::OutOfRange, QueuePair::reset),
            ["in", memory, out, packet] => self.inbound(lent(memory)?, lent(out)?, &bytes(packet)?),
            ["next", memory, out] => self.next(lent(memory)?, lent(out)?),
            ["header", packet] => header(&bytes(packet)?),
            ["cut", service, pmtu, dest, pkey, psn, index, out, ref kind @ ..] => {
                let (service, pmtu) = (service_named(service)?, number_or(pmtu, usize::MAX)?);
                let (dest, pkey) = (number_or(dest, u32::MAX)?, number_or(pkey, u32::MAX)?);
                let first = number_or(psn, u32::MAX)?;
                let (index, out) = (number_or(index, usize::MAX)?, lent(out)?);
                let (request, message) = asked(kind)?;
                let Ok(pkey) = u16::try_from(pkey) else {
                    // A field over its width is a bad number.
                    return Some(format!("{} - -", Refusal::BadNumber.number()));
                };
                let connection = Connection {
                    service,
                    pmtu,
                    pkey,
                    dest,
                };
                cut_packet(connection, request, &message, first, index, out)
            }
            _ => return None,
        })
    }

    /// Memory begins anew with each pair. A refused set-up leaves none.
    fn set_up(&mut self, setup: Setup) -> String {
        self.pair = None;
        done(QueuePair::set_up(setup).map(|pair| {
            let memory = (0..setup.memory).map(|i| (31 * i + 7) as u8).collect();
            self.pair = Some((pair, memory));
        }))
    }

    /// A call that answers a number only; `absent` is the answer without a pair.
    fn on_pair(
        &mut self,
        absent: Refusal,
        call: impl FnOnce(&mut QueuePair) -> Result<(), Refusal>,
    ) -> String {
        done(match &mut self.pair {
            Some((pair, _)) => call(pair),
            None => Err(absent),
        })
    }

    fn inbound(&mut self, length: usize, room: usize, packet: &[u8]) -> String {
        let mut out = vec![0; room];
        let Some((pair, memory)) = &mut self.pair else {
            let refusal = if room < REPLY {
                Refusal::OutputShort
            } else {
                Refusal::OutOfRange
            };
            return format!("{} 0 0 0 - - {:016x}", refusal.number(), fnv(&[]));
        };
        let got = if length == memory.len() {
            pair.inbound(memory, packet, &mut out)
        } else {
            pair.inbound(&mut vec![0; length], packet, &mut out)
        };
        let (number, outgoing, completion) = match got {
            Ok(got) => (got.answer.number(), got.outgoing, got.completion),
            Err(refusal) => (refusal.number(), 0, None),
        };
        format!(
            "{number} 0 {} {} {} {} {:016x}",
            pair.expected(),
            pair.msn(),
            hex(&out[..outgoing]),
            completed(completion),
            fnv(memory)
        )
    }

    fn next(&mut self, length: usize, room: usize) -> String {
        let mut out = vec![0; room];
        let got = match &mut self.pair {
            Some((pair, memory)) if length == memory.len() => pair.next_response(memory, &mut out),
            Some((pair, _)) => pair.next_response(&vec![0; length], &mut out),
            None => Err(Refusal::WrongState),
        };
        match got {
            Ok(outgoing) => format!("0 {}", hex(&out[..outgoing])),
            Err(refusal) => format!("{} -", refusal.number()),
        }
    }
}

/// Reads a header, then writes it back.
fn header(packet: &[u8]) -> String {
    let header = match read_header(packet) {
        Ok(header) => header,
        Err(check) => return format!("5 {check}"),
    };
    let mut out = [0; HEADER];
    // Whatever reads is written; if not, nothing is to be seen in its place.
    let written = write_header(&header, &mut out).unwrap_or(0);
    format!(
        "0 {} {} {} {} {} {} {} {} {} {} {} {}",
        header.opcode,
        u8::from(header.se),
        u8::from(header.migreq),
        header.pad,
        header.pkey,
        header.reserved8,
        header.dest,
        u8::from(header.ackreq),
        header.reserved7,
        header.psn,
        extension(header.extension),
        hex(&out[..written])
    )
}

fn cut_packet(
    connection: Connection,
    request: Request,
    message: &[u8],
    first: u32,
    index: usize,
    room: usize,
) -> String {
    let mut out = vec![0; room];
    match cut(connection, request, message, first, index, &mut out) {
        Ok((written, next)) => format!("0 {} {next}", hex(&out[..written])),
        Err(refusal) => format!("{} - -", refusal.number()),
    }
}

/// The words after a cut's numbers: what is asked for, and the message.
fn asked(words: &[&str]) -> Option<(Request, Vec<u8>)> {
    Some(match *words {
        ["send", immediate, data] => (Request::Send(optional(immediate)?), bytes(data)?),
        ["write", immediate, address, key, data] => {
            let request = Request::Write {
                address: number(address)?,
                key: number(key)?,
                immediate: optional(immediate)?,
            };
            (request, bytes(data)?)
        }
        ["read", address, key, length] => {
            let request = Request::Read {
                address: number(address)?,
                key: number(key)?,
                length: number_or(length, u32::MAX)?,
            };
            (request, Vec::new())
        }
        ["swap", address, key, swap, compare] => {
            let request = Request::CmpSwap {
                address: number(address)?,
                key: number(key)?,
                swap: number(swap)?,
                compare: number(compare)?,
            };
            (request, Vec::new())
        }
        ["add", address, key, add] => {
            let request = Request::FetchAdd {
                address: number(address)?,
                key: number(key)?,
                add: number(add)?,
            };
            (request, Vec::new())
        }
        _ => return None,
    })
}

// Words of a call.

/// Decimal digits only: the standard parser takes a sign too. Too large for the field is no number: of keys, immediates, atomic
/// operands and entries' names the rules have no refusal for it.
fn number<T: FromStr>(word: &str) -> Option<T> {
    let digits = word.bytes().all(|byte| byte.is_ascii_digit());
    word.parse().ok().filter(|_| digits)
}

/// A number that the rules refuse where it is too large: then another that they refuse in the same way.
fn number_or<T: FromStr>(word: &str, refused: T) -> Option<T> {
    let digits = !word.is_empty() && word.bytes().all(|byte| byte.is_ascii_digit());
    digits.then(|| word.parse().unwrap_or(refused))
}

fn optional(word: &str) -> Option<Option<u32>> {
    match word {
        "-" => Some(None),
        _ => number(word).map(Some),
    }
}

fn flag(word: &str) -> Option<bool> {
    match word {
        "0" => Some(false),
        "1" => Some(true),
        _ => None,
    }
}

/// A length to lend. No memory that is set up is as long as the longest, and no packet; so a longer one gets the same answer.
fn lent(word: &str) -> Option<usize> {
    number_or(word, LENT).map(|length| length.min(LENT))
}

fn service_named(word: &str) -> Option<Service> {
    match word {
        "rc" => Some(Service::Rc),
        "uc" => Some(Service::Uc),
        _ => None,
    }
}

/// Hex digits of the lower case, two a byte; `-` for no bytes, which no empty word says.
fn bytes(word: &str) -> Option<Vec<u8>> {
    if word == "-" {
        return Some(Vec::new());
    }
    let pairs = word.as_bytes().chunks_exact(2);
    if word.is_empty() || !pairs.remainder().is_empty() {
        return None;
    }
    pairs
        .map(|pair| Some(digit(pair[0])? << 4 | digit(pair[1])?))
        .collect()
}

fn digit(byte: u8) -> Option<u8> {
    match byte {
        b'0'..=b'9' => Some(byte - b'0'),
        b'a'..=b'f' => Some(byte - b'a' + 10),
        _ => None,
    }
}

// Words of an answer.

fn done(result: Result<(), Refusal>) -> String {
    result.map_or_else(Refusal::number, |()| 0).to_string()
}

fn hex(bytes: &[u8]) -> String {
    if bytes.is_empty() {
        return "-".to_string();
    }
    let mut text = String::with_capacity(2 * bytes.len());
    for byte in bytes {
        write!(text, "{byte:02x}").expect("a string takes any text");
    }
    text
}

/// The source, last, is of the datagram service.
fn completed(completion: Option<Completion>) -> String {
    match completion {
        None => "-".to_string(),
        Some(Completion {
            entry,
            bytes,
            immediate: None,
        }) => format!("{entry}:{bytes}:-:-"),
        Some(Completion {
            entry,
            bytes,
            immediate: Some(immediate),
        }) => format!("{entry}:{bytes}:{immediate}:-"),
    }
}

fn extension(extension: Extension) -> String {
    match extension {
        Extension::None => "-".to_string(),
        Extension::Reth {
            address,
            key,
            length,
        } => format!("reth:{address}:{key}:{length}"),
        Extension::RethImmediate {
            address,
            key,
            length,
            immediate,
        } => format!("reth:{address}:{key}:{length},imm:{immediate}"),
        Extension::Immediate(immediate) => format!("imm:{immediate}"),
        Extension::Atomic {
            address,
            key,
            swap,
            compare,
        } => format!("atomic:{address}:{key}:{swap}:{compare}"),
        Extension::Aeth { syndrome, msn } => format!("aeth:{syndrome}:{msn}"),
        Extension::AethValue {
            syndrome,
            msn,
            value,
        } => format!("aeth:{syndrome}:{msn},value:{value}"),
    }
}

/// FNV-1a, 64 bits.
fn fnv(bytes: &[u8]) -> u64 {
    bytes.iter().fold(0xcbf2_9ce4_8422_2325, |hash, &byte| {
        (hash ^ u64::from(byte)).wrapping_mul(0x0000_0100_0000_01b3)
    })
}
