//! Runs a script of calls from standard input, one answer line a call.

use std::fmt::Write as _;
use std::io::{self, BufRead, BufWriter, Write};
use std::str::FromStr;

use plain::{
    cut, read_header, write_header, Completion, Connection, Entry, Extension, QueuePair, Region,
    Request, Setup, RC, UC,
};

/// The most bytes of memory or output that are lent: longer than any memory or packet.
const MOST: usize = 1 << 24;

fn main() -> io::Result<()> {
    let mut input = io::stdin().lock();
    let mut output = BufWriter::new(io::stdout().lock());
    let mut driver = Driver::default();
    let mut line = Vec::new();
    while input.read_until(b'\n', &mut line)? > 0 {
        let call = line.strip_suffix(b"\n").unwrap_or(&line);
        let answer = driver.call(call).unwrap_or_else(|| "?".to_string());
        writeln!(output, "{answer}")?;
        line.clear();
    }
    output.flush()
}

/// The words of a line still to be read; every reader gives nothing for a
/// word that is missing or malformed.
struct Words<'a>(std::slice::Split<'a, u8, fn(&u8) -> bool>);

impl<'a> Words<'a> {
    fn of(line: &'a [u8]) -> Words<'a> {
        Words(line.split(|byte| *byte == b' '))
    }

    fn word(&mut self) -> Option<&'a [u8]> {
        self.0.next()
    }

    fn end(&mut self) -> Option<()> {
        self.0.next().is_none().then_some(())
    }

    fn number<T: FromStr>(&mut self) -> Option<T> {
        number(self.word()?)
    }

    /// A number too large for its field, where the rules refuse it: `large`, which they refuse alike.
    fn number_up_to<T: FromStr>(&mut self, large: T) -> Option<T> {
        let word = self.word()?;
        let digits = !word.is_empty() && word.iter().all(u8::is_ascii_digit);
        digits.then(|| number(word).unwrap_or(large))
    }

    /// A length to lend; a longer one is answered as the longest is.
    fn bounded(&mut self) -> Option<usize> {
        Some(self.number_up_to(MOST)?.min(MOST))
    }

    fn flag(&mut self) -> Option<bool> {
        match self.word()? {
            b"0" => Some(false),
            b"1" => Some(true),
            _ => None,
        }
    }

    fn service(&mut self) -> Option<u8> {
        match self.word()? {
            b"rc" => Some(RC),
            b"uc" => Some(UC),
            _ => None,
        }
    }

    fn immediate(&mut self) -> Option<Option<u32>> {
        match self.word()? {
            b"-" => Some(None),
            word => number(word).map(Some),
        }
    }

    fn bytes(&mut self) -> Option<Vec<u8>> {
        match self.word()? {
            b"-" => Some(Vec::new()),
            word if word.is_empty() || word.len() % 2 != 0 => None,
            word => word
                .chunks(2)
                .map(|two| Some(digit(two[0])? << 4 | digit(two[1])?))
                .collect(),
        }
    }
}

/// Decimal digits only; `parse` alone would take a sign too.
fn number<T: FromStr>(word: &[u8]) -> Option<T> {
    if word.is_empty() || !word.iter().all(u8::is_ascii_digit) {
        return None;
    }
    std::str::from_utf8(word).ok()?.parse().ok()
}

fn digit(byte: u8) -> Option<u8> {
    match byte {
        b'0'..=b'9' => Some(byte - b'0'),
        b'a'..=b'f' => Some(byte - b'a' + 10),
        _ => None,
    }
}

/// The pair of the last `pair` line, with its memory.
#[derive(Default)]
struct Driver {
    pair: Option<QueuePair>,
    memory: Vec<u8>,
}

impl Driver {
    /// The answer line; nothing if the line is no call.
    fn call(&mut self, line: &[u8]) -> Option<String> {
        let mut words = Words::of(line);
        match words.word()? {
            b"pair" => self.set_up(words),
            b"region" => self.region(words),
            b"unregion" => {
                let key: u64 = words.number_up_to(u64::MAX)?;
                words.end()?;
                let key = u32::try_from(key);
                Some(self.on_pair(37, |pair| key.map_or(37, |key| pair.remove_region(key))))
            }
            b"post" => {
                let entry = Entry {
                    number: words.number()?,
                    offset: words.number_up_to(u64::MAX)?,
                    length: words.number_up_to(u64::MAX)?,
                };
                words.end()?;
                Some(self.on_pair(36, |pair| pair.post_entry(entry)))
            }
            b"ready" => {
                words.end()?;
                Some(self.on_pair(36, QueuePair::make_ready))
            }
            b"reset" => {
                words.end()?;
                Some(self.on_pair(34, QueuePair::reset))
            }
            b"in" => self.inbound(words),
            b"next" => self.next(words),
            b"header" => header(words),
            b"cut" => cut_line(words),
            _ => None,
        }
    }

    /// A call that answers its number, or `without` where there is no pair.
    fn on_pair(&mut self, without: u8, call: impl FnOnce(&mut QueuePair) -> u8) -> String {
        self.pair.as_mut().map_or(without, call).to_string()
    }

    fn set_up(&mut self, mut words: Words) -> Option<String> {
        let setup = Setup {
            service: words.service()?,
            pmtu: words.number_up_to(usize::MAX)?,
            ours: words.number_up_to(u32::MAX)?,
            theirs: words.number_up_to(u32::MAX)?,
            // Over 16 bits it is as bad a number as 0.
            pkey: words.number_up_to(0)?,
            start: words.number_up_to(u32::MAX)?,
            timer: words.number_up_to(u8::MAX)?,
            send: words.flag()?,
            write: words.flag()?,
            read: words.flag()?,
            atomic: words.flag()?,
            memory: words.number_up_to(usize::MAX)?,
        };
        let _qkey: u32 = words.number()?;
        words.end()?;
        let made = QueuePair::set_up(setup);
        let answer = made.as_ref().err().copied().unwrap_or(0);
        self.pair = made.ok();
        let length = if self.pair.is_some() { setup.memory } else { 0 };
        self.memory = (0..length).map(|i| (31 * i + 7) as u8).collect();
        Some(answer.to_string())
    }

    fn region(&mut self, mut words: Words) -> Option<String> {
        let region = Region {
            key: words.number()?,
            address: words.number_up_to(u64::MAX)?,
            length: words.number_up_to(u64::MAX)?,
            offset: words.number_up_to(u64::MAX)?,
            write: words.flag()?,
            read: words.flag()?,
            atomic: words.flag()?,
        };
        words.end()?;
        Some(self.on_pair(36, |pair| pair.add_region(region)))
    }

    fn inbound(&mut self, mut words: Words) -> Option<String> {
        let (length, room) = (words.bounded()?, words.bounded()?);
        let packet = words.bytes()?;
        words.end()?;
        let mut out = vec![0; room];
        let mut line = String::new();
        match &mut self.pair {
            None => {
                let number = if room < 24 { 35 } else { 34 };
                write!(line, "{number} 0 0 0 - - ").ok()?;
            }
            Some(pair) => {
                let answer = if length == self.memory.len() {
                    pair.inbound(&mut self.memory, &packet, &mut out)
                } else {
                    pair.inbound(&mut vec![0; length], &packet, &mut out)
                };
                let sent = hex(&out[..answer.sent]);
                let done = completion(answer.completion);
                let (expected, msn) = (pair.expected(), pair.msn());
                write!(line, "{} 0 {expected} {msn} {sent} {done} ", answer.number).ok()?;
            }
        }
        write!(line, "{:016x}", fnv(&self.memory)).ok()?;
        Some(line)
    }

    fn next(&mut self, mut words: Words) -> Option<String> {
        let (length, room) = (words.bounded()?, words.bounded()?);
        words.end()?;
        let mut out = vec![0; room];
        let (number, sent) = match &mut self.pair {
            None => (36, 0),
            Some(pair) if length == self.memory.len() => pair.next_response(&self.memory, &mut out),
            Some(pair) => pair.next_response(&vec![0; length], &mut out),
        };
        Some(format!("{number} {}", hex(&out[..sent])))
    }
}

fn header(mut words: Words) -> Option<String> {
    let packet = words.bytes()?;
    words.end()?;
    let header = match read_header(&packet) {
        Err(check) => return Some(format!("5 {check}")),
        Ok(header) => header,
    };
    let mut out = [0; 40];
    let written = write_header(&header, &mut out).ok()?;
    Some(format!(
        "0 {} {} {} {} {} {} {} {} {} {} {} {}",
        header.opcode,
        u8::from(header.se),
        u8::from(header.migreq),
        header.pad,
        header.pkey,
        header.reserved8,
        header.dest,
        u8::from(header.ackreq),
        header.reserved7,
        header.psn,
        extension(header.extension),
        hex(&out[..written]),
    ))
}

fn extension(extension: Extension) -> String {
    match extension {
        Extension::None => "-".to_string(),
        Extension::Reth {
            address,
            key,
            length,
        } => format!("reth:{address}:{key}:{length}"),
        Extension::RethImmediate {
            address,
            key,
            length,
            immediate,
        } => {
            format!("reth:{address}:{key}:{length},imm:{immediate}")
        }
        Extension::Immediate(immediate) => format!("imm:{immediate}"),
        Extension::Atomic {
            address,
            key,
            swap,
            compare,
        } => {
            format!("atomic:{address}:{key}:{swap}:{compare}")
        }
        Extension::Aeth { syndrome, msn } => format!("aeth:{syndrome}:{msn}"),
        Extension::AethValue {
            syndrome,
            msn,
            value,
        } => {
            format!("aeth:{syndrome}:{msn},value:{value}")
        }
    }
}

fn cut_line(mut words: Words) -> Option<String> {
    let service = words.service()?;
    let pmtu = words.number_up_to(usize::MAX)?;
    let dest = words.number_up_to(u32::MAX)?;
    let pkey: u32 = words.number_up_to(u32::MAX)?;
    let psn = words.number_up_to(u32::MAX)?;
    let index = words.number_up_to(usize::MAX)?;
    let room = words.bounded()?;
    let (request, message) = match words.word()? {
        b"send" => (Request::Send(words.immediate()?), words.bytes()?),
        b"write" => {
            let immediate = words.immediate()?;
            let (address, key) = (words.number()?, words.number()?);
            (
                Request::Write {
                    address,
                    key,
                    immediate,
                },
                words.bytes()?,
            )
        }
        b"read" => {
            let (address, key) = (words.number()?, words.number()?);
            let length = words.number_up_to(u32::MAX)?;
            (
                Request::Read {
                    address,
                    key,
                    length,
                },
                Vec::new(),
            )
        }
        b"swap" => {
            let (address, key) = (words.number()?, words.number()?);
            let (swap, compare) = (words.number()?, words.number()?);
            (
                Request::CmpSwap {
                    address,
                    key,
                    swap,
                    compare,
                },
                Vec::new(),
            )
        }
        b"add" => {
            let (address, key, add) = (words.number()?, words.number()?, words.number()?);
            (Request::FetchAdd { address, key, add }, Vec::new())
        }
        _ => return None,
    };
    words.end()?;
    let mut out = vec![0; room];
    let Ok(pkey) = u16::try_from(pkey) else {
        // A field over its width.
        return Some("39 - -".to_string());
    };
    let connection = Connection {
        service,
        pmtu,
        pkey,
        dest,
    };
    Some(
        match cut(connection, request, &message, psn, index, &mut out) {
            Ok((written, next)) => format!("0 {} {next}", hex(&out[..written])),
            Err(number) => format!("{number} - -"),
        },
    )
}

/// `entry:bytes:immediate:source`, the source being `-` for now.
fn completion(completion: Option<Completion>) -> String {
    match completion {
        None => "-".to_string(),
        Some(Completion {
            entry,
            bytes,
            immediate: None,
        }) => format!("{entry}:{bytes}:-:-"),
        Some(Completion {
            entry,
            bytes,
            immediate: Some(immediate),
        }) => {
            format!("{entry}:{bytes}:{immediate}:-")
        }
    }
}

fn hex(bytes: &[u8]) -> String {
    const DIGITS: &[u8; 16] = b"0123456789abcdef";
    if bytes.is_empty() {
        return "-".to_string();
    }
    let mut text = String::with_capacity(2 * bytes.len());
    for byte in bytes {
        text.push(char::from(DIGITS[usize::from(byte >> 4)]));
        text.push(char::from(DIGITS[usize::from(byte & 15)]));
    }
    text
}

/// FNV-1a, 64 bits.
fn fnv(bytes: &[u8]) -> u64 {
    bytes.iter().fold(0xcbf2_9ce4_8422_2325, |hash, byte| {
        (hash ^ u64::from(*byte)).wrapping_mul(0x0000_0100_0000_01b3)
    })
}
