//! A queue pair with its tables, and the calls of its host.
use crate::raw;
use crate::{Answer, Refusal};
use std::fmt;

/// Which connection a pair is an end of.
#[derive(Clone, Copy, Debug, PartialEq, Eq, Hash)]
#[repr(u8)]
pub enum Service {
    /// Reliable connection.
    Rc = 0,
    /// Unreliable connection.
    Uc = 1,
}

impl Service {
    /// Its number, which is also its opcode bits.
    #[inline]
    pub fn number(self) -> u8 {
        self as u8
    }
}

/// The numbers of a pair that stay until the next set-up.
#[derive(Clone, Copy, Debug, PartialEq, Eq, Hash)]
pub struct Setup {
    /// The connection.
    pub service: Service,
    /// 256, 512, 1024, 2048 or 4096.
    pub pmtu: usize,
    /// Our queue pair number, 24 bits.
    pub ours: u32,
    /// Their queue pair number, 24 bits.
    pub theirs: u32,
    /// Our P_Key; its low 15 bits are not 0.
    pub pkey: u16,
    /// The first PSN to expect, 24 bits.
    pub start: u32,
    /// The timer code of a not ready NAK, 0 to 31.
    pub timer: u8,
    /// SEND is enabled.
    pub send: bool,
    /// RDMA WRITE is enabled.
    pub write: bool,
    /// RDMA READ is enabled.
    pub read: bool,
    /// Atomics are enabled.
    pub atomic: bool,
    /// The length of the memory that calls will be lent, at most 1,048,576.
    pub memory: usize,
}

/// A part of memory that the other side may name by key and address.
#[derive(Clone, Copy, Debug, PartialEq, Eq, Hash)]
pub struct Region {
    /// The R_Key.
    pub key: u32,
    /// The address that its first byte has for the other side.
    pub address: u64,
    /// How many bytes, at least 1.
    pub length: u64,
    /// Where it begins in memory.
    pub offset: u64,
    /// It may be written.
    pub write: bool,
    /// It may be read.
    pub read: bool,
    /// Atomics may be executed in it.
    pub atomic: bool,
}

impl Region {
    #[inline]
    fn of([key, address, length, offset, write, read, atomic]: [u64; 7]) -> Region {
        Region {
            key: key as u32,
            address,
            length,
            offset,
            write: write != 0,
            read: read != 0,
            atomic: atomic != 0,
        }
    }
}

/// A receive entry: memory for one message.
#[derive(Clone, Copy, Debug, PartialEq, Eq, Hash)]
pub struct Entry {
    /// The host's own number for it, which the completion names.
    pub number: u64,
    /// Where it begins in memory.
    pub offset: u64,
    /// How many bytes; may be 0.
    pub length: u64,
}

/// The report to the host of a message that took a receive entry.
#[derive(Clone, Copy, Debug, PartialEq, Eq, Hash)]
pub struct Completion {
    /// The number of the entry.
    pub entry: u64,
    /// The bytes of the message; a WRITE's lie in its region, not in the entry.
    pub bytes: u64,
    /// The immediate, if the message has one.
    pub immediate: Option<u32>,
}

/// What a packet came to.
#[derive(Clone, Copy, Debug, PartialEq, Eq, Hash)]
pub struct Received {
    /// What became of it.
    pub answer: Answer,
    /// How many bytes at the start of the output are to be sent: 0, 16 or 24.
    pub outgoing: usize,
    /// The message that it ended, if that took an entry.
    pub completion: Option<Completion>,
}

/// The state of a pair.
#[derive(Clone, Copy, Debug, PartialEq, Eq, Hash)]
#[repr(u8)]
pub enum State {
    /// Set up or reset: packets are dropped.
    Init = 0,
    /// Packets are taken.
    Ready = 1,
    /// After a NAK for an invalid request or for access: packets are dropped until a reset.
    Error = 2,
}

impl State {
    /// Its number.
    #[inline]
    pub fn number(self) -> u8 {
        self as u8
    }
}

/// The receiving side of a queue pair. Memory is the host's: each call that needs it is lent it, always the same and of
/// the length set up.
#[derive(Clone)]
pub struct QueuePair {
    words: [u64; raw::WORDS],
    regions: raw::Regions,
    entries: raw::Entries,
    saved: raw::Saved,
}

// Which of the words are looked at here.
const PMTU: usize = 0;
const KIND: usize = 12;
const STORED: usize = 13;
/// Address, R_Key and DMA length of an open WRITE.
const WRITE: [usize; 3] = [14, 15, 16];
const ENTRIES: (usize, usize) = (17, 18);
const PENDING: usize = 19;
/// Offset, length, first PSN and MSN of a READ that is being answered.
const READ: [usize; 4] = [20, 21, 22, 23];
const SAVED: (usize, usize) = (24, 25);
const EXPECTED: usize = 26;
const MSN: usize = 27;
const STATE: usize = 28;
const NAK_MARK: usize = 29;

const KIND_SEND: u64 = 0;
const KIND_WRITE: u64 = 6;
const KIND_NONE: u64 = 255;

impl QueuePair {
    /// A pair in state Init, with empty tables. Refused: [`Refusal::BadNumber`], [`Refusal::OutOfRange`] for memory
    /// over the limit.
    #[inline]
    pub fn set_up(setup: Setup) -> Result<QueuePair, Refusal> {
        let mut pair = QueuePair {
            words: [0; raw::WORDS],
            regions: [[0; 7]; 16],
            entries: [[0; 3]; 16],
            saved: [[0; 2]; 16],
        };
        let number = raw::set_up(
            &mut pair.words,
            &mut pair.regions,
            setup.service.number(),
            setup.pmtu,
            setup.ours,
            setup.theirs,
            setup.pkey,
            setup.start,
            setup.timer,
            setup.send,
            setup.write,
            setup.read,
            setup.atomic,
            setup.memory,
        );
        Refusal::unless_done(number)?;
        Ok(pair)
    }

    /// Lets the other side name a part of memory. Refused: [`Refusal::WrongState`] in Error, [`Refusal::OutOfRange`],
    /// [`Refusal::KeyInUse`], [`Refusal::TableFull`], in this order.
    #[inline]
    pub fn add_region(&mut self, region: Region) -> Result<(), Refusal> {
        Refusal::unless_done(raw::add_region(
            &self.words,
            &mut self.regions,
            region.key,
            region.address,
            region.length,
            region.offset,
            region.write,
            region.read,
            region.atomic,
        ))
    }

    /// Takes a key back; a READ that is being answered goes on. Refused: [`Refusal::NoSuchKey`].
    #[inline]
    pub fn remove_region(&mut self, key: u32) -> Result<(), Refusal> {
        Refusal::unless_done(raw::remove_region(&self.words, &mut self.regions, key))
    }

    /// Gives memory for one message, behind the entries that wait. Refused: [`Refusal::WrongState`] in Error,
    /// [`Refusal::OutOfRange`], [`Refusal::TableFull`], in this order.
    #[inline]
    pub fn post_entry(&mut self, entry: Entry) -> Result<(), Refusal> {
        Refusal::unless_done(raw::post_entry(
            &mut self.words,
            &mut self.entries,
            entry.number,
            entry.offset,
            entry.length,
        ))
    }

    /// Takes packets from now on. Refused: [`Refusal::WrongState`] unless Init.
    #[inline]
    pub fn make_ready(&mut self) -> Result<(), Refusal> {
        Refusal::unless_done(raw::make_ready(&mut self.words))
    }

    /// Back to Init with the numbers of the set-up, empty tables and MSN 0. Memory stays as it is.
    #[inline]
    pub fn reset(&mut self) -> Result<(), Refusal> {
        Refusal::unless_done(raw::reset(&mut self.words, &mut self.regions))
    }

    /// Takes a packet. Refused: [`Refusal::OutputShort`] under 24 bytes, [`Refusal::OutOfRange`] for memory of another
    /// length than was set up, [`Refusal::ReadUnfinished`], in this order.
    #[inline]
    pub fn inbound(
        &mut self,
        memory: &mut [u8],
        packet: &[u8],
        out: &mut [u8],
    ) -> Result<Received, Refusal> {
        let mut report = [0; 6];
        let number = raw::inbound(
            &mut self.words,
            &self.regions,
            &self.entries,
            &mut self.saved,
            memory,
            packet,
            out,
            &mut report,
        );
        let answer = Answer::of(number)?;
        let [outgoing, complete, entry, bytes, has_immediate, immediate] = report;
        Ok(Received {
            answer,
            outgoing: outgoing as usize,
            completion: (complete == 1).then_some(Completion {
                entry,
                bytes,
                immediate: (has_immediate == 1).then_some(immediate as u32),
            }),
        })
    }

    /// Writes the next response of the READ that is being answered, out of memory as it is now, and answers its length.
    /// Refused: [`Refusal::WrongState`] if none is pending, [`Refusal::OutputShort`] under 16 bytes and a PMTU,
    /// [`Refusal::OutOfRange`] for memory of another length than was set up, in this order.
    #[inline]
    pub fn next_response(&mut self, memory: &[u8], out: &mut [u8]) -> Result<usize, Refusal> {
        let mut report = [0];
        let number = raw::next_response(&mut self.words, memory, out, &mut report);
        Refusal::unless_done(number)?;
        Ok(report[0] as usize)
    }

    /// The PSN that is expected next.
    #[inline]
    pub fn expected(&self) -> u32 {
        self.words[EXPECTED] as u32
    }

    /// Messages completed since set-up or reset, modulo 2^24.
    #[inline]
    pub fn msn(&self) -> u32 {
        self.words[MSN] as u32
    }

    /// The state.
    #[inline]
    pub fn state(&self) -> State {
        match self.words[STATE] {
            0 => State::Init,
            1 => State::Ready,
            _ => State::Error,
        }
    }

    /// Whether the NAK mark is set: the other side was told what is missing, and packets ahead are dropped without
    /// another NAK until the expected one is executed.
    #[inline]
    pub fn nak_mark(&self) -> bool {
        self.words[NAK_MARK] != 0
    }

    /// How many responses of a READ are still to be taken.
    #[inline]
    pub fn responses_pending(&self) -> usize {
        self.words[PENDING] as usize
    }

    /// Number, offset and length of the entries that were posted and not completed, oldest first. The first is
    /// [held](QueuePair::held) while a SEND is open.
    pub fn waiting(&self) -> Vec<(u64, u64, u64)> {
        let row = |[number, offset, length]: [u64; 3]| (number, offset, length);
        self.ring(&self.entries, ENTRIES).map(row).collect()
    }

    /// Whether an open SEND holds the first of the entries.
    #[inline]
    pub fn held(&self) -> bool {
        self.words[KIND] == KIND_SEND
    }

    /// The regions, in the order of their rows.
    pub fn regions(&self) -> Vec<Region> {
        let used = self.regions.iter().filter(|row| row[2] != 0);
        used.copied().map(Region::of).collect()
    }

    /// PSN and old value of the atomics saved for duplicates, oldest first.
    pub fn saved(&self) -> Vec<(u32, u64)> {
        let row = |[psn, value]: [u64; 2]| (psn as u32, value);
        self.ring(&self.saved, SAVED).map(row).collect()
    }

    /// The message that is open, if any: 0 for a SEND, 6 for a WRITE, and the bytes of it that are stored.
    pub fn open_message(&self) -> Option<(u8, u64)> {
        match self.words[KIND] {
            KIND_NONE => None,
            kind => Some((kind as u8, self.words[STORED])),
        }
    }

    /// Address, R_Key and DMA length of an open WRITE, as its First gave them.
    pub fn open_write(&self) -> Option<(u64, u32, u64)> {
        (self.words[KIND] == KIND_WRITE).then(|| {
            let [address, key, length] = WRITE.map(|at| self.words[at]);
            (address, key as u32, length)
        })
    }

    /// What is left of the READ being answered: the offset in memory of the next response's bytes if there are any, how
    /// many bytes are left, the PSN of the next response, and the MSN that all of them carry.
    pub fn read_answer(&self) -> Option<(Option<u64>, u64, u32, u32)> {
        let remaining = self.words[PENDING];
        let [offset, length, first, msn] = READ.map(|at| self.words[at]);
        if remaining == 0 {
            return None;
        }
        // The words have the whole READ; a response has the PMTU's bytes but the last, and there is at least one.
        let pmtu = self.words[PMTU];
        let taken = length.div_ceil(pmtu).max(1) - remaining;
        let left = length - taken * pmtu;
        let at = (left > 0).then_some(offset + taken * pmtu);
        let psn = (first + taken) % (1 << 24);
        Some((at, left, psn as u32, msn as u32))
    }

    /// As many rows as are counted, from the head on; row 0 comes after the last.
    fn ring<'a, const N: usize>(
        &self,
        rows: &'a [[u64; N]; 16],
        (head, count): (usize, usize),
    ) -> impl Iterator<Item = [u64; N]> + 'a {
        let (head, count) = (self.words[head] as usize, self.words[count] as usize);
        (0..count).map(move |i| rows[(head + i) % 16])
    }
}

impl fmt::Debug for QueuePair {
    fn fmt(&self, f: &mut fmt::Formatter) -> fmt::Result {
        f.debug_struct("QueuePair")
            .field("state", &self.state())
            .field("expected", &self.expected())
            .field("msn", &self.msn())
            .field("nak_mark", &self.nak_mark())
            .field("open_message", &self.open_message())
            .field("responses_pending", &self.responses_pending())
            .field("waiting", &self.waiting())
            .field("regions", &self.regions())
            .field("saved", &self.saved())
            .finish_non_exhaustive()
    }
}
