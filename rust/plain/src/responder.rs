//! The RC and the UC responder, duplicates and read responses.

use crate::header::{aeth, AtomicEth, Bth, Packet, BTH};
use crate::number::{after, before, distance, packets, pad, standing, Standing, LIMIT};
use crate::opcode::{self, Function, Part};
use crate::pair::{
    Answer, Completion, Entry, Inbound, Open, QueuePair, Region, Saved, Setup, State, Write,
};
use crate::refusal::{RANGE, SHORT, STATE, UNFINISHED};
use crate::{RC, UC};

/// Bytes of an Acknowledge: BTH and AETH.
const ACKNOWLEDGE: usize = 16;
/// Bytes of the longest answer, an Atomic Acknowledge.
const ANSWER: usize = 24;
/// The syndrome of an answer that is no NAK.
const ACK: u8 = 0x1F;

/// Answers of the inbound call.
const EXECUTED: u8 = 0;
const EXECUTED_ACK: u8 = 1;
const READ_ACCEPTED: u8 = 2;
const ATOMIC_EXECUTED: u8 = 3;
const DUPLICATE: u8 = 4;
const DROPPED: u8 = 5;
const ABANDONED: u8 = 6;
const SEQUENCE: u8 = 16;
const INVALID: u8 = 17;
const ACCESS: u8 = 18;
const NOT_READY: u8 = 19;

/// Why a packet is not executed.
#[derive(Clone, Copy, Debug, PartialEq, Eq)]
enum Fault {
    Invalid,
    Access,
    NotReady,
}

impl<'a> Packet<'a> {
    /// Whether a message begins here.
    #[inline]
    fn begins(&self) -> bool {
        matches!(self.class.part, Part::First | Part::Only)
    }

    /// Whether a message ends here.
    #[inline]
    fn ends(&self) -> bool {
        matches!(self.class.part, Part::Last | Part::Only)
    }

    /// Pad where the payload must be a full PMTU.
    #[inline]
    fn pads_early(&self) -> bool {
        self.bth.pad() != 0 && !self.ends()
    }

    /// Neither payload nor pad, as on READ and atomics.
    #[inline]
    fn is_bare(&self) -> bool {
        self.body.is_empty() && self.bth.pad() == 0
    }

    /// The payload without its pad, if the length is one of its part's.
    #[inline]
    fn payload(&self, pmtu: usize) -> Option<&'a [u8]> {
        let length = self.body.len().checked_sub(usize::from(self.bth.pad()))?;
        let good = match self.class.part {
            Part::First | Part::Middle => length == pmtu,
            Part::Last => (1..=pmtu).contains(&length),
            Part::Only => length <= pmtu,
        };
        good.then(|| &self.body[..length])
    }
}

/// The answer to a packet that goes no further: a drop or a host refusal.
#[cold]
fn dropped(number: u8) -> Inbound {
    quiet(number)
}

#[inline]
fn quiet(number: u8) -> Inbound {
    Inbound {
        number,
        sent: 0,
        completion: None,
    }
}

#[inline]
fn sending(number: u8, sent: usize) -> Inbound {
    Inbound {
        number,
        sent,
        completion: None,
    }
}

impl QueuePair {
    /// Takes one packet. Refusals: 35, 34, 32 in that order.
    pub fn inbound(&mut self, memory: &mut [u8], packet: &[u8], out: &mut [u8]) -> Inbound {
        let Some(out) = out.first_chunk_mut() else {
            return dropped(SHORT);
        };
        if memory.len() != self.setup.memory {
            return dropped(RANGE);
        }
        if self.answer.is_some() {
            return dropped(UNFINISHED);
        }
        let Ok(packet) = Packet::read(packet) else {
            return dropped(DROPPED);
        };
        if !self.admits(&packet) {
            return dropped(DROPPED);
        }
        if self.setup.service == UC {
            // First and Only take any PSN.
            if !packet.begins() && packet.bth.psn() != self.expected {
                return self.abandon();
            }
        } else {
            match standing(self.expected, packet.bth.psn()) {
                Standing::Expected => {}
                Standing::Ahead => return self.ahead(out),
                Standing::Duplicate => return self.duplicate(&packet, out),
            }
        }
        match packet.class.function {
            Function::Send => self.send(memory, &packet, out),
            Function::Write => self.write(memory, &packet, out),
            Function::Read => self.read(&packet, out),
            Function::Atomic => self.atomic(memory, &packet, out),
            Function::Response | Function::Reserved => self.fail(Fault::Invalid, &packet, out),
        }
    }

    /// The header checks that need the queue pair.
    #[inline]
    fn admits(&self, packet: &Packet) -> bool {
        let (bth, ours) = (packet.bth, self.setup.pkey);
        bth.dest() == self.setup.ours
            && (bth.pkey() ^ ours) & 0x7FFF == 0
            && ours & 0x7FFF != 0
            && (bth.pkey() | ours) & 0x8000 != 0
            && bth.opcode() >> 5 == self.setup.service
            && packet.class.function != Function::Response
            && (self.setup.service == RC || packet.class.function != Function::Reserved)
            && self.state == State::Ready
    }

    /// A packet ahead on RC: one NAK until an expected packet is executed.
    #[cold]
    fn ahead(&mut self, out: &mut [u8; ANSWER]) -> Inbound {
        if self.marked {
            return quiet(DROPPED);
        }
        self.marked = true;
        sending(SEQUENCE, self.acknowledge(0x60, self.expected, out))
    }

    /// A packet whose turn it was and that is not executed.
    #[cold]
    fn fail(&mut self, fault: Fault, packet: &Packet, out: &mut [u8; ANSWER]) -> Inbound {
        if self.setup.service == UC {
            return self.abandon();
        }
        let (number, syndrome) = match fault {
            Fault::Invalid => (INVALID, 0x61),
            Fault::Access => (ACCESS, 0x62),
            Fault::NotReady => (NOT_READY, 0x20 + self.setup.timer),
        };
        match fault {
            Fault::Invalid | Fault::Access => self.state = State::Error,
            Fault::NotReady => self.marked = true,
        }
        sending(number, self.acknowledge(syndrome, packet.bth.psn(), out))
    }

    /// A packet on UC that is not executed closes what is open. An open SEND's
    /// entry is at the head of the queue and stays there.
    #[cold]
    fn abandon(&mut self) -> Inbound {
        match self.open.take() {
            Some(_) => quiet(ABANDONED),
            None => quiet(DROPPED),
        }
    }

    /// The message that a packet meets: on UC a First or Only closes what was
    /// open.
    #[inline]
    fn met(&self, packet: &Packet) -> Option<Open> {
        if self.setup.service == UC && packet.begins() {
            None
        } else {
            self.open
        }
    }

    /// The checks of a SEND packet, in the paper's order: the entry it goes
    /// to, the bytes placed there before, and its own.
    fn check_send<'a>(&self, packet: &Packet<'a>) -> Result<(Entry, usize, &'a [u8]), Fault> {
        // Opcode sequence.
        let placed = match (packet.begins(), self.met(packet)) {
            (true, None) => 0,
            (false, Some(Open::Send { placed })) => placed,
            _ => return Err(Fault::Invalid),
        };
        // Function not enabled; pad on First or Middle.
        if !self.setup.send || packet.pads_early() {
            return Err(Fault::Invalid);
        }
        // No entry waiting. (The held one of an open SEND is at the front.)
        let entry = self.entries.front().ok_or(Fault::NotReady)?;
        // Lengths.
        let payload = packet.payload(self.setup.pmtu).ok_or(Fault::Invalid)?;
        if (placed + payload.len()) as u64 > entry.length {
            return Err(Fault::Invalid);
        }
        Ok((entry, placed, payload))
    }

    /// A SEND packet.
    fn send(&mut self, memory: &mut [u8], packet: &Packet, out: &mut [u8; ANSWER]) -> Inbound {
        let (entry, placed, payload) = match self.check_send(packet) {
            Ok(checked) => checked,
            Err(fault) => return self.fail(fault, packet, out),
        };
        let at = entry.offset as usize + placed;
        let total = placed + payload.len();
        memory[at..at + payload.len()].copy_from_slice(payload);
        self.move_on(packet, Open::Send { placed: total });
        let completion = if packet.ends() {
            self.entries.pop();
            Some(Completion {
                entry: entry.number,
                bytes: total as u64,
                immediate: packet.immediate(),
            })
        } else {
            None
        };
        let (number, sent) = self.acknowledge_if_asked(packet, out);
        Inbound {
            number,
            sent,
            completion,
        }
    }

    /// The checks of a WRITE packet, in the paper's order: its message, the
    /// place of its bytes in memory, and the bytes.
    fn check_write<'a>(&self, packet: &Packet<'a>) -> Result<(Write, usize, &'a [u8]), Fault> {
        // Opcode sequence.
        let write = match (packet.reth(), self.met(packet)) {
            (Some(reth), None) => Write {
                address: reth.address,
                key: reth.key,
                length: reth.length as usize,
                placed: 0,
            },
            (None, Some(Open::Write(write))) => write,
            _ => return Err(Fault::Invalid),
        };
        // Function not enabled; pad on First or Middle; DMA length.
        if !self.setup.write || packet.pads_early() || write.length > LIMIT {
            return Err(Fault::Invalid);
        }
        // No entry waiting.
        if packet.immediate().is_some() && self.entries.front().is_none() {
            return Err(Fault::NotReady);
        }
        // R_Key.
        let to_come = write.length - write.placed;
        let next = write.address.wrapping_add(write.placed as u64);
        let at = self
            .locate(write.key, next, to_come, |region| region.write)
            .ok_or(Fault::Access)?;
        // Lengths.
        let payload = packet.payload(self.setup.pmtu).ok_or(Fault::Invalid)?;
        let adds_up = if packet.ends() {
            payload.len() == to_come
        } else {
            payload.len() < to_come
        };
        if !adds_up {
            return Err(Fault::Invalid);
        }
        Ok((write, at, payload))
    }

    /// A WRITE packet.
    fn write(&mut self, memory: &mut [u8], packet: &Packet, out: &mut [u8; ANSWER]) -> Inbound {
        let (write, at, payload) = match self.check_write(packet) {
            Ok(checked) => checked,
            Err(fault) => return self.fail(fault, packet, out),
        };
        memory[at..at + payload.len()].copy_from_slice(payload);
        let placed = write.placed + payload.len();
        self.move_on(packet, Open::Write(Write { placed, ..write }));
        let completion = match (packet.immediate(), self.entries.front()) {
            (Some(immediate), Some(entry)) => {
                self.entries.pop();
                Some(Completion {
                    entry: entry.number,
                    bytes: write.length as u64,
                    immediate: Some(immediate),
                })
            }
            _ => None,
        };
        let (number, sent) = self.acknowledge_if_asked(packet, out);
        Inbound {
            number,
            sent,
            completion,
        }
    }

    /// Counts a SEND or WRITE packet; `open` is its message if that goes on.
    #[inline]
    fn move_on(&mut self, packet: &Packet, open: Open) {
        self.expected = after(packet.bth.psn(), 1);
        self.marked = false;
        if packet.ends() {
            self.open = None;
            self.msn = after(self.msn, 1);
        } else {
            self.open = Some(open);
        }
    }

    /// The number of the answer to a SEND or WRITE packet, and the bytes sent.
    #[inline]
    fn acknowledge_if_asked(&self, packet: &Packet, out: &mut [u8; ANSWER]) -> (u8, usize) {
        if packet.bth.ackreq() && self.setup.service == RC {
            (EXECUTED_ACK, self.acknowledge(ACK, packet.bth.psn(), out))
        } else {
            (EXECUTED, 0)
        }
    }

    /// The checks of a READ, in the paper's order: its place in memory and its
    /// length.
    fn check_read(&self, packet: &Packet) -> Result<(usize, usize), Fault> {
        let reth = packet.reth().ok_or(Fault::Invalid)?;
        let length = reth.length as usize;
        // Opcode sequence; function not enabled; DMA length.
        if self.open.is_some() || !self.setup.read || length > LIMIT {
            return Err(Fault::Invalid);
        }
        // R_Key.
        let at = self
            .locate(reth.key, reth.address, length, |region| region.read)
            .ok_or(Fault::Access)?;
        // Lengths.
        if !packet.is_bare() {
            return Err(Fault::Invalid);
        }
        Ok((at, length))
    }

    /// A READ.
    fn read(&mut self, packet: &Packet, out: &mut [u8; ANSWER]) -> Inbound {
        let (at, length) = match self.check_read(packet) {
            Ok(checked) => checked,
            Err(fault) => return self.fail(fault, packet, out),
        };
        let psn = packet.bth.psn();
        let responses = packets(length, self.setup.pmtu);
        self.expected = after(psn, responses as u32);
        self.marked = false;
        self.msn = after(self.msn, 1);
        self.begin_answer(at, length, responses, psn);
        quiet(READ_ACCEPTED)
    }

    /// The checks of an atomic, in the paper's order: its place in memory and
    /// its header.
    fn check_atomic(&self, packet: &Packet) -> Result<(usize, AtomicEth), Fault> {
        let atomic = packet.atomic_eth().ok_or(Fault::Invalid)?;
        // Opcode sequence; function not enabled.
        if self.open.is_some() || !self.setup.atomic {
            return Err(Fault::Invalid);
        }
        // R_Key.
        let at = self
            .locate(atomic.key, atomic.address, 8, |region| region.atomic)
            .ok_or(Fault::Access)?;
        // Lengths, and the address.
        if !packet.is_bare() || atomic.address % 8 != 0 {
            return Err(Fault::Invalid);
        }
        Ok((at, atomic))
    }

    /// An atomic: 8 bytes of memory, low byte first, are one number.
    fn atomic(&mut self, memory: &mut [u8], packet: &Packet, out: &mut [u8; ANSWER]) -> Inbound {
        let (at, atomic) = match self.check_atomic(packet) {
            Ok(checked) => checked,
            Err(fault) => return self.fail(fault, packet, out),
        };
        let place = &mut memory[at..at + 8];
        let old = u64::from_le_bytes((&*place).try_into().expect("eight bytes"));
        let new = if packet.bth.opcode() & 31 == opcode::FETCH_ADD {
            old.wrapping_add(atomic.swap)
        } else if old == atomic.compare {
            atomic.swap
        } else {
            old
        };
        place.copy_from_slice(&new.to_le_bytes());
        let psn = packet.bth.psn();
        self.expected = after(psn, 1);
        self.marked = false;
        self.msn = after(self.msn, 1);
        self.saved.push(Saved { psn, value: old });
        sending(ATOMIC_EXECUTED, self.acknowledge_atomic(psn, old, out))
    }

    /// The R_Key rule: where in memory `length` bytes from `address` lie, if
    /// the keyed region holds them with the right. No bytes need no key.
    #[inline]
    fn locate(
        &self,
        key: u32,
        address: u64,
        length: usize,
        right: impl Fn(&Region) -> bool,
    ) -> Option<usize> {
        if length == 0 {
            return Some(0);
        }
        let region = self.region(key).filter(|region| right(region))?;
        let into = address.checked_sub(region.address)?;
        let room = region.length.checked_sub(into)?;
        (length as u64 <= room).then(|| (region.offset + into) as usize)
    }

    /// A duplicate: clears no mark, places no byte, moves no count.
    fn duplicate(&mut self, packet: &Packet, out: &mut [u8; ANSWER]) -> Inbound {
        let psn = packet.bth.psn();
        match packet.class.function {
            Function::Send | Function::Write => {
                sending(DUPLICATE, self.acknowledge(ACK, before(self.expected), out))
            }
            Function::Read => match self.repeated_read(packet) {
                Some((at, length, responses)) => {
                    self.begin_answer(at, length, responses, psn);
                    quiet(DUPLICATE)
                }
                None => quiet(DROPPED),
            },
            Function::Atomic => match self.saved.iter().rev().find(|saved| saved.psn == psn) {
                Some(saved) => sending(DUPLICATE, self.acknowledge_atomic(psn, saved.value, out)),
                None => quiet(DROPPED),
            },
            Function::Response | Function::Reserved => quiet(DROPPED),
        }
    }

    /// Place, length and responses of a duplicate READ that may be answered
    /// afresh.
    fn repeated_read(&self, packet: &Packet) -> Option<(usize, usize, usize)> {
        let reth = packet.reth()?;
        let length = reth.length as usize;
        if !self.setup.read || length > LIMIT || !packet.is_bare() {
            return None;
        }
        let at = self.locate(reth.key, reth.address, length, |region| region.read)?;
        // Its responses end before the expected PSN.
        let responses = packets(length, self.setup.pmtu);
        let room = distance(packet.bth.psn(), self.expected) as usize;
        (responses <= room).then_some((at, length, responses))
    }

    #[inline]
    fn begin_answer(&mut self, at: usize, length: usize, responses: usize, psn: u32) {
        self.answer = Some(Answer {
            at,
            left: length,
            responses,
            first: true,
            psn,
            msn: self.msn,
        });
    }

    /// Sends the next response of the read answer. Refusals: 36, 35, 34.
    pub fn next_response(&mut self, memory: &[u8], out: &mut [u8]) -> (u8, usize) {
        let Setup {
            pmtu, pkey, theirs, ..
        } = self.setup;
        let Some(answer) = &mut self.answer else {
            return (STATE, 0);
        };
        if out.len() < ACKNOWLEDGE + pmtu {
            return (SHORT, 0);
        }
        if memory.len() != self.setup.memory {
            return (RANGE, 0);
        }
        let last = answer.responses == 1;
        let low = match (answer.first, last) {
            (true, true) => opcode::READ_ONLY,
            (true, false) => opcode::READ_FIRST,
            (false, false) => opcode::READ_MIDDLE,
            (false, true) => opcode::READ_LAST,
        };
        let length = answer.left.min(pmtu);
        let payload = &memory[answer.at..answer.at + length];
        let pad = pad(length);

        let bth = Bth::new(RC << 5 | low, pad as u8, pkey, theirs, answer.psn);
        out[..BTH].copy_from_slice(&bth.to_bytes());
        let start = if low == opcode::READ_MIDDLE {
            BTH
        } else {
            out[BTH..ACKNOWLEDGE].copy_from_slice(&aeth(ACK, answer.msn));
            ACKNOWLEDGE
        };
        let end = start + length;
        out[start..end].copy_from_slice(payload);
        out[end..end + pad].fill(0);

        if last {
            self.answer = None;
        } else {
            answer.at += length;
            answer.left -= length;
            answer.responses -= 1;
            answer.first = false;
            answer.psn = after(answer.psn, 1);
        }
        (0, end + pad)
    }

    /// The BTH of an answer without payload: our P_Key, their queue pair
    /// number, all else 0.
    #[inline]
    fn answer_bth(&self, low: u8, psn: u32) -> [u8; BTH] {
        let Setup { pkey, theirs, .. } = self.setup;
        Bth::new(RC << 5 | low, 0, pkey, theirs, psn).to_bytes()
    }

    /// Writes an ACK or NAK with the MSN as it is now.
    #[inline]
    fn acknowledge(&self, syndrome: u8, psn: u32, out: &mut [u8; ANSWER]) -> usize {
        out[..BTH].copy_from_slice(&self.answer_bth(opcode::ACKNOWLEDGE, psn));
        out[BTH..ACKNOWLEDGE].copy_from_slice(&aeth(syndrome, self.msn));
        ACKNOWLEDGE
    }

    #[inline]
    fn acknowledge_atomic(&self, psn: u32, value: u64, out: &mut [u8; ANSWER]) -> usize {
        out[..BTH].copy_from_slice(&self.answer_bth(opcode::ATOMIC_ACKNOWLEDGE, psn));
        out[BTH..ACKNOWLEDGE].copy_from_slice(&aeth(ACK, self.msn));
        out[ACKNOWLEDGE..].copy_from_slice(&value.to_be_bytes());
        ANSWER
    }
}
