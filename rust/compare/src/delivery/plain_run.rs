//! The plain run of demand 3: the packets of a stream once each and in order.
//! It gets the stream, the start and each call's arguments, and no answers.

use std::collections::VecDeque;

use crate::delivery::stream::{Place, Stream, NUMBERS};
use crate::subject::*;

/// The three calls, with what they are lent.
#[derive(Clone, Copy, Debug)]
pub enum Step {
    /// Packet i of the stream.
    HandIn {
        packet: usize,
        out: usize,
    },
    Next {
        out: usize,
    },
    Post(Entry),
}

pub struct PlainRun<'a> {
    stream: &'a Stream,
    pub k: usize,
    pub memory: Vec<u8>,
    pub completions: Vec<Completion>,
    pub msn: u32,
    pub expected: u32,
    entries: VecDeque<Entry>,
    /// The entry of the SEND that packet k goes on with.
    held: Option<Entry>,
    /// The responses still to send.
    pub r: usize,
}

impl<'a> PlainRun<'a> {
    pub fn new(stream: &'a Stream, memory: Vec<u8>) -> PlainRun<'a> {
        PlainRun {
            stream,
            k: 0,
            memory,
            completions: Vec::new(),
            msn: 0,
            expected: stream.setup.start,
            entries: VecDeque::new(),
            held: None,
            r: 0,
        }
    }

    /// Whether an entry waits, for one who wants to know what comes.
    pub fn entries(&self) -> usize {
        self.entries.len()
    }

    pub fn step(&mut self, step: Step) {
        let lent = self.memory.len() == self.stream.setup.memory;
        match step {
            Step::HandIn { packet, out } => {
                let refused = out < 24 || !lent || self.r != 0;
                if !refused {
                    self.deliver(packet);
                }
            }
            Step::Next { out } => {
                let refused = self.r == 0 || out < 16 + self.stream.setup.pmtu || !lent;
                if !refused {
                    self.r -= 1;
                }
            }
            Step::Post(entry) => {
                let end = entry.offset.checked_add(entry.length);
                let inside = end.is_some_and(|end| end <= self.stream.setup.memory as u64);
                let count = self.entries.len() + usize::from(self.held.is_some());
                if inside && count < 16 {
                    self.entries.push_back(entry);
                }
            }
        }
    }

    fn deliver(&mut self, packet: usize) {
        let stream = self.stream;
        let place = stream.places[packet];
        let message = &stream.messages[place.message];
        if packet == self.k {
            if self.takes_entry(place) && self.entries.is_empty() {
                return;
            }
            self.execute(place);
            self.k += 1;
        }
        // Packet k itself is before the new k by now.
        if packet < self.k && matches!(message.request, Request::Read { .. }) {
            self.r = message.numbers(stream.setup.pmtu);
        }
    }

    fn is_last(&self, place: Place) -> bool {
        place.index + 1 == self.stream.messages[place.message].packets(self.stream.setup.pmtu)
    }

    fn takes_entry(&self, place: Place) -> bool {
        match self.stream.messages[place.message].request {
            Request::Send(_) => place.index == 0,
            Request::Write { immediate, .. } => immediate.is_some() && self.is_last(place),
            _ => false,
        }
    }

    fn execute(&mut self, place: Place) {
        let message = &self.stream.messages[place.message];
        let pmtu = self.stream.setup.pmtu;
        let last = self.is_last(place);
        if self.takes_entry(place) {
            self.held = self.entries.pop_front();
        }

        let from = place.index * pmtu;
        let to = message.bytes.len().min(from + pmtu);
        let payload = &message.bytes[from..to];
        let mut reported = None;
        match message.request {
            Request::Send(immediate) => {
                let entry = self.held.expect("its first packet took one");
                put(&mut self.memory, entry.offset as usize + from, payload);
                reported = last.then_some(immediate);
            }
            Request::Write {
                address,
                key,
                immediate,
            } => {
                if !payload.is_empty() {
                    let at = self.at(address, key) + from;
                    put(&mut self.memory, at, payload);
                }
                reported = (last && immediate.is_some()).then_some(immediate);
            }
            Request::Read { .. } => {}
            Request::CmpSwap {
                address,
                key,
                swap,
                compare,
            } => {
                self.exchange(address, key, |old| if old == compare { swap } else { old });
            }
            Request::FetchAdd { address, key, add } => {
                self.exchange(address, key, |old| old.wrapping_add(add));
            }
        }
        if let (Some(immediate), Some(entry)) = (reported, self.held) {
            let bytes = message.bytes.len() as u64;
            self.completions.push(Completion {
                entry: entry.number,
                bytes,
                immediate,
            });
            self.held = None;
        }

        let numbers = message.numbers(pmtu) as u64;
        self.expected = ((u64::from(self.expected) + numbers) % NUMBERS) as u32;
        if last {
            self.msn = ((u64::from(self.msn) + 1) % NUMBERS) as u32;
        }
    }

    /// The offset in memory that an address under a key stands for.
    fn at(&self, address: u64, key: u32) -> usize {
        let named = self.stream.regions.iter().find(|region| region.key == key);
        let region = named.expect("a permitted message names a region");
        (region.offset + (address - region.address)) as usize
    }

    fn exchange(&mut self, address: u64, key: u32, new: impl FnOnce(u64) -> u64) {
        let at = self.at(address, key);
        let bytes: &mut [u8] = &mut self.memory[at..at + 8];
        let old = bytes
            .iter()
            .rev()
            .fold(0, |value, byte| value << 8 | u64::from(*byte));
        bytes.copy_from_slice(&new(old).to_le_bytes());
    }
}

fn put(memory: &mut [u8], at: usize, payload: &[u8]) {
    memory[at..at + payload.len()].copy_from_slice(payload);
}
