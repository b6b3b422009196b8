//! The plain side with one rule wrong, to see that it is found.

// Each of the tests that share this has some of it.
#![allow(dead_code)]

use std::marker::PhantomData;

use compare::plain_side::Plain;
use compare::subject::*;

/// What is wrong: what is done with a packet.
pub trait Rule {
    fn inbound(pair: &mut Plain, memory: &mut [u8], packet: &[u8], out: &mut [u8]) -> Inbound;
}

pub struct Wrong<R>(Plain, PhantomData<R>);

impl<R: Rule> Subject for Wrong<R> {
    const NAME: &'static str = "wrong";

    fn set_up(setup: Setup) -> Result<Self, u8> {
        Plain::set_up(setup).map(|pair| Wrong(pair, PhantomData))
    }

    fn add_region(&mut self, region: Region) -> u8 {
        self.0.add_region(region)
    }

    fn remove_region(&mut self, key: u32) -> u8 {
        self.0.remove_region(key)
    }

    fn post_entry(&mut self, entry: Entry) -> u8 {
        self.0.post_entry(entry)
    }

    fn make_ready(&mut self) -> u8 {
        self.0.make_ready()
    }

    fn reset(&mut self) -> u8 {
        self.0.reset()
    }

    fn inbound(&mut self, memory: &mut [u8], packet: &[u8], out: &mut [u8]) -> Inbound {
        R::inbound(&mut self.0, memory, packet, out)
    }

    fn next_response(&mut self, memory: &[u8], out: &mut [u8]) -> (u8, usize) {
        self.0.next_response(memory, out)
    }

    fn view(&self) -> View {
        self.0.view()
    }

    fn counts(&self) -> Counts {
        self.0.counts()
    }

    fn read_header(packet: &[u8]) -> Result<Header, u8> {
        Plain::read_header(packet)
    }

    fn write_header(header: &Header, out: &mut [u8]) -> Result<usize, u8> {
        Plain::write_header(header, out)
    }

    fn cut(
        connection: Connection,
        request: Request,
        message: &[u8],
        first: u32,
        index: usize,
        out: &mut [u8],
    ) -> Result<(usize, u32), u8> {
        Plain::cut(connection, request, message, first, index, out)
    }
}

/// How far a packet's PSN is from the expected one; nothing for what has no BTH.
fn distance(pair: &Plain, packet: &[u8]) -> Option<u32> {
    let psn = u32::from_be_bytes([0, *packet.get(9)?, *packet.get(10)?, *packet.get(11)?]);
    Some(psn.wrapping_sub(pair.counts().expected) & 0xFF_FFFF)
}

/// Pad counts as payload.
pub struct PadIsPayload;

impl Rule for PadIsPayload {
    fn inbound(pair: &mut Plain, memory: &mut [u8], packet: &[u8], out: &mut [u8]) -> Inbound {
        let mut packet = packet.to_vec();
        if let Some(byte) = packet.get_mut(1) {
            *byte &= 0xCF;
        }
        pair.inbound(memory, &packet, out)
    }
}

/// The packet half of all numbers ahead passes for one behind.
pub struct HalfIsBehind;

impl Rule for HalfIsBehind {
    fn inbound(pair: &mut Plain, memory: &mut [u8], packet: &[u8], out: &mut [u8]) -> Inbound {
        let mut packet = packet.to_vec();
        if distance(pair, &packet) == Some(1 << 23) {
            let psn = (pair.counts().expected + (1 << 23) + 1) & 0xFF_FFFF;
            packet[9..12].copy_from_slice(&psn.to_be_bytes()[1..]);
        }
        pair.inbound(memory, &packet, out)
    }
}

/// A duplicate FetchAdd adds once more, though its answer is the saved one.
pub struct AddsAgain;

impl Rule for AddsAgain {
    fn inbound(pair: &mut Plain, memory: &mut [u8], packet: &[u8], out: &mut [u8]) -> Inbound {
        let got = pair.inbound(memory, packet, out);
        if got.number == 4 && packet[0] == 20 {
            add(pair, memory, packet);
        }
        got
    }
}

fn add(pair: &Plain, memory: &mut [u8], packet: &[u8]) -> Option<()> {
    let address = u64::from_be_bytes(*packet.get(12..)?.first_chunk()?);
    let key = u32::from_be_bytes(*packet.get(20..)?.first_chunk()?);
    let more = u64::from_be_bytes(*packet.get(24..)?.first_chunk()?);
    let region = pair
        .view()
        .regions
        .into_iter()
        .find(|region| region.key == key)?;
    let at = address
        .checked_sub(region.address)?
        .checked_add(region.offset)? as usize;
    let word: &mut [u8; 8] = memory.get_mut(at..)?.first_chunk_mut()?;
    *word = u64::from_le_bytes(*word).wrapping_add(more).to_le_bytes();
    Some(())
}

/// A byte past the answer is written, but only behind an ACK.
pub struct WritesPast;

impl Rule for WritesPast {
    fn inbound(pair: &mut Plain, memory: &mut [u8], packet: &[u8], out: &mut [u8]) -> Inbound {
        let got = pair.inbound(memory, packet, out);
        if got.number == 1 {
            out[got.sent] = 0;
        }
        got
    }
}

/// Every packet is dropped.
pub struct DropsAll;

impl Rule for DropsAll {
    fn inbound(_: &mut Plain, _: &mut [u8], _: &[u8], _: &mut [u8]) -> Inbound {
        Inbound {
            number: 5,
            sent: 0,
            completion: None,
        }
    }
}

/// Everything is answered well, and nothing stored.
pub struct PlacesNothing;

impl Rule for PlacesNothing {
    fn inbound(pair: &mut Plain, memory: &mut [u8], packet: &[u8], out: &mut [u8]) -> Inbound {
        pair.inbound(&mut memory.to_vec(), packet, out)
    }
}

/// No completion is reported.
pub struct TellsNothing;

impl Rule for TellsNothing {
    fn inbound(pair: &mut Plain, memory: &mut [u8], packet: &[u8], out: &mut [u8]) -> Inbound {
        Inbound {
            completion: None,
            ..pair.inbound(memory, packet, out)
        }
    }
}
