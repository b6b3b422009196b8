//! What the tests share: the pair of the rules' sample, and packets for it.
#![allow(dead_code)]

pub mod lent;
pub mod wire;

use udalopek::{
    cut, Answer, Connection, Entry, QueuePair, Received, Region, Request, Service, Setup,
};

pub const MEMORY: usize = 4096;
pub const OURS: u32 = 0x12;
pub const THEIRS: u32 = 0x34;
pub const PKEY: u16 = 0xffff;
pub const START: u32 = 7;
pub const KEY: u32 = 0x1000;
pub const ADDRESS: u64 = 0x10000;

/// A SEND of `abc` with PSN 7, and what acknowledges it.
pub const W12: [u8; 16] = *b"\x04\x10\xff\xff\0\0\0\x12\x80\0\0\x07abc\0";
pub const W12_ACK: [u8; 16] = *b"\x11\0\xff\xff\0\0\0\x34\0\0\0\x07\x1f\0\0\x01";

pub fn setup() -> Setup {
    Setup {
        service: Service::Rc,
        pmtu: 256,
        ours: OURS,
        theirs: THEIRS,
        pkey: PKEY,
        start: START,
        timer: 0,
        send: true,
        write: true,
        read: true,
        atomic: true,
        memory: MEMORY,
    }
}

/// 1,024 bytes from the start of memory on, all rights.
pub fn region() -> Region {
    Region {
        key: KEY,
        address: ADDRESS,
        length: 1024,
        offset: 0,
        write: true,
        read: true,
        atomic: true,
    }
}

/// 128 bytes from byte 2,048 + 128 x number on.
pub fn entry(number: u64) -> Entry {
    Entry {
        number,
        offset: 2048 + 128 * number,
        length: 128,
    }
}

/// Byte i of a message or of memory, so that no two neighbours are the same.
pub fn pattern(length: usize) -> Vec<u8> {
    (0..length).map(|i| (31 * i + 7) as u8).collect()
}

/// A pair with its memory, as a host has it.
pub struct Host {
    pub pair: QueuePair,
    pub memory: Vec<u8>,
    pub service: Service,
}

impl Host {
    /// Ready, with the region and no entries.
    pub fn ready(setup: Setup) -> Host {
        let mut pair = QueuePair::set_up(setup).unwrap();
        pair.add_region(region()).unwrap();
        pair.make_ready().unwrap();
        Host {
            pair,
            memory: pattern(setup.memory),
            service: setup.service,
        }
    }

    /// Hands a packet in; answers what came of it, and the bytes to send.
    pub fn take(&mut self, packet: &[u8]) -> (Received, Vec<u8>) {
        let mut out = [0; 24];
        let got = self.pair.inbound(&mut self.memory, packet, &mut out);
        let got = got.unwrap();
        (got, out[..got.outgoing].to_vec())
    }

    /// Hands in packet `index` of a message whose first packet has the PSN `first`.
    pub fn hand(&mut self, request: Request, message: &[u8], first: u32, index: usize) -> Received {
        let packet = packet(self.service, request, message, first, index);
        self.take(&packet).0
    }

    /// The same, for what came of it alone.
    pub fn answer(&mut self, request: Request, message: &[u8], first: u32, index: usize) -> Answer {
        self.hand(request, message, first, index).answer
    }

    /// Takes all responses.
    pub fn drain(&mut self) -> Vec<Vec<u8>> {
        let mut packets = Vec::new();
        while self.pair.responses_pending() != 0 {
            let mut out = [0; 272];
            let outgoing = self.pair.next_response(&self.memory, &mut out).unwrap();
            packets.push(out[..outgoing].to_vec());
        }
        packets
    }
}

/// Packet `index` of a message to our pair.
pub fn packet(
    service: Service,
    request: Request,
    message: &[u8],
    first: u32,
    index: usize,
) -> Vec<u8> {
    let connection = Connection {
        service,
        pmtu: 256,
        pkey: PKEY,
        dest: OURS,
    };
    let mut out = [0; 512];
    let (written, _) = cut(connection, request, message, first, index, &mut out).unwrap();
    out[..written].to_vec()
}

pub fn write(immediate: Option<u32>) -> Request {
    Request::Write {
        address: ADDRESS,
        key: KEY,
        immediate,
    }
}

pub fn read(length: u32) -> Request {
    Request::Read {
        address: ADDRESS,
        key: KEY,
        length,
    }
}

pub fn add(add: u64) -> Request {
    Request::FetchAdd {
        address: ADDRESS,
        key: KEY,
        add,
    }
}
