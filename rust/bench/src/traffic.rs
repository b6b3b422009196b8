//! The traffic that is timed. Packets are made beforehand, a few of each kind;
//! in the loop only their PSN is set. The loop is the same for both crates.

use std::hint::black_box;
use std::time::{Duration, Instant};

use crate::side::{Side, ADDRESS, KEY, MEMORY, OURS, PMTU};

#[derive(Clone, Copy, PartialEq, Eq)]
pub enum Kind {
    Send,
    SendAndPost,
    Write,
    Read,
    FetchAdd,
    Duplicate,
    Mixed,
}

impl Kind {
    pub const ALL: [Kind; 7] = [
        Kind::Send,
        Kind::SendAndPost,
        Kind::Write,
        Kind::Read,
        Kind::FetchAdd,
        Kind::Duplicate,
        Kind::Mixed,
    ];

    pub fn name(self) -> &'static str {
        match self {
            Kind::Send => "SEND of 16 bytes",
            Kind::SendAndPost => "SEND of 16 bytes, and its entry posted",
            Kind::Write => "WRITE of 4,096 bytes",
            Kind::Read => "READ of 4,096 bytes, and its response",
            Kind::FetchAdd => "FetchAdd",
            Kind::Duplicate => "SEND retransmitted",
            Kind::Mixed => "requests of one packet, in random order",
        }
    }

    /// The answer that each packet must get, by its opcode.
    fn answer(self, opcode: u8) -> u8 {
        match opcode {
            _ if self == Kind::Duplicate => 4,
            READ => 2,
            CMP_SWAP | FETCH_ADD => 3,
            _ => 1,
        }
    }

    /// Packet `i` of the few that are sent.
    fn packet(self, i: u8) -> Vec<u8> {
        let opcode = match self {
            Kind::Send | Kind::SendAndPost | Kind::Duplicate => SEND,
            Kind::Write => WRITE,
            Kind::Read => READ,
            Kind::FetchAdd => FETCH_ADD,
            Kind::Mixed => MIX[usize::from(i)],
        };
        let bytes = if self == Kind::Mixed { 16 } else { PMTU };
        // AckReq is set: each is the last packet of its message.
        let mut packet = vec![opcode, 0, 0xFF, 0xFF, 0];
        packet.extend(&OURS.to_be_bytes()[1..]);
        packet.extend([0x80, 0, 0, 0]);
        let address = ADDRESS + u64::from(i) * PMTU as u64;
        let named = [&address.to_be_bytes()[..], &KEY.to_be_bytes()].concat();
        match opcode {
            WRITE | WRITE_IMMEDIATE | READ => {
                packet.extend(named);
                packet.extend((bytes as u32).to_be_bytes());
            }
            CMP_SWAP | FETCH_ADD => {
                packet.extend(named);
                packet.extend(1_u64.to_be_bytes());
                packet.extend([0; 8]);
            }
            _ => {}
        }
        if matches!(opcode, SEND_IMMEDIATE | WRITE_IMMEDIATE) {
            packet.extend([i; 4]);
        }
        let payload = match opcode {
            SEND | SEND_IMMEDIATE => 16,
            WRITE | WRITE_IMMEDIATE => bytes,
            _ => 0,
        };
        packet.resize(packet.len() + payload, i);
        packet
    }
}

// Opcodes of messages of one packet.
const SEND: u8 = 4;
const SEND_IMMEDIATE: u8 = 5;
const WRITE: u8 = 10;
const WRITE_IMMEDIATE: u8 = 11;
const READ: u8 = 12;
const CMP_SWAP: u8 = 19;
const FETCH_ADD: u8 = 20;

/// What mixed traffic is drawn from.
const MIX: [u8; RING] = [
    SEND,
    SEND_IMMEDIATE,
    SEND,
    WRITE,
    WRITE_IMMEDIATE,
    READ,
    CMP_SWAP,
    FETCH_ADD,
];

/// Packets that are sent in turn, or drawn from.
const RING: usize = 8;
/// Packets in a row for which entries are posted at once: the table holds no
/// more.
pub const BATCH: u32 = 16;

/// A pair with its traffic.
struct Round<S> {
    pair: S,
    ring: Vec<Vec<u8>>,
    memory: Vec<u8>,
    out: Vec<u8>,
    /// Answers other than the one that is due.
    wrong: u32,
    /// Where the drawing of packets stands, never 0.
    drawn: u64,
}

/// Nanoseconds a packet in so many batches, on a fresh pair.
pub fn round<S: Side>(kind: Kind, batches: u32) -> f64 {
    let mut round = Round {
        pair: S::ready(),
        ring: (0..RING as u8).map(|i| kind.packet(i)).collect(),
        memory: vec![0; MEMORY],
        out: vec![0; 16 + PMTU],
        wrong: 0,
        drawn: 0x9E37_79B9_7F4A_7C15,
    };
    if kind == Kind::Duplicate {
        // Executed once each, so that all later ones are behind.
        round.post();
        round.packets(Kind::Send, 0);
    }
    let before = round.pair.counts();
    let took = match kind {
        // The clock is looked at twice a batch, which adds some nanoseconds
        // to each packet, the same on both sides.
        Kind::Send => (0..batches)
            .map(|batch| {
                round.post();
                timed(|| round.packets(kind, batch))
            })
            .sum(),
        Kind::Mixed => timed(|| {
            for psn in 0..batches * BATCH {
                round.drawn_packet(psn);
            }
        }),
        _ => timed(|| {
            for batch in 0..batches {
                if kind == Kind::SendAndPost {
                    round.post();
                }
                round.packets(kind, batch);
            }
        }),
    };

    assert_eq!(round.wrong, 0, "{}: wrong answers", kind.name());
    let moved = if kind == Kind::Duplicate {
        0
    } else {
        batches * BATCH
    };
    let after = (before.0 + moved, before.1 + moved);
    assert_eq!(round.pair.counts(), after, "{}", kind.name());
    black_box(&round.memory);
    took.as_nanos() as f64 / f64::from(batches * BATCH)
}

fn timed(work: impl FnOnce()) -> Duration {
    let begun = Instant::now();
    work();
    begun.elapsed()
}

impl<S: Side> Round<S> {
    /// Entries for the SENDs of a batch.
    fn post(&mut self) {
        for number in 0..u64::from(BATCH) {
            self.wrong += u32::from(!self.pair.post(number, 16 * number, 16));
        }
    }

    /// Hands the packets of a batch in, and takes the responses of READs.
    fn packets(&mut self, kind: Kind, batch: u32) {
        let due = kind.answer(self.ring[0][0]);
        for psn in batch * BATCH..(batch + 1) * BATCH {
            let place = psn as usize % RING;
            let psn = if kind == Kind::Duplicate {
                place as u32
            } else {
                psn
            };
            let answer = self.inbound(place, psn);
            self.wrong += u32::from(answer != due);
            if kind == Kind::Read {
                self.response();
            }
        }
    }

    /// Hands one of the packets in, whichever is drawn; posts its entry first
    /// if it takes one, and takes the response of a READ.
    fn drawn_packet(&mut self, psn: u32) {
        self.drawn ^= self.drawn << 13;
        self.drawn ^= self.drawn >> 7;
        self.drawn ^= self.drawn << 17;
        let place = (self.drawn >> 32) as usize % RING;
        let opcode = self.ring[place][0];
        if matches!(opcode, SEND | SEND_IMMEDIATE | WRITE_IMMEDIATE) {
            self.wrong += u32::from(!self.pair.post(0, 0, 16));
        }
        let answer = self.inbound(place, psn);
        self.wrong += u32::from(answer != Kind::Mixed.answer(opcode));
        if opcode == READ {
            self.response();
        }
    }

    /// The answer to a packet with this PSN.
    #[inline(always)]
    fn inbound(&mut self, place: usize, psn: u32) -> u8 {
        let packet = &mut self.ring[place];
        packet[9..12].copy_from_slice(&psn.to_be_bytes()[1..]);
        self.pair.inbound(
            black_box(&mut self.memory),
            black_box(packet),
            black_box(&mut self.out),
        )
    }

    /// Takes the response of a READ.
    #[inline(always)]
    fn response(&mut self) {
        let written = self
            .pair
            .next(black_box(&self.memory), black_box(&mut self.out));
        self.wrong += u32::from(!written);
    }
}
