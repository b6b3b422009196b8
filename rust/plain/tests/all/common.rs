//! Helpers of the tests.

use plain::*;

/// A queue pair with its memory, as the tests drive it.
#[derive(Clone)]
pub struct Bench {
    pub pair: QueuePair,
    pub memory: Vec<u8>,
}

pub struct Got {
    pub number: u8,
    pub sent: Vec<u8>,
    pub completion: Option<Completion>,
}

pub const ADDRESS: u64 = 0x1_0000;
pub const KEY: u32 = 0x1000;

/// What the lister prints of W12 below the line that counts it.
pub const W12_LISTED: &str = "  BTH
    opcode      0x04  RC SEND Only
    SE          0
    MigReq      0
    PadCnt      1
    TVer        0
    P_Key       0xffff
    reserved 8  0x00
    DestQP      0x000012
    AckReq      1
    reserved 7  0x00
    PSN         7
  payload       4 bytes, of which 1 pad
  written back  same
";

pub fn setup(service: u8) -> Setup {
    Setup {
        service,
        pmtu: 256,
        ours: 0x12,
        theirs: 0x34,
        pkey: 0xFFFF,
        start: 7,
        timer: 5,
        send: true,
        write: true,
        read: true,
        atomic: true,
        memory: 4096,
    }
}

pub fn region() -> Region {
    Region {
        key: KEY,
        address: ADDRESS,
        length: 2048,
        offset: 0,
        write: true,
        read: true,
        atomic: true,
    }
}

impl Bench {
    /// Ready, one region over the first half of memory, no entries.
    pub fn ready(setup: Setup) -> Bench {
        let mut pair = QueuePair::set_up(setup).unwrap();
        assert_eq!(pair.add_region(region()), 0);
        assert_eq!(pair.make_ready(), 0);
        Bench {
            pair,
            memory: (0..setup.memory).map(|i| (31 * i + 7) as u8).collect(),
        }
    }

    pub fn rc() -> Bench {
        Bench::ready(setup(RC))
    }

    pub fn uc() -> Bench {
        Bench::ready(setup(UC))
    }

    pub fn post(&mut self, number: u64, offset: u64, length: u64) {
        assert_eq!(
            self.pair.post_entry(Entry {
                number,
                offset,
                length
            }),
            0
        );
    }

    /// Delivers a packet and checks what holds of every answer.
    pub fn give(&mut self, packet: &[u8]) -> Got {
        let before = (snapshot(&self.pair), self.memory.clone());
        let mut out = [0xA5; 64];
        let answer = self.pair.inbound(&mut self.memory, packet, &mut out);
        assert!(out[answer.sent..].iter().all(|byte| *byte == 0xA5));
        if answer.number == 5 || answer.number >= 32 {
            assert_eq!(before, (snapshot(&self.pair), self.memory.clone()));
        }
        if answer.completion.is_some() {
            assert!(answer.number <= 1);
        }
        if answer.number == 4 || answer.number == 6 || answer.number >= 16 {
            assert_eq!(before.1, self.memory);
            assert_eq!(
                (before.0.expected, before.0.msn),
                (self.pair.expected(), self.pair.msn())
            );
        }
        Got {
            number: answer.number,
            sent: out[..answer.sent].to_vec(),
            completion: answer.completion,
        }
    }

    /// Delivers a packet and gives the number with expected PSN and MSN.
    pub fn run(&mut self, packet: &[u8]) -> (u8, u32, u32) {
        let got = self.give(packet);
        (got.number, self.pair.expected(), self.pair.msn())
    }

    /// All responses still to send.
    pub fn drain(&mut self) -> Vec<Vec<u8>> {
        let mut all = Vec::new();
        while self.pair.responses_pending() > 0 {
            let mut out = vec![0xA5; 16 + 4096];
            let (number, sent) = self.pair.next_response(&self.memory, &mut out);
            assert_eq!(number, 0);
            assert!(out[sent..].iter().all(|byte| *byte == 0xA5));
            all.push(out[..sent].to_vec());
        }
        all
    }
}

/// All that can be asked about a pair.
#[derive(Clone, Debug, PartialEq)]
pub struct Snapshot {
    pub expected: u32,
    pub msn: u32,
    pub state: u8,
    pub marked: bool,
    pub pending: usize,
    pub waiting: Vec<(u64, u64, u64)>,
    pub held: bool,
    pub regions: Vec<Region>,
    pub saved: Vec<(u32, u64)>,
    pub open: Option<(u8, u64)>,
}

pub fn snapshot(pair: &QueuePair) -> Snapshot {
    Snapshot {
        expected: pair.expected(),
        msn: pair.msn(),
        state: pair.state(),
        marked: pair.marked(),
        pending: pair.responses_pending(),
        waiting: pair.waiting(),
        held: pair.held(),
        regions: pair.regions(),
        saved: pair.saved(),
        open: pair.open_message(),
    }
}

pub const RC_LINE: Connection = Connection {
    service: RC,
    pmtu: 256,
    pkey: 0xFFFF,
    dest: 0x12,
};
pub const UC_LINE: Connection = Connection {
    service: UC,
    pmtu: 256,
    pkey: 0xFFFF,
    dest: 0x12,
};

/// One packet of a message.
pub fn piece(
    line: Connection,
    request: Request,
    message: &[u8],
    psn: u32,
    index: usize,
) -> Vec<u8> {
    let mut out = vec![0; 4128];
    let (written, _) = cut(line, request, message, psn, index, &mut out).unwrap();
    out.truncate(written);
    out
}

/// All packets of a message.
pub fn pieces(line: Connection, request: Request, message: &[u8], psn: u32) -> Vec<Vec<u8>> {
    let mut all = Vec::new();
    let mut out = vec![0; 4128];
    while let Ok((written, _)) = cut(line, request, message, psn, all.len(), &mut out) {
        all.push(out[..written].to_vec());
    }
    all
}

/// A packet by hand: opcode, pad, AckReq, PSN and all after the BTH.
pub fn raw(opcode: u8, pad: u8, ackreq: bool, psn: u32, rest: &[u8]) -> Vec<u8> {
    let mut packet = vec![opcode, pad << 4, 0xFF, 0xFF, 0, 0, 0, 0x12];
    packet.extend((psn | u32::from(ackreq) << 31).to_be_bytes());
    packet.extend(rest);
    packet
}

pub fn reth(address: u64, key: u32, length: u32) -> Vec<u8> {
    [
        &address.to_be_bytes()[..],
        &key.to_be_bytes(),
        &length.to_be_bytes(),
    ]
    .concat()
}

/// What an ACK, NAK or Acknowledge looks like.
pub fn ack(syndrome: u8, psn: u32, msn: u32) -> Vec<u8> {
    let mut packet = vec![0x11, 0, 0xFF, 0xFF, 0, 0, 0, 0x34];
    packet.extend(psn.to_be_bytes());
    packet.extend((u32::from(syndrome) << 24 | msn).to_be_bytes());
    packet
}

pub fn atomic_ack(psn: u32, msn: u32, value: u64) -> Vec<u8> {
    let mut packet = ack(0x1F, psn, msn);
    packet[0] = 0x12;
    packet.extend(value.to_be_bytes());
    packet
}

pub fn bytes(length: usize) -> Vec<u8> {
    (0..length).map(|i| (i * 7 + i / 256 + 1) as u8).collect()
}

/// A small generator of pseudo-random numbers (xorshift).
pub struct Random(pub u64);

impl Random {
    pub fn next(&mut self) -> u64 {
        self.0 ^= self.0 << 13;
        self.0 ^= self.0 >> 7;
        self.0 ^= self.0 << 17;
        self.0
    }

    pub fn below(&mut self, bound: u64) -> u64 {
        (self.next() >> 11) % bound
    }

    pub fn one_in(&mut self, bound: u64) -> bool {
        self.below(bound) == 0
    }

    pub fn pick<T: Copy>(&mut self, from: &[T]) -> T {
        from[self.below(from.len() as u64) as usize]
    }

    pub fn bytes(&mut self, length: usize) -> Vec<u8> {
        (0..length).map(|_| self.next() as u8).collect()
    }
}
