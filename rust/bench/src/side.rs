//! The calls that are timed, of both crates under the same names.

pub const MEMORY: usize = 1 << 16;
pub const PMTU: usize = 4_096;
pub const OURS: u32 = 0x12;
pub const KEY: u32 = 0x1000;
pub const ADDRESS: u64 = 0x10000;

/// A reliable pair, Ready, with all functions and one region over all memory.
pub trait Side {
    fn ready() -> Self;
    /// The answer's number.
    fn inbound(&mut self, memory: &mut [u8], packet: &[u8], out: &mut [u8]) -> u8;
    /// Whether a response was written.
    fn next(&mut self, memory: &[u8], out: &mut [u8]) -> bool;
    fn post(&mut self, number: u64, offset: u64, length: u64) -> bool;
    /// The expected PSN and the MSN.
    fn counts(&self) -> (u32, u32);
}

pub struct Plain(plain::QueuePair);

impl Side for Plain {
    fn ready() -> Plain {
        let mut pair = plain::QueuePair::set_up(plain::Setup {
            service: plain::RC,
            pmtu: PMTU,
            ours: OURS,
            theirs: 0x34,
            pkey: 0xFFFF,
            start: 0,
            timer: 0,
            send: true,
            write: true,
            read: true,
            atomic: true,
            memory: MEMORY,
        })
        .expect("a good set-up");
        let added = pair.add_region(plain::Region {
            key: KEY,
            address: ADDRESS,
            length: MEMORY as u64,
            offset: 0,
            write: true,
            read: true,
            atomic: true,
        });
        assert_eq!((added, pair.make_ready()), (0, 0));
        Plain(pair)
    }

    #[inline]
    fn inbound(&mut self, memory: &mut [u8], packet: &[u8], out: &mut [u8]) -> u8 {
        self.0.inbound(memory, packet, out).number
    }

    #[inline]
    fn next(&mut self, memory: &[u8], out: &mut [u8]) -> bool {
        self.0.next_response(memory, out).0 == 0
    }

    #[inline]
    fn post(&mut self, number: u64, offset: u64, length: u64) -> bool {
        self.0.post_entry(plain::Entry {
            number,
            offset,
            length,
        }) == 0
    }

    fn counts(&self) -> (u32, u32) {
        (self.0.expected(), self.0.msn())
    }
}

pub struct Ours(udalopek::QueuePair);

impl Side for Ours {
    fn ready() -> Ours {
        let mut pair = udalopek::QueuePair::set_up(udalopek::Setup {
            service: udalopek::Service::Rc,
            pmtu: PMTU,
            ours: OURS,
            theirs: 0x34,
            pkey: 0xFFFF,
            start: 0,
            timer: 0,
            send: true,
            write: true,
            read: true,
            atomic: true,
            memory: MEMORY,
        })
        .expect("a good set-up");
        pair.add_region(udalopek::Region {
            key: KEY,
            address: ADDRESS,
            length: MEMORY as u64,
            offset: 0,
            write: true,
            read: true,
            atomic: true,
        })
        .expect("a good region");
        pair.make_ready().expect("a fresh pair");
        Ours(pair)
    }

    #[inline]
    fn inbound(&mut self, memory: &mut [u8], packet: &[u8], out: &mut [u8]) -> u8 {
        match self.0.inbound(memory, packet, out) {
            Ok(got) => got.answer.number(),
            Err(refusal) => refusal.number(),
        }
    }

    #[inline]
    fn next(&mut self, memory: &[u8], out: &mut [u8]) -> bool {
        self.0.next_response(memory, out).is_ok()
    }

    #[inline]
    fn post(&mut self, number: u64, offset: u64, length: u64) -> bool {
        self.0
            .post_entry(udalopek::Entry {
                number,
                offset,
                length,
            })
            .is_ok()
    }

    fn counts(&self) -> (u32, u32) {
        (self.0.expected(), self.0.msn())
    }
}
