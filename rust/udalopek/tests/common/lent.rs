//! A pair as bare words and tables, so that a test may set any number of it.
use super::wire::Wire;
use super::*;
use std::fmt::Debug;
use udalopek::raw::{self, Entries, Regions, Saved, WORDS};

/// Which of the words is which number.
pub mod word {
    pub const PMTU: usize = 0;
    pub const MEMORY: usize = 1;
    pub const OURS: usize = 2;
    pub const THEIRS: usize = 3;
    pub const START: usize = 4;
    pub const PKEY: usize = 5;
    pub const SERVICE: usize = 6;
    pub const TIMER: usize = 7;
    /// Whether SEND, WRITE, READ and atomics are enabled.
    pub const SEND: usize = 8;
    pub const WRITE: usize = 9;
    pub const READ: usize = 10;
    pub const ATOMIC: usize = 11;
    /// The open message: 255 for none, 0 for a SEND, 6 for a WRITE; address, key and length are a WRITE's.
    pub const KIND: usize = 12;
    pub const STORED: usize = 13;
    pub const ADDRESS: usize = 14;
    pub const KEY: usize = 15;
    pub const LENGTH: usize = 16;
    /// The entries.
    pub const HEAD: usize = 17;
    pub const COUNT: usize = 18;
    /// The READ that is being answered: how many responses are still to be taken, and the whole READ.
    pub const PENDING: usize = 19;
    pub const READ_OFFSET: usize = 20;
    pub const READ_LENGTH: usize = 21;
    pub const READ_PSN: usize = 22;
    pub const READ_MSN: usize = 23;
    /// The saved atomics.
    pub const SAVED_HEAD: usize = 24;
    pub const SAVED_COUNT: usize = 25;
    pub const EXPECTED: usize = 26;
    pub const MSN: usize = 27;
    pub const STATE: usize = 28;
    pub const NAK_MARK: usize = 29;
}

// The states.
pub const INIT: u64 = 0;
pub const READY: u64 = 1;
pub const ERROR: u64 = 2;

// The limit of memory and DMA lengths, and how many PSNs and MSNs there are.
pub const LIMIT: u32 = 1_048_576;
pub const SPACE: u32 = 1 << 24;

/// The numbers of no open message.
pub const CLOSED: [(usize, u64); 5] = [
    (word::KIND, 255),
    (word::STORED, 0),
    (word::ADDRESS, 0),
    (word::KEY, 0),
    (word::LENGTH, 0),
];

/// All that a call is lent but the packet.
#[derive(Clone, Debug, PartialEq)]
pub struct Lent {
    pub words: Vec<u64>,
    pub regions: Regions,
    pub entries: Entries,
    pub saved: Saved,
    pub memory: Vec<u8>,
    pub out: Vec<u8>,
}

impl Lent {
    /// Nothing set up yet, tables full of anything.
    pub fn blank(words: usize) -> Lent {
        Lent {
            words: vec![0x55; words],
            regions: [[u64::MAX; 7]; 16],
            entries: [[u64::MAX; 3]; 16],
            saved: [[u64::MAX; 2]; 16],
            memory: pattern(MEMORY),
            out: vec![0xee; 16 + 4096],
        }
    }

    /// Ready, with the region, and entries of 600 bytes numbered from 11 on.
    pub fn ready(service: Service, entries: u64) -> Lent {
        let mut lent = Lent::blank(WORDS);
        assert_eq!(lent.set_up_as(Setup { service, ..setup() }), 0);
        assert_eq!(lent.add_region(KEY), 0);
        for i in 0..entries {
            assert_eq!(lent.post(11 + i, 1536 + 100 * i, 600), 0);
        }
        assert_eq!(lent.make_ready(), 0);
        lent
    }

    /// Ready; an atomic is saved, one entry waits, a WRITE is open with 256 of its 300 bytes stored, and of a duplicate
    /// READ 2 of 3 responses are pending. So each of the 30 words says something, and has a bound.
    pub fn busy() -> Lent {
        let mut lent = Lent::ready(Service::Rc, 0);
        assert_eq!(lent.post_entry(), 0);
        let message = pattern(300);
        assert_eq!(lent.hand(add(1), b"", 7, 0), 3);
        let asked = packet(Service::Rc, read(600), b"", 8, 0);
        assert_eq!(lent.inbound(&asked), 2);
        lent.drain();
        assert_eq!(lent.hand(write(None), &message, 11, 0), 0);
        assert_eq!(lent.inbound(&asked), 4);
        assert_eq!(lent.next_response(), 0);
        lent.out.fill(0xee);
        lent
    }

    /// The same with numbers set.
    pub fn with(&self, set: &[(usize, u64)]) -> Lent {
        let mut lent = self.clone();
        for &(word, value) in set {
            lent.words[word] = value;
        }
        lent
    }

    pub fn set_up(&mut self) -> u8 {
        self.set_up_as(setup())
    }

    pub fn set_up_as(&mut self, setup: Setup) -> u8 {
        raw::set_up(
            &mut self.words,
            &mut self.regions,
            setup.service.number(),
            setup.pmtu,
            setup.ours,
            setup.theirs,
            setup.pkey,
            setup.start,
            setup.timer,
            setup.send,
            setup.write,
            setup.read,
            setup.atomic,
            setup.memory,
        )
    }

    /// Whether reset is allowed: each word is in the range of its field, and a set-up accepts the numbers of the set-up.
    /// What else the words say, reset sets anew.
    pub fn may_be_reset(&self) -> bool {
        let space = u64::from(SPACE);
        let under = |word: &usize, bound: u64| self.words[*word] < bound;
        let set_up = [256, 512, 1024, 2048, 4096].contains(&self.words[word::PMTU])
            && self.words[word::MEMORY] <= u64::from(LIMIT)
            && self.words[word::PKEY] % (1 << 15) != 0
            && under(&word::TIMER, 32);
        let numbers = [
            word::OURS,
            word::THEIRS,
            word::START,
            word::EXPECTED,
            word::MSN,
        ];
        let flags = [
            word::SERVICE,
            word::SEND,
            word::WRITE,
            word::READ,
            word::ATOMIC,
            word::NAK_MARK,
        ];
        set_up
            && under(&word::PKEY, 1 << 16)
            && numbers.iter().all(|word| under(word, space))
            && flags.iter().all(|word| under(word, 2))
            && [word::KIND, word::STATE]
                .iter()
                .all(|word| under(word, 256))
            && [word::HEAD, word::SAVED_HEAD]
                .iter()
                .all(|word| under(word, 16))
            && [word::KEY, word::READ_PSN, word::READ_MSN]
                .iter()
                .all(|word| under(word, 1 << 32))
    }

    pub fn reset(&mut self) -> u8 {
        raw::reset(&mut self.words, &mut self.regions)
    }

    pub fn make_ready(&mut self) -> u8 {
        raw::make_ready(&mut self.words)
    }

    pub fn add_region(&mut self, key: u32) -> u8 {
        self.add(Region { key, ..region() })
    }

    pub fn add(&mut self, region: Region) -> u8 {
        raw::add_region(
            &self.words,
            &mut self.regions,
            region.key,
            region.address,
            region.length,
            region.offset,
            region.write,
            region.read,
            region.atomic,
        )
    }

    pub fn remove_region(&mut self) -> u8 {
        self.remove(KEY)
    }

    pub fn remove(&mut self, key: u32) -> u8 {
        raw::remove_region(&self.words, &mut self.regions, key)
    }

    pub fn post_entry(&mut self) -> u8 {
        self.post(5, 2048, 128)
    }

    pub fn post(&mut self, number: u64, offset: u64, length: u64) -> u8 {
        raw::post_entry(&mut self.words, &mut self.entries, number, offset, length)
    }

    /// The report of a refused packet is all 0.
    pub fn inbound(&mut self, packet: &[u8]) -> u8 {
        self.take(packet).0
    }

    /// Answers also the report.
    pub fn take(&mut self, packet: &[u8]) -> (u8, [u64; 6]) {
        let mut report = [u64::MAX; 6];
        let number = raw::inbound(
            &mut self.words,
            &self.regions,
            &self.entries,
            &mut self.saved,
            &mut self.memory,
            packet,
            &mut self.out,
            &mut report,
        );
        assert!(number < 32 || report == [0; 6]);
        (number, report)
    }

    pub fn next_response(&mut self) -> u8 {
        self.respond().0
    }

    /// Answers also how many bytes are to be sent.
    pub fn respond(&mut self) -> (u8, u64) {
        let mut report = [u64::MAX];
        let number = raw::next_response(&mut self.words, &self.memory, &mut self.out, &mut report);
        assert!(number < 32 || report == [0]);
        (number, report[0])
    }

    pub fn hand(&mut self, request: Request, message: &[u8], first: u32, index: usize) -> u8 {
        self.inbound(&packet(Service::Rc, request, message, first, index))
    }

    pub fn drain(&mut self) {
        while self.words[word::PENDING] != 0 {
            assert_eq!(self.next_response(), 0);
        }
        self.out.fill(0xee);
    }

    /// The call answers so, and changes nothing.
    pub fn keeps(&self, number: u8, call: impl Fn(&mut Lent) -> u8, case: impl Debug) {
        let mut lent = self.clone();
        assert_eq!(call(&mut lent), number, "{case:?}");
        assert!(lent == *self, "{case:?}: something changed");
    }

    /// The packet is answered so and with these bytes, none where it is quiet; of all that is lent these words alone
    /// change. Answers what is left.
    pub fn only_sets(
        &self,
        set: &[(usize, u64)],
        number: u8,
        outgoing: &[u8],
        packet: &Wire,
    ) -> Lent {
        let mut expected = self.with(set);
        expected.out[..outgoing.len()].copy_from_slice(outgoing);
        let mut lent = self.clone();
        let report = [outgoing.len() as u64, 0, 0, 0, 0, 0];
        assert_eq!(lent.take(&packet.bytes()), (number, report), "{packet:?}");
        assert_eq!(lent.words, expected.words, "{packet:?}");
        assert!(lent == expected, "{packet:?}: something else changed");
        lent
    }

    /// The packet is dropped or refused so: nothing changes.
    pub fn leaves(&self, number: u8, packet: &Wire) {
        self.only_sets(&[], number, b"", packet);
    }

    /// The packet is answered so; what it does is for other tests.
    pub fn after(&self, number: u8, packet: &Wire) -> Lent {
        let mut lent = self.clone();
        assert_eq!(lent.inbound(&packet.bytes()), number, "{packet:?}");
        lent
    }
}
