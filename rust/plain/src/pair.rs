//! The queue pair and the host's calls on it ("Answers of the inbound call").

use crate::number::{is_pmtu, LAST, LIMIT, ROWS};
use crate::refusal::{BAD_NUMBER, FULL, KEY_USED, NO_KEY, RANGE, STATE};
use crate::ring::Ring;
use crate::{RC, UC};

/// The numbers a queue pair is set up with.
#[derive(Clone, Copy, Debug, PartialEq, Eq)]
pub struct Setup {
    pub service: u8,
    pub pmtu: usize,
    pub ours: u32,
    pub theirs: u32,
    pub pkey: u16,
    /// The first expected PSN.
    pub start: u32,
    /// The timer code of a not-ready NAK.
    pub timer: u8,
    pub send: bool,
    pub write: bool,
    pub read: bool,
    pub atomic: bool,
    /// Bytes of memory lent with each call.
    pub memory: usize,
}

/// A part of memory that the other side may name by key and address.
#[derive(Clone, Copy, Debug, PartialEq, Eq)]
pub struct Region {
    pub key: u32,
    pub address: u64,
    pub length: u64,
    pub offset: u64,
    pub write: bool,
    pub read: bool,
    pub atomic: bool,
}

/// A receive entry; its number is the host's choice.
#[derive(Clone, Copy, Debug, PartialEq, Eq)]
pub struct Entry {
    pub number: u64,
    pub offset: u64,
    pub length: u64,
}

/// What the host learns at the end of a message that took an entry.
#[derive(Clone, Copy, Debug, PartialEq, Eq)]
pub struct Completion {
    pub entry: u64,
    pub bytes: u64,
    pub immediate: Option<u32>,
}

/// The answer of the inbound call; `sent` bytes stand at the start of `out`.
#[derive(Clone, Copy, Debug, PartialEq, Eq)]
pub struct Inbound {
    pub number: u8,
    pub sent: usize,
    pub completion: Option<Completion>,
}

#[derive(Clone, Copy, Debug, PartialEq, Eq)]
pub(crate) enum State {
    Init,
    Ready,
    Error,
}

/// A message of which the Last is still to come. An open SEND holds the entry
/// at the front of the queue, which stays there until the message completes.
#[derive(Clone, Copy, Debug, PartialEq, Eq)]
pub(crate) enum Open {
    Send { placed: usize },
    Write(Write),
}

/// What the RETH of a WRITE says, and the bytes placed so far.
#[derive(Clone, Copy, Debug, PartialEq, Eq)]
pub(crate) struct Write {
    pub address: u64,
    pub key: u32,
    pub length: usize,
    pub placed: usize,
}

/// A read answer being sent: what is left of it.
#[derive(Clone, Copy, Debug, PartialEq, Eq)]
pub(crate) struct Answer {
    /// Place in memory of the next response's bytes.
    pub at: usize,
    /// Bytes still to send.
    pub left: usize,
    /// Responses still to send, at least 1.
    pub responses: usize,
    /// Whether the next response is the first one.
    pub first: bool,
    /// PSN of the next response.
    pub psn: u32,
    /// The MSN as at acceptance.
    pub msn: u32,
}

/// An atomic that was executed, kept for its duplicates.
#[derive(Clone, Copy, Debug, PartialEq, Eq)]
pub(crate) struct Saved {
    pub psn: u32,
    pub value: u64,
}

/// One queue pair of the RC or UC service.
#[derive(Clone, Debug)]
pub struct QueuePair {
    pub(crate) setup: Setup,
    pub(crate) state: State,
    pub(crate) expected: u32,
    pub(crate) msn: u32,
    /// The NAK mark: a NAK was sent and no expected packet executed since.
    pub(crate) marked: bool,
    pub(crate) open: Option<Open>,
    pub(crate) answer: Option<Answer>,
    /// Entries not completed, oldest first, the held one among them.
    pub(crate) entries: Ring<Entry>,
    pub(crate) saved: Ring<Saved>,
    regions: [Region; ROWS],
    region_count: usize,
}

const BLANK_REGION: Region = Region {
    key: 0,
    address: 0,
    length: 0,
    offset: 0,
    write: false,
    read: false,
    atomic: false,
};
const BLANK_ENTRY: Entry = Entry {
    number: 0,
    offset: 0,
    length: 0,
};

impl QueuePair {
    /// Set-up. Refusals: 39, 34.
    pub fn set_up(setup: Setup) -> Result<QueuePair, u8> {
        let good = (setup.service == RC || setup.service == UC)
            && is_pmtu(setup.pmtu)
            && setup.ours <= LAST
            && setup.theirs <= LAST
            && setup.start <= LAST
            && setup.pkey & 0x7FFF != 0
            && setup.timer <= 31;
        if !good {
            return Err(BAD_NUMBER);
        }
        if setup.memory > LIMIT {
            return Err(RANGE);
        }
        Ok(QueuePair::fresh(setup))
    }

    /// The Init state with empty tables, MSN 0 and the set-up numbers.
    fn fresh(setup: Setup) -> QueuePair {
        QueuePair {
            setup,
            state: State::Init,
            expected: setup.start,
            msn: 0,
            marked: false,
            open: None,
            answer: None,
            entries: Ring::new(BLANK_ENTRY),
            saved: Ring::new(Saved { psn: 0, value: 0 }),
            regions: [BLANK_REGION; ROWS],
            region_count: 0,
        }
    }

    /// Add region. Refusals: 36, 34, 38, 33.
    pub fn add_region(&mut self, region: Region) -> u8 {
        if self.state == State::Error {
            return STATE;
        }
        let below_top = region.address.checked_add(region.length).is_some();
        if region.length == 0 || !self.in_memory(region.offset, region.length) || !below_top {
            return RANGE;
        }
        if self.region(region.key).is_some() {
            return KEY_USED;
        }
        if self.region_count == ROWS {
            return FULL;
        }
        self.regions[self.region_count] = region;
        self.region_count += 1;
        0
    }

    /// Remove region. Refusal: 37.
    pub fn remove_region(&mut self, key: u32) -> u8 {
        let used = &mut self.regions[..self.region_count];
        let Some(row) = used.iter().position(|region| region.key == key) else {
            return NO_KEY;
        };
        used[row..].rotate_left(1);
        self.region_count -= 1;
        0
    }

    /// Post entry. Refusals: 36, 34, 33.
    pub fn post_entry(&mut self, entry: Entry) -> u8 {
        if self.state == State::Error {
            return STATE;
        }
        if !self.in_memory(entry.offset, entry.length) {
            return RANGE;
        }
        if self.entries.is_full() {
            return FULL;
        }
        self.entries.push(entry);
        0
    }

    /// Make ready. Refusal: 36 unless Init.
    pub fn make_ready(&mut self) -> u8 {
        if self.state != State::Init {
            return STATE;
        }
        self.state = State::Ready;
        0
    }

    /// Reset: always allowed; memory stays.
    pub fn reset(&mut self) -> u8 {
        *self = QueuePair::fresh(self.setup);
        0
    }

    pub fn expected(&self) -> u32 {
        self.expected
    }

    pub fn msn(&self) -> u32 {
        self.msn
    }

    /// 0 Init, 1 Ready, 2 Error.
    pub fn state(&self) -> u8 {
        match self.state {
            State::Init => 0,
            State::Ready => 1,
            State::Error => 2,
        }
    }

    /// Whether the NAK mark is set.
    pub fn marked(&self) -> bool {
        self.marked
    }

    /// Responses of the read answer still to send.
    pub fn responses_pending(&self) -> usize {
        self.answer.map_or(0, |answer| answer.responses)
    }

    /// Entries posted and not completed, oldest first, the held one first:
    /// number, offset, length.
    pub fn waiting(&self) -> Vec<(u64, u64, u64)> {
        self.entries
            .iter()
            .map(|entry| (entry.number, entry.offset, entry.length))
            .collect()
    }

    /// Whether an open message holds an entry.
    pub fn held(&self) -> bool {
        matches!(self.open, Some(Open::Send { .. }))
    }

    pub fn regions(&self) -> Vec<Region> {
        self.regions[..self.region_count].to_vec()
    }

    /// Saved atomics, oldest first: PSN and the value answered.
    pub fn saved(&self) -> Vec<(u32, u64)> {
        self.saved
            .iter()
            .map(|saved| (saved.psn, saved.value))
            .collect()
    }

    /// The open message: 0 SEND or 6 WRITE, and the bytes placed so far.
    pub fn open_message(&self) -> Option<(u8, u64)> {
        self.open.map(|open| match open {
            Open::Send { placed } => (0, placed as u64),
            Open::Write(write) => (6, write.placed as u64),
        })
    }

    /// Address, R_Key and DMA length of an open WRITE, as its First gave them.
    pub fn open_write(&self) -> Option<(u64, u32, u64)> {
        match self.open {
            Some(Open::Write(write)) => Some((write.address, write.key, write.length as u64)),
            _ => None,
        }
    }

    /// What is left of the READ being answered: the place in memory of the next response's bytes if there are any, how many
    /// bytes are left, the PSN of the next response, and the MSN.
    pub fn read_answer(&self) -> Option<(Option<u64>, u64, u32, u32)> {
        self.answer.map(|answer| {
            let at = (answer.left > 0).then_some(answer.at as u64);
            (at, answer.left as u64, answer.psn, answer.msn)
        })
    }

    /// The region of this key.
    #[inline]
    pub(crate) fn region(&self, key: u32) -> Option<&Region> {
        self.regions[..self.region_count]
            .iter()
            .find(|region| region.key == key)
    }

    fn in_memory(&self, offset: u64, length: u64) -> bool {
        offset
            .checked_add(length)
            .is_some_and(|end| end <= self.setup.memory as u64)
    }
}
