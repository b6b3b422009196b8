//! The numbers that calls answer: what became of a packet, and why a call was refused.
use std::fmt;

/// What became of a packet that was handed in.
#[derive(Clone, Copy, Debug, PartialEq, Eq, Hash)]
#[repr(u8)]
pub enum Answer {
    /// Executed; nothing to send. Its bytes are in place and the expected PSN has moved on.
    Executed = 0,
    /// Executed as by [`Answer::Executed`], and an ACK is to be sent.
    Acknowledged = 1,
    /// A READ is accepted: its responses are to be taken by [`crate::QueuePair::next_response`] before the next packet.
    ReadAccepted = 2,
    /// An atomic is executed in memory, its old value saved, and an Atomic Acknowledge is to be sent.
    AtomicExecuted = 3,
    /// A retransmission is answered, and not executed: an ACK or the saved Atomic Acknowledge is to be sent, or the
    /// responses of a READ are to be taken. Nothing else changed.
    DuplicateAnswered = 4,
    /// Dropped: nothing to send, nothing changed.
    Dropped = 5,
    /// On UC: the open message is given up and its receive entry waits again; nothing to send. Bytes stored stay.
    Abandoned = 6,
    /// A packet was lost before this one: a NAK with the expected PSN is to be sent; only the NAK mark is set.
    SequenceNak = 16,
    /// The request is not a valid one: a NAK is to be sent; the pair is in Error, all else kept.
    InvalidRequestNak = 17,
    /// The key does not allow it: a NAK is to be sent; the pair is in Error, all else kept.
    AccessNak = 18,
    /// No receive entry waits: a NAK with the timer code is to be sent; only the NAK mark is set.
    NotReadyNak = 19,
}

impl Answer {
    /// The number that the rules give this answer.
    #[inline]
    pub fn number(self) -> u8 {
        self as u8
    }

    /// Numbers from 32 on are refusals.
    #[inline]
    pub(crate) fn of(number: u8) -> Result<Answer, Refusal> {
        Ok(match number {
            0 => Answer::Executed,
            1 => Answer::Acknowledged,
            2 => Answer::ReadAccepted,
            3 => Answer::AtomicExecuted,
            4 => Answer::DuplicateAnswered,
            5 => Answer::Dropped,
            6 => Answer::Abandoned,
            16 => Answer::SequenceNak,
            17 => Answer::InvalidRequestNak,
            18 => Answer::AccessNak,
            19 => Answer::NotReadyNak,
            _ => return Err(Refusal::of(number)),
        })
    }
}

impl fmt::Display for Answer {
    fn fmt(&self, f: &mut fmt::Formatter) -> fmt::Result {
        f.pad(match self {
            Answer::Executed => "executed",
            Answer::Acknowledged => "executed, acknowledged",
            Answer::ReadAccepted => "READ accepted",
            Answer::AtomicExecuted => "atomic executed",
            Answer::DuplicateAnswered => "duplicate answered",
            Answer::Dropped => "dropped",
            Answer::Abandoned => "message abandoned",
            Answer::SequenceNak => "NAK: PSN sequence error",
            Answer::InvalidRequestNak => "NAK: invalid request",
            Answer::AccessNak => "NAK: remote access error",
            Answer::NotReadyNak => "NAK: receiver not ready",
        })
    }
}

/// Why a call was refused. A refused call has changed nothing and there is nothing to send.
#[derive(Clone, Copy, Debug, PartialEq, Eq, Hash)]
#[repr(u8)]
pub enum Refusal {
    /// A READ is still being answered: take its responses first.
    ReadUnfinished = 32,
    /// The table has no free row: 16 regions, or 16 entries, held one included.
    TableFull = 33,
    /// A range is not in memory, memory or a message is too long or of another length than was set up, a message has no
    /// such packet.
    OutOfRange = 34,
    /// The output lent is too short.
    OutputShort = 35,
    /// Not in this state, or no response is pending.
    WrongState = 36,
    /// No region has this key.
    NoSuchKey = 37,
    /// Another region has this key.
    KeyInUse = 38,
    /// A number that cannot be: PMTU, over 24 bits, P_Key, timer code, a field of a header, a READ or atomic on UC.
    BadNumber = 39,
}

impl Refusal {
    /// The number that the rules give this refusal.
    #[inline]
    pub fn number(self) -> u8 {
        self as u8
    }

    #[inline]
    pub(crate) fn of(number: u8) -> Refusal {
        match number {
            32 => Refusal::ReadUnfinished,
            33 => Refusal::TableFull,
            34 => Refusal::OutOfRange,
            35 => Refusal::OutputShort,
            36 => Refusal::WrongState,
            37 => Refusal::NoSuchKey,
            38 => Refusal::KeyInUse,
            39 => Refusal::BadNumber,
            _ => unreachable!("the library has no answer {number}"),
        }
    }

    /// What a call that answers 0 when done has answered.
    #[inline]
    pub(crate) fn unless_done(number: u8) -> Result<(), Refusal> {
        match number {
            0 => Ok(()),
            _ => Err(Refusal::of(number)),
        }
    }
}

impl fmt::Display for Refusal {
    fn fmt(&self, f: &mut fmt::Formatter) -> fmt::Result {
        f.pad(match self {
            Refusal::ReadUnfinished => "a READ is still being answered",
            Refusal::TableFull => "the table is full",
            Refusal::OutOfRange => "out of range",
            Refusal::OutputShort => "the output is too short",
            Refusal::WrongState => "not in this state",
            Refusal::NoSuchKey => "no such key",
            Refusal::KeyInUse => "the key is in use",
            Refusal::BadNumber => "a bad number",
        })
    }
}

impl std::error::Error for Refusal {}
