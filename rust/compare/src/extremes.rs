//! What made-up lists do not come to: all of the numbers, and all of the
//! memory that a pair can have.

use crate::side::fresh_memory;
use crate::subject::*;

const NUMBERS: u32 = 1 << 24;
const START: u32 = 5;
const KEY: u32 = 1;

/// A reliable pair on each side, with one region over all memory.
struct Both<A, B> {
    left: A,
    right: B,
    memories: [Vec<u8>; 2],
    outs: [Vec<u8>; 2],
    calls: u64,
}

impl<A: Subject, B: Subject> Both<A, B> {
    fn ready(memory: usize) -> Result<Self, String> {
        let refused = |number| format!("the set-up is refused with {number}");
        let setup = Setup {
            service: RC,
            pmtu: 256,
            ours: 0x12,
            theirs: 0x34,
            pkey: 0xFFFF,
            start: START,
            timer: 0,
            send: true,
            write: true,
            read: true,
            atomic: true,
            memory,
        };
        let region = Region {
            key: KEY,
            address: 0,
            length: memory as u64,
            offset: 0,
            write: true,
            read: true,
            atomic: true,
        };
        let mut both = Both {
            left: A::set_up(setup).map_err(refused)?,
            right: B::set_up(setup).map_err(refused)?,
            memories: [fresh_memory(memory), fresh_memory(memory)],
            outs: [vec![0xA5; 272], vec![0xA5; 272]],
            calls: 0,
        };
        both.left.add_region(region);
        both.right.add_region(region);
        both.left.make_ready();
        both.right.make_ready();
        Ok(both)
    }

    /// What both wrote, if both answer with this number and a like completion.
    fn hand_in(&mut self, packet: &[u8], number: u8) -> Result<&[u8], String> {
        let [one, two] = &mut self.memories;
        let left = self.left.inbound(one, packet, &mut self.outs[0]);
        let right = self.right.inbound(two, packet, &mut self.outs[1]);
        if left != right || left.number != number {
            return Err(format!(
                "call {}: {left:?}, {right:?}, not {number}",
                self.calls
            ));
        }
        self.alike()?;
        Ok(&self.outs[0][..left.sent])
    }

    fn next_response(&mut self) -> Result<&[u8], String> {
        let left = self
            .left
            .next_response(&self.memories[0], &mut self.outs[0]);
        let right = self
            .right
            .next_response(&self.memories[1], &mut self.outs[1]);
        if left != right || left.0 != 0 {
            return Err(format!("call {}: {left:?}, {right:?}", self.calls));
        }
        self.alike()?;
        Ok(&self.outs[0][..left.1])
    }

    /// The bytes of all responses that are pending, 256 in each.
    fn responses(&mut self) -> Result<Vec<u8>, String> {
        let mut bytes = Vec::new();
        while self.left.counts().pending > 0 {
            let response = self.next_response()?;
            bytes.extend_from_slice(&response[response.len() - 256..]);
        }
        Ok(bytes)
    }

    fn alike(&mut self) -> Result<(), String> {
        self.calls += 1;
        let alike = self.outs[0] == self.outs[1] && self.left.counts() == self.right.counts();
        alike
            .then_some(())
            .ok_or_else(|| format!("call {}: outputs or counts", self.calls))
    }

    fn end(&self) -> Result<u64, String> {
        let alike = self.memories[0] == self.memories[1] && self.left.view() == self.right.view();
        alike
            .then_some(self.calls)
            .ok_or_else(|| "memory or state at the end".to_string())
    }
}

/// A request with AckReq, whose PSN is set later.
fn request(opcode: u8, headers: &[&[u8]]) -> Vec<u8> {
    let mut packet = vec![opcode, 0, 0xFF, 0xFF, 0, 0, 0, 0x12, 0x80, 0, 0, 0];
    packet.extend(headers.concat());
    packet
}

/// As many messages as there are numbers, so that PSN and MSN come back to
/// where they were, and an atomic gets a PSN that one had before. How many
/// calls agree, or what differs.
pub fn all_numbers<A: Subject, B: Subject>() -> Result<u64, String> {
    let mut both = Both::<A, B>::ready(64)?;
    // A FetchAdd of 1 to the first 8 bytes, and a WRITE of no bytes.
    let add = [
        &[0; 8][..],
        &KEY.to_be_bytes(),
        &1_u64.to_be_bytes(),
        &[0; 8],
    ];
    let mut atomic = request(20, &add);
    let mut nothing = request(10, &[&[0; 16]]);
    atomic[9..12].copy_from_slice(&START.to_be_bytes()[1..]);
    let old = both.hand_in(&atomic, 3)?.to_vec();
    for psn in START + 1..START + NUMBERS {
        nothing[9..12].copy_from_slice(&psn.to_be_bytes()[1..]);
        both.hand_in(&nothing, 1)?;
    }
    let new = both.hand_in(&atomic, 3)?.to_vec();
    let duplicate = both.hand_in(&atomic, 4)?.to_vec();
    if duplicate != new || old[16..] == new[16..] {
        return Err("a duplicate atomic does not get the newest answer of its PSN".to_string());
    }
    let Counts { expected, msn, .. } = both.left.counts();
    if (expected, msn) != (START + 1, 1) {
        return Err(format!(
            "after all numbers {expected} is expected, and the MSN {msn}"
        ));
    }
    both.end()
}

/// A WRITE and a SEND of as many bytes as memory can have, each read back
/// twice: the second time by the READ retransmitted.
pub fn all_memory<A: Subject, B: Subject>() -> Result<u64, String> {
    let mut both = Both::<A, B>::ready(LIMIT)?;
    let entry = Entry {
        number: 9,
        offset: 0,
        length: LIMIT as u64,
    };
    both.left.post_entry(entry);
    both.right.post_entry(entry);
    let (address, key) = (0, KEY);
    let write = Request::Write {
        address,
        key,
        immediate: None,
    };
    let read = Request::Read {
        address,
        key,
        length: LIMIT as u32,
    };
    let mut psn = START;
    for (request, factor) in [(write, 3_u32), (Request::Send(Some(1)), 7)] {
        let message: Vec<u8> = (0..LIMIT as u32)
            .map(|i| (i.wrapping_mul(factor) >> 5) as u8)
            .collect();
        let (packets, after) = cut_alike::<A, B>(request, &message, psn)?;
        let (last, others) = packets.split_last().ok_or("no packets")?;
        for packet in others {
            both.hand_in(packet, 0)?;
        }
        both.hand_in(last, 1)?;
        if both.memories[0] != message {
            return Err("memory is not what was sent".to_string());
        }
        let (asked, after) = cut_alike::<A, B>(read, &[], after)?;
        for number in [2, 4] {
            both.hand_in(&asked[0], number)?;
            if both.responses()? != message {
                return Err("the responses are not what memory holds".to_string());
            }
        }
        psn = after;
    }
    both.end()
}

/// The packets of a message, cut alike by both, and the next one's PSN.
fn cut_alike<A: Subject, B: Subject>(
    request: Request,
    message: &[u8],
    first: u32,
) -> Result<(Vec<Vec<u8>>, u32), String> {
    let connection = Connection {
        service: RC,
        pmtu: 256,
        pkey: 0xFFFF,
        dest: 0x12,
    };
    let mut packets = Vec::new();
    let mut next = first;
    for index in 0..message.len().div_ceil(256).max(1) {
        let mut outs = [[0; 288]; 2];
        let left = A::cut(connection, request, message, first, index, &mut outs[0]);
        let right = B::cut(connection, request, message, first, index, &mut outs[1]);
        match left {
            Ok((written, after)) if left == right && outs[0] == outs[1] => {
                packets.push(outs[0][..written].to_vec());
                next = after;
            }
            _ => return Err(format!("cut {index}: {left:?}, {right:?}")),
        }
    }
    Ok((packets, next))
}
