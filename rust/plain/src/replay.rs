//! The replay program ("Replay program").

use std::io::{self, Write};

use crate::{record, Entry, QueuePair, Region, Setup, RC};

const MEMORY: usize = 4096;
const PMTU: usize = 256;

/// The program's queue pair, ready, with its region and entries.
fn pair() -> QueuePair {
    let setup = Setup {
        service: RC,
        pmtu: PMTU,
        ours: 0x12,
        theirs: 0x34,
        pkey: 0xFFFF,
        start: 7,
        timer: 0,
        send: true,
        write: true,
        read: true,
        atomic: true,
        memory: MEMORY,
    };
    let mut pair = QueuePair::set_up(setup).expect("the numbers are good");
    pair.add_region(Region {
        key: 0x1000,
        address: 0x10000,
        length: 1024,
        offset: 0,
        write: true,
        read: true,
        atomic: true,
    });
    for number in 0..16 {
        pair.post_entry(Entry {
            number,
            offset: 2048 + 128 * number,
            length: 128,
        });
    }
    pair.make_ready();
    pair
}

/// Replays the records of `input`, one line a packet.
pub fn replay(input: &[u8], output: &mut impl Write) -> io::Result<()> {
    let mut pair = pair();
    let mut memory = [0; MEMORY];
    let mut out = [0; 16 + PMTU];
    record::for_each(input, output, |output, _, packet| {
        let answer = pair.inbound(&mut memory, packet, &mut out);
        while pair.responses_pending() > 0 {
            pair.next_response(&memory, &mut out);
        }
        writeln!(
            output,
            "{} {} {}",
            answer.number,
            pair.expected(),
            pair.msn()
        )
    })
}
