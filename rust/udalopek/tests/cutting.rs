//! Messages cut into packets: counts, places, padding, PSNs and refusals.
mod common;

use common::{add, pattern, read, write, ADDRESS, KEY};
use udalopek::{cut, read_header, Connection, Extension, Refusal, Request, Service};

const SEND: Request = Request::Send(None);

const TO: Connection = Connection {
    service: Service::Rc,
    pmtu: 256,
    pkey: 0xffff,
    dest: 0x12,
};

/// All packets of a message, and the PSN of the next one.
fn all(to: Connection, request: Request, message: &[u8], first: u32) -> (Vec<Vec<u8>>, u32) {
    let mut packets = Vec::new();
    let mut next = None;
    let mut out = vec![0; 4128];
    loop {
        match cut(to, request, message, first, packets.len(), &mut out) {
            Ok((written, psn)) => {
                packets.push(out[..written].to_vec());
                assert_eq!(*next.get_or_insert(psn), psn);
            }
            Err(refusal) => {
                assert_eq!(refusal, Refusal::OutOfRange);
                return (packets, next.expect("each message has a packet"));
            }
        }
    }
}

#[test]
fn a_message_has_as_many_packets_as_it_needs() {
    let counts = [(0, 1), (1, 1), (256, 1), (257, 2), (512, 2), (513, 3)];
    for (length, count) in counts {
        let (packets, next) = all(TO, SEND, &pattern(length), 0xff_ffff);
        assert_eq!(packets.len(), count);
        assert_eq!(next, count as u32 - 1);
    }
    let (packets, next) = all(TO, SEND, &pattern(1_048_576), 0);
    assert_eq!((packets.len(), next), (4096, 4096));
}

#[test]
fn payloads_join_to_the_message() {
    for service in [Service::Rc, Service::Uc] {
        for pmtu in [256, 512, 1024, 2048, 4096] {
            let to = Connection {
                service,
                pmtu,
                ..TO
            };
            let message = pattern(2 * pmtu + 1);
            let (packets, _) = all(to, SEND, &message, 5);
            let mut joined: Vec<u8> = Vec::new();
            for (i, packet) in packets.iter().enumerate() {
                let header = read_header(packet).unwrap();
                assert_eq!(header.opcode, 32 * service.number() + i as u8);
                assert_eq!(header.ackreq, i == 2);
                assert_eq!(header.pad, if i == 2 { 3 } else { 0 });
                assert_eq!(header.psn, 5 + i as u32);
                let (payload, pad) = packet[12..].split_at(packet.len() - 12 - header.pad as usize);
                joined.extend(payload);
                assert!(pad.iter().all(|&byte| byte == 0));
            }
            assert_eq!(joined, message);
        }
    }
}

#[test]
fn headers_stand_where_they_belong() {
    let message = pattern(600);
    let reth = Extension::Reth {
        address: ADDRESS,
        key: KEY,
        length: 600,
    };
    let of = |request| -> Vec<Extension> {
        let (packets, _) = all(TO, request, &message, 0);
        let headers = packets.iter().map(|packet| read_header(packet).unwrap());
        headers.map(|header| header.extension).collect()
    };
    let none = Extension::None;
    assert_eq!(of(SEND), [none; 3]);
    let immediate = Extension::Immediate(4);
    assert_eq!(of(Request::Send(Some(4))), [none, none, immediate]);
    assert_eq!(of(write(None)), [reth, none, none]);
    assert_eq!(of(write(Some(4))), [reth, none, immediate]);
    let both = Extension::RethImmediate {
        address: ADDRESS,
        key: KEY,
        length: 1,
        immediate: 4,
    };
    let (packets, _) = all(TO, write(Some(4)), b"x", 0);
    assert_eq!(read_header(&packets[0]).unwrap().extension, both);
    // These have one packet, and no byte of the message in it.
    assert_eq!(of(read(600)), [reth]);
    let swap = Request::CmpSwap {
        address: ADDRESS,
        key: KEY,
        swap: 1,
        compare: 2,
    };
    let atomic = |swap, compare| Extension::Atomic {
        address: ADDRESS,
        key: KEY,
        swap,
        compare,
    };
    assert_eq!(of(swap), [atomic(1, 2)]);
    assert_eq!(of(add(3)), [atomic(3, 0)]);
}

#[test]
fn a_read_takes_the_psns_of_its_responses() {
    let (packets, next) = all(TO, read(1025), b"", 24);
    assert_eq!((packets.len(), next), (1, 29));
    assert_eq!(packets[0].len(), 28);
    assert_eq!(all(TO, read(0), b"", 24).1, 25);
    assert_eq!(all(TO, add(1), b"", 24).1, 25);
}

#[test]
fn refusals_leave_the_output() {
    let uc = Connection {
        service: Service::Uc,
        ..TO
    };
    let long = vec![0; 1_048_577];
    let bad = Refusal::BadNumber;
    let range = Refusal::OutOfRange;
    let cases = [
        (Connection { pmtu: 255, ..TO }, SEND, &b""[..], 0, 0, bad),
        (
            Connection {
                dest: 1 << 24,
                ..TO
            },
            SEND,
            b"",
            0,
            0,
            bad,
        ),
        (TO, SEND, b"", 1 << 24, 0, bad),
        (uc, read(8), b"", 0, 0, bad),
        (uc, add(8), b"", 0, 0, bad),
        (TO, SEND, &long, 0, 0, range),
        (TO, read(1_048_577), b"", 0, 0, range),
        (TO, SEND, b"", 0, 1, range),
        (TO, SEND, b"", 0, usize::MAX, range),
        (TO, read(1025), b"", 0, 1, range),
        (TO, SEND, b"", 0, 0, Refusal::OutputShort),
        (TO, add(8), b"", 0, 0, Refusal::OutputShort),
    ];
    for (to, request, message, first, index, refusal) in cases {
        let mut out = [0xee; 11];
        let refused = cut(to, request, message, first, index, &mut out);
        assert_eq!(refused, Err(refusal));
        assert_eq!(out, [0xee; 11]);
    }
}
