use plain::*;

use crate::common::*;

const SEND: Request = Request::Send(None);

fn write(address: u64, immediate: Option<u32>) -> Request {
    Request::Write {
        address,
        key: KEY,
        immediate,
    }
}

fn read(address: u64, length: u32) -> Request {
    Request::Read {
        address,
        key: KEY,
        length,
    }
}

fn add(address: u64, add: u64) -> Request {
    Request::FetchAdd {
        address,
        key: KEY,
        add,
    }
}

fn one(request: Request, message: &[u8], psn: u32) -> Vec<u8> {
    piece(RC_LINE, request, message, psn, 0)
}

fn word(memory: &[u8], at: usize) -> u64 {
    u64::from_le_bytes(memory[at..at + 8].try_into().unwrap())
}

fn at(start: u32) -> Bench {
    Bench::ready(Setup { start, ..setup(RC) })
}

#[test]
fn w1_to_w4_handed_in() {
    let psn = |psn| raw(4, 0, true, psn, &[]);
    assert_eq!(at(0).give(&psn(16_777_215)).number, 4);
    assert_eq!(at(0).give(&psn(8_388_608)).number, 16);
    assert_eq!(at(0).give(&psn(8_388_609)).number, 4);
    let got = at(16_777_215).give(&psn(0));
    assert_eq!((got.number, got.sent), (16, ack(0x60, 16_777_215, 0)));
}

#[test]
fn w10_fetch_add_wraps() {
    let mut bench = Bench::rc();
    bench.memory[16..24].fill(0xFF);
    let got = bench.give(&one(add(ADDRESS + 16, 2), &[], 7));
    assert_eq!((got.number, got.sent), (3, atomic_ack(7, 1, u64::MAX)));
    assert_eq!(word(&bench.memory, 16), 1);
    assert_eq!((bench.pair.expected(), bench.pair.msn()), (8, 1));
    assert_eq!(bench.pair.saved(), [(7, u64::MAX)]);
}

#[test]
fn w11_pkeys() {
    for (ours, its, good) in [
        (0x7FFF, 0xFFFF, true),
        (0xFFFF, 0x7FFF, true),
        (0xFFFF, 0xFFFF, true),
        (0x7FFF, 0x7FFF, false),
        (0xFFFF, 0xFFFE, false),
        (0x8001, 0x8000, false),
    ] {
        let mut bench = Bench::ready(Setup {
            pkey: ours,
            ..setup(RC)
        });
        bench.post(0, 0, 0);
        let line = Connection {
            pkey: its,
            ..RC_LINE
        };
        let number = bench.give(&piece(line, SEND, &[], 7, 0)).number;
        assert_eq!(number, if good { 1 } else { 5 });
    }
}

#[test]
fn w12_send_only() {
    let mut bench = Bench::rc();
    bench.post(42, 2048, 128);
    let packet = [
        4, 0x10, 0xFF, 0xFF, 0, 0, 0, 0x12, 0x80, 0, 0, 7, 0x61, 0x62, 0x63, 0,
    ];
    let fourth = bench.memory[2051];
    let got = bench.give(&packet);
    assert_eq!(got.number, 1);
    assert_eq!(
        got.sent,
        [0x11, 0, 0xFF, 0xFF, 0, 0, 0, 0x34, 0, 0, 0, 7, 0x1F, 0, 0, 1]
    );
    assert_eq!(
        got.completion,
        Some(Completion {
            entry: 42,
            bytes: 3,
            immediate: None
        })
    );
    assert_eq!(bench.memory[2048..2052], [b'a', b'b', b'c', fourth]);
    assert!(bench.pair.waiting().is_empty());
    assert_eq!(bench.run(&packet), (4, 8, 1));
}

#[test]
fn header_checks_drop_quietly() {
    let good = one(SEND, b"abcd", 7);
    let mut bench = Bench::rc();
    bench.post(0, 0, 64);
    let changed = |at: usize, to: u8| {
        let mut packet = good.clone();
        packet[at] = to;
        bench.clone().give(&packet).number
    };
    assert_eq!(changed(0, 4), 1);
    assert_eq!(changed(1, 1), 5);
    assert_eq!(changed(7, 0x13), 5);
    assert_eq!(changed(2, 0xFE), 5);
    assert_eq!(changed(0, 0x24), 5);
    assert_eq!(changed(0, 0x44), 5);
    for response in 13..=18 {
        assert_eq!(changed(0, response), 5);
    }
    assert_eq!(changed(0, 12), 5);
    // SE, MigReq and reserved bits make no difference.
    assert_eq!(changed(1, 0xC0), 1);
    assert_eq!(changed(4, 0xFF), 1);
    assert_eq!(changed(8, 0xFF), 1);
    assert_eq!(bench.give(&good[..15]).number, 5);
    assert_eq!(bench.give(&[]).number, 5);
    assert_eq!(bench.give(&vec![0; 4132]).number, 5);
    let mut init = QueuePair::set_up(setup(RC)).unwrap();
    assert_eq!(
        init.inbound(&mut bench.memory, &good, &mut [0; 24]).number,
        5
    );
    assert_eq!(bench.give(&raw(21, 0, true, 7, &[])).number, 17);
    assert_eq!(bench.give(&good).number, 5);
}

#[test]
fn a_send_in_parts() {
    let mut bench = Bench::rc();
    bench.post(1, 2048, 600);
    bench.post(2, 3000, 600);
    let message = bytes(600);
    let packets = pieces(RC_LINE, Request::Send(Some(77)), &message, 7);
    assert_eq!(bench.run(&packets[0]), (0, 8, 0));
    assert_eq!(bench.pair.open_message(), Some((0, 256)));
    let mut second = packets[1].clone();
    second[8] |= 0x80;
    let got = bench.give(&second);
    assert_eq!((got.number, got.sent), (1, ack(0x1F, 8, 0)));
    let got = bench.give(&packets[2]);
    assert_eq!((got.number, got.sent), (1, ack(0x1F, 9, 1)));
    assert_eq!(
        got.completion,
        Some(Completion {
            entry: 1,
            bytes: 600,
            immediate: Some(77)
        })
    );
    assert_eq!(bench.memory[2048..2648], message);
    assert_eq!(bench.pair.waiting(), [(2, 3000, 600)]);
    assert_eq!(bench.pair.open_message(), None);
}

#[test]
fn a_write_in_parts() {
    let mut bench = Bench::rc();
    let message = bytes(513);
    let packets = pieces(RC_LINE, write(ADDRESS + 3, Some(5)), &message, 7);
    assert_eq!(bench.run(&packets[0]), (0, 8, 0));
    assert_eq!(bench.run(&packets[1]), (0, 9, 0));
    assert_eq!(bench.pair.open_message(), Some((6, 512)));
    assert!(!bench.pair.held());
    // Not ready at the Last with immediate; it may come again.
    let got = bench.give(&packets[2]);
    assert_eq!((got.number, got.sent), (19, ack(0x25, 9, 0)));
    assert!(bench.pair.marked());
    assert_eq!(bench.run(&raw(4, 0, false, 11, &[])), (5, 9, 0));
    bench.post(3, 3000, 0);
    let got = bench.give(&packets[2]);
    assert_eq!((got.number, got.sent), (1, ack(0x1F, 9, 1)));
    assert_eq!(
        got.completion,
        Some(Completion {
            entry: 3,
            bytes: 513,
            immediate: Some(5)
        })
    );
    assert!(!bench.pair.marked());
    assert_eq!(bench.memory[3..516], message);
    // Without immediate: no entry, no completion.
    let got = bench.give(&one(write(ADDRESS, None), b"xyz", 10));
    assert_eq!((got.number, got.completion), (1, None));
    // Length 0 checks no key.
    let nowhere = Request::Write {
        address: 1,
        key: 99,
        immediate: None,
    };
    assert_eq!(bench.run(&one(nowhere, &[], 11)), (1, 12, 3));
}

#[test]
fn ahead_and_the_mark() {
    let mut bench = Bench::rc();
    bench.post(0, 0, 64);
    let got = bench.give(&one(SEND, &[], 9));
    assert_eq!((got.number, got.sent), (16, ack(0x60, 7, 0)));
    assert!(bench.pair.marked());
    assert_eq!(bench.run(&one(SEND, &[], 8)), (5, 7, 0));
    // A duplicate does not clear the mark, an expected packet does.
    assert_eq!(bench.run(&one(SEND, &[], 6)), (4, 7, 0));
    assert!(bench.pair.marked());
    assert_eq!(bench.run(&one(SEND, &[], 7)), (1, 8, 1));
    assert!(!bench.pair.marked());
    assert_eq!(bench.run(&one(SEND, &[], 9)), (16, 8, 1));
    // Not ready answers again although the mark is set.
    assert_eq!(bench.run(&one(SEND, &[], 8)), (19, 8, 1));
    assert_eq!(bench.run(&one(SEND, &[], 8)), (19, 8, 1));
    // Ahead is ahead whatever the opcode.
    assert_eq!(Bench::rc().run(&raw(31, 0, false, 8, &[])), (16, 7, 0));
}

/// Number for one expected packet on a ready bench with one entry.
fn verdict(packet: &[u8]) -> u8 {
    let mut bench = Bench::rc();
    bench.post(0, 2048, 100);
    judged(&mut bench, packet)
}

fn judged(bench: &mut Bench, packet: &[u8]) -> u8 {
    let got = bench.give(packet);
    let psn = u32::from_be_bytes(packet[8..12].try_into().unwrap()) & 0xFF_FFFF;
    let msn = bench.pair.msn();
    match got.number {
        17 => assert_eq!((got.sent, bench.pair.state()), (ack(0x61, psn, msn), 2)),
        18 => assert_eq!((got.sent, bench.pair.state()), (ack(0x62, psn, msn), 2)),
        19 => assert_eq!((got.sent, bench.pair.marked()), (ack(0x25, psn, msn), true)),
        _ => {}
    }
    got.number
}

#[test]
fn order_of_checks() {
    let off = Setup {
        send: false,
        write: false,
        read: false,
        atomic: false,
        ..setup(RC)
    };
    let off = || Bench::ready(off);
    // Sequence.
    for opcode in [1, 2, 3, 7, 8, 9] {
        assert_eq!(verdict(&raw(opcode, 0, false, 7, &[0; 4])), 17);
    }
    // Reserved or not enabled comes before not ready.
    for opcode in 21..32 {
        assert_eq!(verdict(&raw(opcode, 0, false, 7, &[])), 17);
    }
    assert_eq!(judged(&mut off(), &one(SEND, &[], 7)), 17);
    assert_eq!(
        judged(&mut off(), &one(write(ADDRESS, Some(1)), &[], 7)),
        17
    );
    assert_eq!(judged(&mut off(), &one(read(0, 1), &[], 7)), 17);
    assert_eq!(judged(&mut off(), &one(add(0, 1), &[], 7)), 17);
    // Pad on First before not ready; pad on Only after it.
    assert_eq!(
        judged(&mut Bench::rc(), &raw(0, 1, false, 7, &[0; 256])),
        17
    );
    assert_eq!(judged(&mut Bench::rc(), &raw(4, 3, false, 7, &[])), 19);
    // DMA length before not ready and before R_Key.
    let huge = reth(0, 99, 1_048_577);
    assert_eq!(
        judged(
            &mut Bench::rc(),
            &raw(11, 0, false, 7, &[&huge[..], &[0; 4]].concat())
        ),
        17
    );
    assert_eq!(verdict(&raw(12, 0, false, 7, &huge)), 17);
    assert_eq!(verdict(&raw(12, 0, false, 7, &reth(0, 99, 1_048_576))), 18);
    // Not ready before R_Key and before lengths.
    let imm = [&reth(0, 99, 1)[..], &[0; 4]].concat();
    assert_eq!(judged(&mut Bench::rc(), &raw(11, 0, false, 7, &imm)), 19);
    assert_eq!(verdict(&raw(11, 0, false, 7, &imm)), 18);
    assert_eq!(judged(&mut Bench::rc(), &raw(0, 0, false, 7, &[0; 4])), 19);
    assert_eq!(judged(&mut Bench::rc(), &raw(5, 0, false, 7, &[0; 4])), 19);
    // R_Key before lengths.
    assert_eq!(verdict(&raw(12, 1, false, 7, &reth(0, 99, 1))), 18);
    assert_eq!(verdict(&raw(12, 1, false, 7, &reth(ADDRESS, KEY, 1))), 17);
    assert_eq!(verdict(&one(add(1, 1), &[], 7)), 18);
    assert_eq!(verdict(&one(add(ADDRESS + 4, 1), &[], 7)), 17);
}

#[test]
fn a_request_within_an_open_message() {
    let mut bench = Bench::rc();
    bench.post(0, 2048, 600);
    assert_eq!(bench.run(&raw(0, 0, false, 7, &[9; 256])), (0, 8, 0));
    for other in [
        raw(0, 0, false, 8, &[9; 256]),
        raw(4, 0, false, 8, &[9; 4]),
        raw(7, 0, false, 8, &[9; 256]),
        raw(8, 0, false, 8, &[9; 4]),
        one(write(ADDRESS, None), &[1], 8),
        one(read(ADDRESS, 1), &[], 8),
        one(add(ADDRESS, 1), &[], 8),
        raw(30, 0, false, 8, &[]),
    ] {
        let mut bench = bench.clone();
        assert_eq!(judged(&mut bench, &other), 17);
        // All else is kept.
        assert_eq!(bench.pair.open_message(), Some((0, 256)));
        assert!(bench.pair.held());
        assert_eq!(bench.pair.waiting().len(), 1);
    }
    // A Middle that does not fit the entry, and one that does.
    assert_eq!(
        judged(&mut bench.clone(), &raw(1, 0, false, 8, &[9; 252])),
        17
    );
    assert_eq!(
        judged(&mut bench.clone(), &raw(1, 1, false, 8, &[9; 256])),
        17
    );
    assert_eq!(judged(&mut bench.clone(), &raw(2, 0, false, 8, &[])), 17);
    assert_eq!(
        judged(&mut bench.clone(), &raw(2, 0, false, 8, &[9; 260])),
        17
    );
    assert_eq!(judged(&mut bench, &raw(1, 0, false, 8, &[9; 256])), 0);
    assert_eq!(
        judged(&mut bench.clone(), &raw(1, 0, false, 9, &[9; 256])),
        17
    );
    assert_eq!(
        judged(&mut bench.clone(), &raw(2, 3, false, 9, &[9; 92])),
        17
    );
    assert_eq!(
        judged(&mut bench.clone(), &raw(2, 0, false, 9, &[9; 88])),
        0
    );
    assert_eq!(judged(&mut bench, &raw(2, 3, false, 9, &[9; 88])), 0);
}

#[test]
fn lengths() {
    assert_eq!(verdict(&raw(4, 0, false, 7, &[1; 100])), 0);
    assert_eq!(verdict(&raw(4, 0, false, 7, &[1; 104])), 17);
    assert_eq!(verdict(&raw(4, 1, false, 7, &[])), 17);
    assert_eq!(verdict(&raw(0, 0, false, 7, &[1; 256])), 17);
    let only = |length, size: usize, pad| {
        verdict(&raw(
            10,
            pad,
            false,
            7,
            &[&reth(ADDRESS, KEY, length)[..], &vec![1; size]].concat(),
        ))
    };
    assert_eq!(only(256, 256, 0), 0);
    assert_eq!(only(260, 260, 0), 17);
    assert_eq!(only(255, 256, 1), 0);
    assert_eq!(only(254, 256, 1), 17);
    assert_eq!(only(256, 256, 1), 17);
    assert_eq!(only(0, 0, 0), 0);
    assert_eq!(only(0, 0, 1), 17);
    assert_eq!(only(0, 4, 3), 17);
    let first = |length, size: usize| {
        verdict(&raw(
            6,
            0,
            false,
            7,
            &[&reth(ADDRESS, KEY, length)[..], &vec![1; size]].concat(),
        ))
    };
    assert_eq!(first(257, 256), 0);
    assert_eq!(first(256, 256), 17);
    assert_eq!(first(0, 256), 17);
    assert_eq!(first(257, 252), 17);
    assert_eq!(first(2049, 256), 18);
    // The Last must bring what is left, the Middle must leave something.
    let mut bench = Bench::rc();
    assert_eq!(
        bench
            .run(&raw(
                6,
                0,
                false,
                7,
                &[&reth(ADDRESS, KEY, 512)[..], &[1; 256]].concat()
            ))
            .0,
        0
    );
    assert_eq!(
        judged(&mut bench.clone(), &raw(7, 0, false, 8, &[2; 256])),
        17
    );
    assert_eq!(
        judged(&mut bench.clone(), &raw(8, 0, false, 8, &[2; 252])),
        17
    );
    assert_eq!(
        judged(&mut bench.clone(), &raw(8, 1, false, 8, &[2; 256])),
        17
    );
    assert_eq!(judged(&mut bench, &raw(8, 0, false, 8, &[2; 256])), 0);
    assert_eq!(bench.pair.msn(), 1);
    // READ and atomics carry no payload.
    assert_eq!(
        verdict(&raw(
            12,
            0,
            false,
            7,
            &[&reth(ADDRESS, KEY, 1)[..], &[0; 4]].concat()
        )),
        17
    );
    let mut packet = one(add(ADDRESS, 1), &[], 7);
    packet.extend([0; 4]);
    assert_eq!(verdict(&packet), 17);
}

#[test]
fn keys_and_rights() {
    for (request, right) in [
        (
            write(ADDRESS, None),
            Region {
                read: false,
                atomic: false,
                ..region()
            },
        ),
        (
            read(ADDRESS, 4),
            Region {
                write: false,
                atomic: false,
                ..region()
            },
        ),
        (
            add(ADDRESS, 4),
            Region {
                write: false,
                read: false,
                ..region()
            },
        ),
    ] {
        let other = Region {
            write: !right.write,
            read: !right.read,
            atomic: !right.atomic,
            ..right
        };
        for (region, good) in [(right, true), (other, false)] {
            let mut bench = Bench::rc();
            bench.pair.remove_region(KEY);
            assert_eq!(bench.pair.add_region(region), 0);
            assert_eq!(judged(&mut bench, &one(request, b"abcd", 7)) == 18, !good);
        }
    }
    // The edges of the region.
    assert_eq!(verdict(&one(read(ADDRESS - 1, 4), &[], 7)), 18);
    assert_eq!(verdict(&one(read(ADDRESS + 2044, 4), &[], 7)), 2);
    assert_eq!(verdict(&one(read(ADDRESS + 2045, 4), &[], 7)), 18);
    assert_eq!(verdict(&one(read(ADDRESS + 2048, 1), &[], 7)), 18);
    assert_eq!(verdict(&one(read(ADDRESS + 2049, 1), &[], 7)), 18);
    assert_eq!(verdict(&one(read(u64::MAX, 4), &[], 7)), 18);
    assert_eq!(verdict(&one(add(ADDRESS + 2040, 4), &[], 7)), 3);
    assert_eq!(verdict(&one(add(ADDRESS + 2041, 4), &[], 7)), 18);
    // The key is looked up again for each packet of a WRITE.
    let packets = pieces(RC_LINE, write(ADDRESS, None), &bytes(700), 7);
    let mut bench = Bench::rc();
    assert_eq!(bench.give(&packets[0]).number, 0);
    bench.pair.remove_region(KEY);
    assert_eq!(judged(&mut bench.clone(), &packets[1]), 18);
    // A new region of that key need only hold what is still to come.
    let rest = Region {
        address: ADDRESS + 256,
        length: 444,
        offset: 1000,
        ..region()
    };
    assert_eq!(
        bench.pair.add_region(Region {
            length: 443,
            ..rest
        }),
        0
    );
    assert_eq!(judged(&mut bench.clone(), &packets[1]), 18);
    bench.pair.remove_region(KEY);
    assert_eq!(bench.pair.add_region(rest), 0);
    assert_eq!(bench.give(&packets[1]).number, 0);
    assert_eq!(bench.give(&packets[2]).number, 1);
    assert_eq!(bench.memory[..256], bytes(700)[..256]);
    assert_eq!(bench.memory[1000..1444], bytes(700)[256..]);
}

#[test]
fn w8_reads() {
    let mut bench = Bench::ready(Setup {
        start: 24,
        ..setup(RC)
    });
    assert_eq!(
        bench.run(&one(read(ADDRESS + 1, 1025), &[], 24)),
        (2, 29, 1)
    );
    assert_eq!(bench.pair.responses_pending(), 5);
    // A removed region does not stop the answer.
    assert_eq!(bench.pair.remove_region(KEY), 0);
    let got = bench.drain();
    let mut data: Vec<u8> = Vec::new();
    for (i, packet) in got.iter().enumerate() {
        let header = read_header(packet).unwrap();
        assert_eq!(header.opcode, [13, 14, 14, 14, 15][i]);
        assert_eq!(
            (header.psn, header.dest, header.ackreq),
            (24 + i as u32, 0x34, false)
        );
        assert_eq!(header.pad, if i == 4 { 3 } else { 0 });
        let start = if (1..4).contains(&i) { 12 } else { 16 };
        if start == 16 {
            assert_eq!(
                header.extension,
                Extension::Aeth {
                    syndrome: 0x1F,
                    msn: 1
                }
            );
        }
        data.extend(&packet[start..packet.len() - usize::from(header.pad)]);
    }
    assert_eq!(data, bench.memory[1..1026]);

    // One response; length 0 too, with any key.
    bench.pair.add_region(region());
    assert_eq!(bench.run(&one(read(ADDRESS, 256), &[], 29)), (2, 30, 2));
    assert_eq!(bench.drain()[0][0], 16);
    let nothing = Request::Read {
        address: 3,
        key: 99,
        length: 0,
    };
    assert_eq!(bench.run(&one(nothing, &[], 30)), (2, 31, 3));
    let mut only = ack(0x1F, 30, 3);
    only[0] = 0x10;
    assert_eq!(bench.drain(), [only]);
    assert_eq!(bench.run(&one(read(ADDRESS, 257), &[], 31)), (2, 33, 4));
    let got = bench.drain();
    assert_eq!((got.len(), got[0][0], got[1][0]), (2, 13, 15));
}

#[test]
fn compare_and_swap() {
    let mut bench = Bench::rc();
    let old = word(&bench.memory, 8);
    let swap = |compare| Request::CmpSwap {
        address: ADDRESS + 8,
        key: KEY,
        swap: 99,
        compare,
    };
    let got = bench.give(&one(swap(old + 1), &[], 7));
    assert_eq!((got.number, got.sent), (3, atomic_ack(7, 1, old)));
    assert_eq!(word(&bench.memory, 8), old);
    let got = bench.give(&one(swap(old), &[], 8));
    assert_eq!((got.number, got.sent), (3, atomic_ack(8, 2, old)));
    assert_eq!(word(&bench.memory, 8), 99);
}

#[test]
fn numbers_wrap() {
    let mut bench = at(0xFF_FFFF);
    bench.post(0, 0, 600);
    let packets = pieces(RC_LINE, SEND, &bytes(600), 0xFF_FFFF);
    assert_eq!(bench.run(&packets[0]), (0, 0, 0));
    assert_eq!(bench.run(&packets[0]), (4, 0, 0));
    assert_eq!(bench.give(&packets[0]).sent, ack(0x1F, 0xFF_FFFF, 0));
    assert_eq!(bench.run(&packets[1]), (0, 1, 0));
    assert_eq!(bench.run(&packets[2]), (1, 2, 1));
    let mut bench = at(0xFF_FFFE);
    assert_eq!(
        bench.run(&one(read(ADDRESS, 1024), &[], 0xFF_FFFE)),
        (2, 2, 1)
    );
    let psns: Vec<_> = bench
        .drain()
        .iter()
        .map(|p| read_header(p).unwrap().psn)
        .collect();
    assert_eq!(psns, [0xFF_FFFE, 0xFF_FFFF, 0, 1]);
}

#[test]
fn empty_memory() {
    let mut pair = QueuePair::set_up(Setup {
        memory: 0,
        ..setup(RC)
    })
    .unwrap();
    pair.make_ready();
    assert_eq!(
        pair.post_entry(Entry {
            number: 1,
            offset: 0,
            length: 0
        }),
        0
    );
    let mut out = [0; 272];
    assert_eq!(
        pair.inbound(&mut [], &one(SEND, &[], 7), &mut out).number,
        1
    );
    assert_eq!(
        pair.inbound(&mut [], &one(write(0, None), &[], 8), &mut out)
            .number,
        1
    );
    assert_eq!(
        pair.inbound(&mut [], &one(read(0, 0), &[], 9), &mut out)
            .number,
        2
    );
    assert_eq!(pair.next_response(&[], &mut out), (0, 16));
}
