use plain::*;

use crate::common::*;

fn read(address: u64, length: u32) -> Request {
    Request::Read {
        address,
        key: KEY,
        length,
    }
}

fn one(request: Request, psn: u32) -> Vec<u8> {
    piece(RC_LINE, request, &[], psn, 0)
}

#[test]
fn send_and_write() {
    let mut bench = Bench::rc();
    bench.post(0, 0, 64);
    let mut packet = piece(RC_LINE, Request::Send(None), b"abc", 7, 0);
    assert_eq!(bench.run(&packet), (1, 8, 1));
    // Answered with or without AckReq, however old and however malformed.
    packet[8] = 0;
    let got = bench.give(&packet);
    assert_eq!((got.number, got.sent), (4, ack(0x1F, 7, 1)));
    for opcode in [0, 1, 2, 4, 7, 8] {
        let got = bench.give(&raw(opcode, 3, false, 3, &[]));
        assert_eq!((got.number, got.sent), (4, ack(0x1F, 7, 1)));
    }
    let got = bench.give(&raw(10, 0, false, 3, &reth(0, 99, u32::MAX)));
    assert_eq!((got.number, got.sent), (4, ack(0x1F, 7, 1)));
    assert_eq!(bench.give(&raw(21, 0, true, 3, &[])).number, 5);
    // Before packet 0 the last PSN is the expected one minus 1.
    let mut bench = Bench::ready(Setup {
        start: 0,
        ..setup(RC)
    });
    assert_eq!(
        bench.give(&raw(4, 0, true, 0xFF_FFF0, &[])).sent,
        ack(0x1F, 0xFF_FFFF, 0)
    );
}

#[test]
fn reads() {
    let mut bench = Bench::rc();
    assert_eq!(bench.run(&one(read(ADDRESS, 600), 7)), (2, 10, 1));
    bench.drain();
    assert_eq!(bench.run(&one(read(ADDRESS, 600), 10)), (2, 13, 2));
    bench.drain();
    bench.memory[0] = 0xEE;
    assert_eq!(bench.run(&one(read(ADDRESS, 600), 7)), (4, 13, 2));
    let got = bench.drain();
    assert_eq!(got.len(), 3);
    assert_eq!(got[0][16], 0xEE);
    let header = read_header(&got[0]).unwrap();
    assert_eq!(
        (header.psn, header.extension),
        (
            7,
            Extension::Aeth {
                syndrome: 0x1F,
                msn: 2
            }
        )
    );
    // A part of a read, or one across two; it must end before the expected.
    assert_eq!(bench.run(&one(read(ADDRESS, 1024), 9)), (4, 13, 2));
    assert_eq!(bench.drain().len(), 4);
    assert_eq!(bench.give(&one(read(ADDRESS, 1025), 9)).number, 5);
    assert_eq!(bench.give(&one(read(ADDRESS, 257), 12)).number, 5);
    assert_eq!(bench.run(&one(read(ADDRESS, 256), 12)), (4, 13, 2));
    bench.drain();
    // Else quiet: payload, pad, limit, key.
    assert_eq!(
        bench
            .give(&raw(12, 1, true, 7, &reth(ADDRESS, KEY, 4)))
            .number,
        5
    );
    assert_eq!(
        bench
            .give(&raw(
                12,
                0,
                true,
                7,
                &[&reth(ADDRESS, KEY, 4)[..], &[0; 4]].concat()
            ))
            .number,
        5
    );
    assert_eq!(bench.give(&one(read(ADDRESS - 1, 4), 7)).number, 5);
    assert_eq!(
        bench
            .give(&raw(12, 0, true, 0x90_0000, &reth(ADDRESS, KEY, 1_048_577)))
            .number,
        5
    );
    bench.pair.remove_region(KEY);
    assert_eq!(bench.give(&one(read(ADDRESS, 4), 7)).number, 5);
    assert_eq!(bench.give(&one(read(ADDRESS, 0), 7)).number, 4);
    let mut bench = Bench::ready(Setup {
        read: false,
        ..setup(RC)
    });
    assert_eq!(bench.give(&one(read(ADDRESS, 4), 3)).number, 5);
}

#[test]
fn atomics() {
    let mut bench = Bench::rc();
    bench.memory[..8].fill(0);
    let add = |by| Request::FetchAdd {
        address: ADDRESS,
        key: KEY,
        add: by,
    };
    for i in 0..17 {
        assert_eq!(bench.give(&one(add(10), 7 + i)).number, 3);
    }
    // The seventeenth took the place of the oldest.
    assert_eq!(bench.pair.saved().len(), 16);
    assert_eq!(bench.pair.saved()[0], (8, 10));
    assert_eq!(bench.pair.saved()[15], (23, 160));
    assert_eq!(bench.give(&one(add(10), 7)).number, 5);
    // Any atomic of that PSN, whatever it says.
    let got = bench.give(&one(add(99), 9));
    assert_eq!((got.number, got.sent), (4, atomic_ack(9, 17, 20)));
    let swap = Request::CmpSwap {
        address: 1,
        key: 99,
        swap: 0,
        compare: 0,
    };
    let got = bench.give(&one(swap, 23));
    assert_eq!((got.number, got.sent), (4, atomic_ack(23, 17, 160)));
    assert_eq!(bench.memory[..8], 170u64.to_le_bytes());
    assert_eq!(bench.give(&one(add(99), 6)).number, 5);
}

#[test]
fn the_newest_of_two_with_one_psn() {
    // Sixteen rows and a wrap of the number space: 4,096 responses a READ.
    let mut bench = Bench::ready(Setup {
        memory: 1 << 20,
        ..setup(RC)
    });
    bench.pair.remove_region(KEY);
    bench.pair.add_region(Region {
        length: 1 << 20,
        ..region()
    });
    let add = Request::FetchAdd {
        address: ADDRESS,
        key: KEY,
        add: 1,
    };
    bench.memory[..8].fill(0);
    let deliver = |bench: &mut Bench, packet: &[u8]| {
        bench
            .pair
            .inbound(&mut bench.memory, packet, &mut [0; 24])
            .number
    };
    assert_eq!(deliver(&mut bench, &one(add, 7)), 3);
    let mut psn = 8;
    let mut out = vec![0; 272];
    while psn != 7 {
        let left = 7u32.wrapping_sub(psn) & 0xFF_FFFF;
        let length = left.min(4096) * 256;
        assert_eq!(deliver(&mut bench, &one(read(ADDRESS, length), psn)), 2);
        while bench.pair.responses_pending() > 0 {
            bench.pair.next_response(&bench.memory, &mut out);
        }
        psn = bench.pair.expected();
    }
    assert_eq!(deliver(&mut bench, &one(add, 7)), 3);
    assert_eq!(bench.pair.saved(), [(7, 0), (7, 1)]);
    let got = bench.give(&one(add, 7));
    assert_eq!((got.number, &got.sent[16..]), (4, &1u64.to_be_bytes()[..]));
}
