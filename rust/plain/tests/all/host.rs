use plain::*;

use crate::common::*;

fn made(setup: Setup) -> u8 {
    QueuePair::set_up(setup).err().unwrap_or(0)
}

#[test]
fn set_up() {
    let good = setup(RC);
    assert_eq!(made(good), 0);
    let over = Setup {
        memory: 1_048_577,
        ..good
    };
    for bad in [
        Setup { service: 2, ..over },
        Setup { pmtu: 255, ..over },
        Setup {
            ours: 1 << 24,
            ..over
        },
        Setup {
            theirs: 1 << 24,
            ..over
        },
        Setup {
            start: 1 << 24,
            ..over
        },
        Setup { pkey: 0, ..over },
        Setup {
            pkey: 0x8000,
            ..over
        },
        Setup { timer: 32, ..over },
    ] {
        assert_eq!(made(bad), 39);
    }
    assert_eq!(made(over), 34);
    for memory in [0, 1_048_576] {
        assert_eq!(
            made(Setup {
                memory,
                timer: 31,
                pkey: 1,
                service: UC,
                ..good
            }),
            0
        );
    }
    for pmtu in [256, 512, 1024, 2048, 4096] {
        assert_eq!(
            made(Setup {
                pmtu,
                ours: 0xFF_FFFF,
                ..good
            }),
            0
        );
    }
    let pair = QueuePair::set_up(good).unwrap();
    assert_eq!(
        (pair.state(), pair.expected(), pair.msn(), pair.marked()),
        (0, 7, 0, false)
    );
}

/// A bench in the Error state.
fn broken() -> Bench {
    let mut bench = Bench::rc();
    assert_eq!(bench.run(&raw(31, 0, false, 7, &[])), (17, 7, 0));
    assert_eq!(bench.pair.state(), 2);
    bench
}

#[test]
fn regions() {
    let mut pair = QueuePair::set_up(setup(RC)).unwrap();
    let good = region();
    assert_eq!(pair.add_region(good), 0);
    for bad in [
        Region { length: 0, ..good },
        Region {
            offset: 2049,
            ..good
        },
        Region {
            offset: u64::MAX,
            ..good
        },
        Region {
            length: 4097,
            ..good
        },
        Region {
            address: 0u64.wrapping_sub(2048),
            ..good
        },
    ] {
        assert_eq!(pair.add_region(bad), 34);
    }
    assert_eq!(pair.add_region(good), 38);
    // The last address allowed ends just below 2^64.
    assert_eq!(
        pair.add_region(Region {
            key: 1,
            address: u64::MAX - 2048,
            ..good
        }),
        0
    );
    for key in 2..16 {
        assert_eq!(pair.add_region(Region { key, ..good }), 0);
    }
    assert_eq!(pair.add_region(Region { length: 0, ..good }), 34);
    assert_eq!(pair.add_region(good), 38);
    assert_eq!(pair.add_region(Region { key: 99, ..good }), 33);
    assert_eq!(pair.remove_region(99), 37);
    assert_eq!(pair.remove_region(3), 0);
    assert_eq!(pair.remove_region(3), 37);
    assert_eq!(pair.regions().len(), 15);
    assert_eq!(pair.add_region(Region { key: 99, ..good }), 0);

    let mut bench = broken();
    assert_eq!(bench.pair.add_region(Region { length: 0, ..good }), 36);
    assert_eq!(bench.pair.remove_region(99), 37);
    assert_eq!(bench.pair.remove_region(KEY), 0);
}

#[test]
fn entries() {
    let mut pair = QueuePair::set_up(setup(RC)).unwrap();
    let entry = |offset, length| Entry {
        number: 5,
        offset,
        length,
    };
    assert_eq!(pair.post_entry(entry(0, 4097)), 34);
    assert_eq!(pair.post_entry(entry(4097, 0)), 34);
    assert_eq!(pair.post_entry(entry(u64::MAX, 1)), 34);
    assert_eq!(pair.post_entry(entry(4096, 0)), 0);
    for _ in 1..16 {
        assert_eq!(pair.post_entry(entry(0, 4096)), 0);
    }
    assert_eq!(pair.post_entry(entry(1, 4096)), 34);
    assert_eq!(pair.post_entry(entry(0, 0)), 33);
    assert_eq!(pair.waiting().len(), 16);
    let mut bench = broken();
    assert_eq!(bench.pair.post_entry(entry(1, 4096)), 36);
}

#[test]
fn the_held_entry_counts() {
    let mut bench = Bench::rc();
    for number in 0..16 {
        bench.post(number, 0, 1024);
    }
    let packets = pieces(RC_LINE, Request::Send(None), &bytes(300), 7);
    assert_eq!(bench.give(&packets[0]).number, 0);
    assert!(bench.pair.held());
    assert_eq!(bench.pair.waiting().len(), 16);
    assert_eq!(bench.pair.waiting()[0].0, 0);
    assert_eq!(
        bench.pair.post_entry(Entry {
            number: 16,
            offset: 0,
            length: 0
        }),
        33
    );
    assert_eq!(bench.give(&packets[1]).number, 1);
    assert_eq!(
        bench.pair.post_entry(Entry {
            number: 16,
            offset: 0,
            length: 0
        }),
        0
    );
}

#[test]
fn ready_and_reset() {
    let mut bench = Bench::rc();
    assert_eq!(bench.pair.make_ready(), 36);
    bench.post(1, 0, 10);
    let add = Request::FetchAdd {
        address: ADDRESS,
        key: KEY,
        add: 1,
    };
    assert_eq!(bench.give(&piece(RC_LINE, add, &[], 7, 0)).number, 3);
    let read = Request::Read {
        address: ADDRESS,
        key: KEY,
        length: 10,
    };
    assert_eq!(bench.give(&piece(RC_LINE, read, &[], 8, 0)).number, 2);
    assert_eq!(bench.pair.reset(), 0);
    let fresh = QueuePair::set_up(setup(RC)).unwrap();
    assert_eq!(snapshot(&bench.pair), snapshot(&fresh));
    assert_eq!(bench.pair.make_ready(), 0);

    let mut bench = broken();
    assert_eq!(bench.pair.make_ready(), 36);
    assert_eq!(bench.pair.reset(), 0);
    assert_eq!(snapshot(&bench.pair), snapshot(&fresh));
}

#[test]
fn inbound_and_next_response_refuse_in_order() {
    let mut bench = Bench::rc();
    let read = piece(
        RC_LINE,
        Request::Read {
            address: ADDRESS,
            key: KEY,
            length: 300,
        },
        &[],
        7,
        0,
    );
    let mut out = [0xA5; 272];
    assert_eq!(bench.pair.next_response(&[], &mut []), (36, 0));
    assert_eq!(bench.give(&read).number, 2);
    let before = snapshot(&bench.pair);
    let pair = &mut bench.pair;
    assert_eq!(pair.inbound(&mut [], &read, &mut out[..23]).number, 35);
    assert_eq!(
        pair.inbound(&mut [0; 4095], &read, &mut out[..24]).number,
        34
    );
    assert_eq!(
        pair.inbound(&mut bench.memory, &[], &mut out[..24]).number,
        32
    );
    assert_eq!(pair.next_response(&[], &mut out[..271]), (35, 0));
    assert_eq!(pair.next_response(&[0; 4097], &mut out), (34, 0));
    assert_eq!(out, [0xA5; 272]);
    assert_eq!(snapshot(pair), before);
    assert_eq!(pair.next_response(&bench.memory, &mut out), (0, 272));
    assert_eq!(
        pair.inbound(&mut bench.memory, &[], &mut out[..24]).number,
        32
    );
    assert_eq!(pair.next_response(&bench.memory, &mut out), (0, 60));
    assert_eq!(pair.next_response(&bench.memory, &mut out), (36, 0));
    assert_eq!(
        pair.inbound(&mut bench.memory, &[], &mut out[..24]).number,
        5
    );
}
