use plain::*;

use crate::common::*;

fn send(length: usize, psn: u32) -> Vec<Vec<u8>> {
    pieces(UC_LINE, Request::Send(None), &bytes(length), psn)
}

fn write(length: usize, immediate: Option<u32>, psn: u32) -> Vec<Vec<u8>> {
    pieces(
        UC_LINE,
        Request::Write {
            address: ADDRESS,
            key: KEY,
            immediate,
        },
        &bytes(length),
        psn,
    )
}

#[test]
fn messages_are_executed_without_answers() {
    let mut bench = Bench::uc();
    bench.post(1, 2048, 600);
    bench.post(2, 2048, 0);
    let packets = send(600, 7);
    assert_eq!(bench.run(&packets[0]), (0, 8, 0));
    assert_eq!(bench.run(&packets[1]), (0, 9, 0));
    let got = bench.give(&packets[2]);
    assert_eq!((got.number, got.sent.len()), (0, 0));
    assert_eq!(
        got.completion,
        Some(Completion {
            entry: 1,
            bytes: 600,
            immediate: None
        })
    );
    assert_eq!((bench.pair.expected(), bench.pair.msn()), (10, 1));
    assert_eq!(bench.memory[2048..2648], bytes(600));
    // Any PSN is taken on First and Only.
    let packets = write(300, Some(8), 0xFF_FFFF);
    assert_eq!(bench.run(&packets[0]), (0, 0, 1));
    let got = bench.give(&packets[1]);
    assert_eq!(
        got.completion,
        Some(Completion {
            entry: 2,
            bytes: 300,
            immediate: Some(8)
        })
    );
    assert_eq!((bench.pair.expected(), bench.pair.msn()), (1, 2));
    assert_eq!(bench.memory[..300], bytes(300));
    assert_eq!(bench.run(&write(4, None, 1_000_000)[0]), (0, 1_000_001, 3));
}

#[test]
fn lost_packets_abandon_the_message() {
    let mut bench = Bench::uc();
    bench.post(1, 2048, 600);
    bench.post(2, 3000, 600);
    let packets = send(600, 7);
    // None open.
    assert_eq!(bench.run(&packets[1]), (5, 7, 0));
    assert_eq!(bench.run(&packets[0]), (0, 8, 0));
    // Wrong PSN.
    assert_eq!(bench.run(&packets[2]), (6, 8, 0));
    assert_eq!(
        (bench.pair.open_message(), bench.pair.held()),
        (None, false)
    );
    assert_eq!(bench.pair.waiting().len(), 2);
    assert_eq!(bench.memory[2048..2304], bytes(600)[..256]);
    assert_eq!(bench.run(&packets[1]), (5, 8, 0));
    // Wrong kind.
    assert_eq!(bench.run(&packets[0]), (0, 8, 0));
    assert_eq!(bench.run(&write(600, None, 7)[1]), (6, 8, 0));
    // A new First closes and takes the same entry again.
    assert_eq!(bench.run(&packets[0]), (0, 8, 0));
    assert_eq!(bench.run(&send(600, 100)[0]), (0, 101, 0));
    assert!(bench.pair.held());
    assert_eq!(bench.pair.waiting()[0].0, 1);
    // An Only completes with it.
    let got = bench.give(&send(10, 50)[0]);
    assert_eq!(
        got.completion,
        Some(Completion {
            entry: 1,
            bytes: 10,
            immediate: None
        })
    );
    assert_eq!((bench.pair.expected(), bench.pair.msn()), (51, 1));
}

#[test]
fn failures_are_quiet() {
    let bare = Bench::uc();
    let mut open = Bench::uc();
    open.post(1, 2048, 300);
    assert_eq!(open.run(&send(600, 7)[0]), (0, 8, 0));
    let no_key = Request::Write {
        address: ADDRESS,
        key: 99,
        immediate: None,
    };
    for packet in [
        piece(UC_LINE, no_key, b"abc", 50, 0),
        raw(0x20, 0, false, 50, &[0; 252]),
        raw(0x20, 1, false, 50, &[0; 256]),
        raw(0x2A, 0, false, 50, &reth(ADDRESS, KEY, 1_048_577)),
        raw(0x2A, 0, false, 50, &reth(ADDRESS, KEY, 1)),
        raw(0x24, 1, false, 50, &[]),
    ] {
        assert_eq!(bare.clone().run(&packet), (5, 7, 0));
        let mut open = open.clone();
        assert_eq!(open.run(&packet), (6, 8, 0));
        assert_eq!((open.pair.open_message(), open.pair.state()), (None, 1));
        assert_eq!(open.pair.waiting(), [(1, 2048, 300)]);
    }
    // No entry waiting; with an open SEND its entry is back.
    assert_eq!(bare.clone().run(&send(0, 50)[0]), (5, 7, 0));
    assert_eq!(open.clone().run(&send(0, 50)[0]), (0, 51, 1));
    // Failures in the message itself: too long for the entry.
    assert_eq!(open.clone().run(&send(600, 7)[1]), (6, 8, 0));
    // A Last with immediate and no entry.
    let mut bench = bare.clone();
    assert_eq!(bench.run(&write(300, Some(1), 7)[0]), (0, 8, 0));
    assert_eq!(bench.run(&write(300, Some(1), 7)[1]), (6, 8, 0));
    // A function not enabled.
    let mut bench = Bench::ready(Setup {
        send: false,
        ..setup(UC)
    });
    bench.post(0, 0, 10);
    assert_eq!(bench.run(&send(1, 7)[0]), (5, 7, 0));
    // Header checks, opcodes above 11 and RC packets leave it open.
    for opcode in (0x2C..0x40).chain(0..0x20) {
        let mut open = open.clone();
        assert_eq!(open.run(&raw(opcode, 0, true, 8, &[0; 40])), (5, 8, 0));
        assert!(open.pair.held());
    }
}
