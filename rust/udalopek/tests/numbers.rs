//! Numbers that the safe types cannot hold, handed to the library as they are; and the report where a call is refused.
use udalopek::raw;

const FULL: u64 = 0x5555_5555_5555_5555;

/// A cut of a READ of four bytes by a service and a kind, with bytes beside it: number, report, output.
fn cut(service: u8, kind: u8, message: &[u8], room: usize) -> (u8, [u64; 2], Vec<u8>) {
    let (mut out, mut report) = (vec![0xaa; room], [FULL; 2]);
    let number = raw::cut(
        service,
        256,
        0xffff,
        0x12,
        7,
        0,
        kind,
        0x1000,
        9,
        4,
        3,
        2,
        1,
        message,
        &mut out,
        &mut report,
    );
    (number, report, out)
}

#[test]
fn a_service_that_is_none() {
    for service in 2..=255 {
        let (mut words, mut regions) = ([FULL; raw::WORDS], [[FULL; 7]; 16]);
        let number = raw::set_up(
            &mut words,
            &mut regions,
            service,
            256,
            1,
            2,
            0xffff,
            0,
            0,
            true,
            true,
            true,
            true,
            64,
        );
        assert_eq!(number, 39);
        assert_eq!((words, regions), ([FULL; raw::WORDS], [[FULL; 7]; 16]));
        assert_eq!(cut(service, 0, b"abcd", 64), (39, [0; 2], vec![0xaa; 64]));
    }
}

#[test]
fn a_kind_that_is_none() {
    for kind in 7..=255 {
        assert_eq!(cut(0, kind, b"abcd", 64), (39, [0; 2], vec![0xaa; 64]));
    }
}

#[test]
fn bytes_beside_a_request_that_carries_none() {
    let long = vec![1; 1_048_577];
    for kind in 4..=6 {
        let alone = cut(0, kind, &[], 64);
        assert_eq!(alone.0, 0);
        assert_eq!(alone.1[1], 8);
        assert_eq!(cut(0, kind, b"abcd", 64), alone);
        assert_eq!(cut(0, kind, &long, 64), alone);
    }
    assert_eq!(cut(0, 0, &long, 64), (34, [0; 2], vec![0xaa; 64]));
}

#[test]
fn what_a_refusal_tells() {
    assert_eq!(cut(1, 4, &[], 64), (39, [0; 2], vec![0xaa; 64]));
    assert_eq!(cut(0, 4, &[], 27), (35, [0; 2], vec![0xaa; 27]));
    // A header of RC SEND Only; then with a pad of 4, a word where it has no field, and no room.
    let bth = [4, 0, 0, 0, 0, 0xffff, 0, 0x12, 1, 0, 7];
    let write = |bth: &[u64; 11], extension: &[u64; 10], room: usize| {
        let (mut out, mut report) = (vec![0xaa; room], [FULL]);
        let number = raw::write_header(bth, extension, &mut out, &mut report);
        (number, report, out)
    };
    let none = [0; 10];
    let good = write(&bth, &none, 12);
    assert_eq!((good.0, good.1), (0, [12]));
    for at in 0..11 {
        let mut wide = bth;
        wide[at] = 1 << 32;
        assert_eq!(
            write(&wide, &none, 12),
            (39, [0], vec![0xaa; 12]),
            "word {at} of the BTH"
        );
    }
    for at in 1..10 {
        let mut junk = none;
        junk[at] = 1;
        assert_eq!(
            write(&bth, &junk, 12),
            (39, [0], vec![0xaa; 12]),
            "word {at} after it"
        );
    }
    assert_eq!(write(&bth, &none, 11), (35, [0], vec![0xaa; 11]));
}

#[test]
fn what_reading_tells() {
    let read = |packet: &[u8]| {
        let (mut bth, mut extension, mut report) = ([FULL; 11], [FULL; 10], [FULL]);
        let number = raw::read_header(packet, &mut bth, &mut extension, &mut report);
        (number, report, bth, extension)
    };
    let dropped = |check| (5, [check], [FULL; 11], [FULL; 10]);
    // A header of RC SEND Only; then a byte short, of TVer 1, of another service, and without its RETH.
    let packet = [4, 0, 0xff, 0xff, 0, 0, 0, 0x12, 0x80, 0, 0, 7];
    let bth = [4, 0, 0, 0, 0, 0xffff, 0, 0x12, 1, 0, 7];
    assert_eq!(read(&packet), (0, [0], bth, [0; 10]));
    assert_eq!(read(&packet[..11]), dropped(1));
    for (at, byte, check) in [(1, 1, 2), (0, 0x44, 5), (0, 10, 8)] {
        let mut other = packet;
        other[at] = byte;
        assert_eq!(read(&other), dropped(check));
    }
}
