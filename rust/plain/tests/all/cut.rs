use plain::*;

use crate::common::*;

const SEND: Request = Request::Send(None);
const READ: Request = Request::Read {
    address: ADDRESS,
    key: KEY,
    length: 1025,
};

fn opcodes(packets: &[Vec<u8>]) -> Vec<u8> {
    packets.iter().map(|packet| packet[0]).collect()
}

#[test]
fn w5_to_w9() {
    let empty = pieces(RC_LINE, SEND, &[], 0);
    assert_eq!(opcodes(&empty), [4]);
    assert_eq!(empty[0].len(), 12);

    let one = pieces(RC_LINE, SEND, &bytes(256), 0);
    assert_eq!(opcodes(&one), [4]);
    assert_eq!(one[0][1], 0);

    let two = pieces(RC_LINE, SEND, &bytes(257), 0);
    assert_eq!(opcodes(&two), [0, 2]);
    assert_eq!(two[1][1], 3 << 4);
    assert_eq!(two[1][12..], [bytes(257)[256], 0, 0, 0]);

    let (written, next) = cut(RC_LINE, READ, &[], 24, 0, &mut [0; 64]).unwrap();
    assert_eq!((written, next), (28, 29));

    let big = bytes(1_048_576);
    let mut out = [0; 4128];
    assert_eq!(cut(RC_LINE, SEND, &big, 0, 4095, &mut out), Ok((268, 4096)));
    assert_eq!(cut(RC_LINE, SEND, &big, 0, 4096, &mut out), Err(34));
}

#[test]
fn forms() {
    let write = |immediate| Request::Write {
        address: ADDRESS,
        key: KEY,
        immediate,
    };
    let message = bytes(600);
    let sent = pieces(UC_LINE, Request::Send(Some(9)), &message, 0xFF_FFFE);
    assert_eq!(opcodes(&sent), [0x20, 0x21, 0x23]);
    let psns: Vec<_> = sent.iter().map(|packet| packet[8..12].to_vec()).collect();
    assert_eq!(
        psns,
        [
            [0, 0xFF, 0xFF, 0xFE],
            [0, 0xFF, 0xFF, 0xFF],
            [0x80, 0, 0, 0]
        ]
    );
    assert_eq!(sent[2][12..16], [0, 0, 0, 9]);
    let back = [&sent[0][12..], &sent[1][12..], &sent[2][16..]].concat();
    assert_eq!(back, message);

    let written = pieces(RC_LINE, write(Some(9)), &message, 0);
    assert_eq!(opcodes(&written), [6, 7, 9]);
    assert_eq!(written[0][12..28], reth(ADDRESS, KEY, 600));
    assert_eq!(
        opcodes(&pieces(RC_LINE, write(None), &message, 0)),
        [6, 7, 8]
    );
    assert_eq!(opcodes(&pieces(RC_LINE, write(None), &[], 0)), [10]);
    let only = pieces(RC_LINE, write(Some(9)), b"abc", 0);
    assert_eq!(
        only[0],
        raw(
            11,
            1,
            true,
            0,
            &[&reth(ADDRESS, KEY, 3)[..], &[0, 0, 0, 9], b"abc\0"].concat()
        )
    );

    assert_eq!(
        pieces(RC_LINE, READ, b"ignored", 5),
        [raw(12, 0, true, 5, &reth(ADDRESS, KEY, 1025))]
    );
    let add = Request::FetchAdd {
        address: 8,
        key: 1,
        add: 2,
    };
    let rest = [
        &8u64.to_be_bytes()[..],
        &1u32.to_be_bytes(),
        &2u64.to_be_bytes(),
        &[0; 8],
    ]
    .concat();
    assert_eq!(pieces(RC_LINE, add, &[], 5), [raw(20, 0, true, 5, &rest)]);
    let swap = Request::CmpSwap {
        address: 8,
        key: 1,
        swap: 2,
        compare: 0,
    };
    assert_eq!(pieces(RC_LINE, swap, &[], 5), [raw(19, 0, true, 5, &rest)]);
    assert_eq!(
        cut(RC_LINE, swap, &[], 0xFF_FFFF, 0, &mut [0; 64]),
        Ok((40, 0))
    );
}

#[test]
fn refusals_in_order() {
    let long = vec![0; 1_048_577];
    let huge = Request::Read {
        address: 0,
        key: 0,
        length: 1_048_577,
    };
    let add = Request::FetchAdd {
        address: 0,
        key: 0,
        add: 0,
    };
    let bad_lines = [
        Connection {
            service: 2,
            ..RC_LINE
        },
        Connection { pmtu: 0, ..RC_LINE },
        Connection {
            pmtu: 128,
            ..RC_LINE
        },
        Connection {
            pmtu: 8192,
            ..RC_LINE
        },
        Connection {
            dest: 1 << 24,
            ..RC_LINE
        },
    ];
    for line in bad_lines {
        assert_eq!(cut(line, SEND, &long, 0, 0, &mut []), Err(39));
    }
    assert_eq!(cut(RC_LINE, SEND, &long, 1 << 24, 0, &mut []), Err(39));
    for request in [huge, add, READ] {
        assert_eq!(cut(UC_LINE, request, &[], 0, 1, &mut []), Err(39));
    }
    assert_eq!(cut(RC_LINE, SEND, &long, 0, 0, &mut []), Err(34));
    assert_eq!(cut(RC_LINE, huge, &[], 0, 0, &mut []), Err(34));
    assert_eq!(cut(RC_LINE, SEND, &[], 0, 1, &mut []), Err(34));
    assert_eq!(cut(RC_LINE, SEND, &[], 0, usize::MAX, &mut []), Err(34));
    assert_eq!(cut(RC_LINE, READ, &[], 0, 1, &mut []), Err(34));
    let mut out = [0xA5; 15];
    assert_eq!(cut(RC_LINE, SEND, b"abc", 0, 0, &mut out), Err(35));
    assert_eq!(out, [0xA5; 15]);
    let mut out = [0xA5; 17];
    assert_eq!(cut(RC_LINE, SEND, b"abc", 7, 0, &mut out), Ok((16, 8)));
    assert_eq!(out[12..], [b'a', b'b', b'c', 0, 0xA5]);
    // The P_Key is not tested.
    assert!(cut(
        Connection { pkey: 0, ..RC_LINE },
        SEND,
        &[],
        0,
        0,
        &mut [0; 12]
    )
    .is_ok());
}
