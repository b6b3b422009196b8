//! Headers read and written, for each kind of header that may follow a BTH.
use udalopek::{read_header, write_header, Extension, Header, Refusal};

fn header(opcode: u8, extension: Extension) -> Header {
    Header {
        opcode,
        se: true,
        migreq: false,
        pad: 3,
        tver: 0,
        pkey: 0x8001,
        reserved8: 0xa5,
        dest: 0xfedcba,
        ackreq: true,
        reserved7: 0x55,
        psn: 0x123456,
        extension,
    }
}

const ADDRESS: u64 = 0x0123_4567_89ab_cdef;
const KEY: u32 = 0x1122_3344;

/// An opcode, the headers that it has, and their bytes on the wire.
fn kinds() -> Vec<(u8, Extension, Vec<u8>)> {
    let reth = [
        &ADDRESS.to_be_bytes()[..],
        &KEY.to_be_bytes(),
        &7u32.to_be_bytes(),
    ]
    .concat();
    let atomic = [
        &ADDRESS.to_be_bytes()[..],
        &KEY.to_be_bytes(),
        &8u64.to_be_bytes(),
        &9u64.to_be_bytes(),
    ]
    .concat();
    let aeth = vec![0x1f, 0xab, 0xcd, 0xef];
    let immediate = vec![0xde, 0xad, 0xbe, 0xef];
    let value = 0xfeed_u64.to_be_bytes().to_vec();
    vec![
        (0x04, Extension::None, vec![]),
        (0x1f, Extension::None, vec![]),
        (
            0x26,
            Extension::Reth {
                address: ADDRESS,
                key: KEY,
                length: 7,
            },
            reth.clone(),
        ),
        (
            0x0b,
            Extension::RethImmediate {
                address: ADDRESS,
                key: KEY,
                length: 7,
                immediate: 0xdeadbeef,
            },
            [reth, immediate.clone()].concat(),
        ),
        (0x25, Extension::Immediate(0xdeadbeef), immediate),
        (
            0x13,
            Extension::Atomic {
                address: ADDRESS,
                key: KEY,
                swap: 8,
                compare: 9,
            },
            atomic,
        ),
        (
            0x11,
            Extension::Aeth {
                syndrome: 0x1f,
                msn: 0xabcdef,
            },
            aeth.clone(),
        ),
        (
            0x12,
            Extension::AethValue {
                syndrome: 0x1f,
                msn: 0xabcdef,
                value: 0xfeed,
            },
            [aeth, value].concat(),
        ),
    ]
}

#[test]
fn headers_are_written_and_read_back() {
    for (opcode, extension, follows) in kinds() {
        let header = header(opcode, extension);
        let bth = [
            opcode, 0xb0, 0x80, 0x01, 0xa5, 0xfe, 0xdc, 0xba, 0xd5, 0x12, 0x34, 0x56,
        ];
        let wire = [&bth[..], &follows].concat();
        let mut out = [0xee; 44];
        assert_eq!(write_header(&header, &mut out), Ok(wire.len()));
        assert_eq!(out[..wire.len()], wire);
        assert!(out[wire.len()..].iter().all(|&byte| byte == 0xee));
        assert_eq!(read_header(&wire), Ok(header));
        // With a payload behind it, it reads the same; a word less, and it is too short.
        assert_eq!(read_header(&out), Ok(header));
        let short = read_header(&wire[..wire.len() - 4]);
        let check = if follows.is_empty() { 1 } else { 8 };
        assert_eq!(short, Err(check));

        let mut out = vec![0xee; wire.len() - 1];
        let refused = write_header(&header, &mut out);
        assert_eq!(refused, Err(Refusal::OutputShort));
        assert!(out.iter().all(|&byte| byte == 0xee));
    }
}

#[test]
fn reading_names_the_check_that_failed() {
    let mut packet = vec![0; 12];
    assert!(read_header(&packet).is_ok());
    assert_eq!(read_header(&[]), Err(1));
    assert_eq!(read_header(&packet[..11]), Err(1));
    assert_eq!(read_header(&[0; 13]), Err(1));
    assert!(read_header(&[0; 4128]).is_ok());
    assert_eq!(read_header(&[0; 4132]), Err(1));
    packet[0] = 0x40;
    assert_eq!(read_header(&packet), Err(5));
    packet[1] = 1;
    assert_eq!(read_header(&packet), Err(2));
}

#[test]
fn writing_refuses_what_no_header_is() {
    let send = header(0x04, Extension::None);
    let immediate = Extension::Immediate(1);
    let long = Extension::Aeth {
        syndrome: 0,
        msn: 1 << 24,
    };
    let bad = [
        Header { pad: 4, ..send },
        Header { tver: 1, ..send },
        Header {
            dest: 1 << 24,
            ..send
        },
        Header {
            reserved7: 128,
            ..send
        },
        Header {
            psn: 1 << 24,
            ..send
        },
        Header {
            opcode: 0x44,
            ..send
        },
        Header {
            extension: immediate,
            ..send
        },
        header(0x05, Extension::None),
        header(0x11, long),
    ];
    for header in bad {
        // 39 comes before 35.
        let refused = write_header(&header, &mut []);
        assert_eq!(refused, Err(Refusal::BadNumber), "{header:?}");
    }
}
