use plain::*;

use crate::common::*;

fn plain_header(opcode: u8, extension: Extension) -> Header {
    Header {
        opcode,
        se: true,
        migreq: false,
        pad: 2,
        tver: 0,
        pkey: 0x8123,
        reserved8: 0x5A,
        dest: 0xABCDEF,
        ackreq: true,
        reserved7: 0x33,
        psn: 0x123456,
        extension,
    }
}

fn extension_of(opcode: u8) -> Extension {
    let reth = Extension::Reth {
        address: 1 << 40,
        key: 9,
        length: 77,
    };
    match (opcode >> 5, opcode & 31) {
        (_, 3 | 5 | 9) => Extension::Immediate(0xDEADBEEF),
        (_, 6 | 10) | (0, 12) => reth,
        (_, 11) => Extension::RethImmediate {
            address: 1 << 40,
            key: 9,
            length: 77,
            immediate: 5,
        },
        (0, 13 | 15 | 16 | 17) => Extension::Aeth {
            syndrome: 0x62,
            msn: 0xFFFFFF,
        },
        (0, 18) => Extension::AethValue {
            syndrome: 0x1F,
            msn: 3,
            value: u64::MAX - 1,
        },
        (0, 19 | 20) => Extension::Atomic {
            address: 8,
            key: 1,
            swap: 2,
            compare: 3,
        },
        _ => Extension::None,
    }
}

fn length_of(opcode: u8) -> usize {
    12 + match extension_of(opcode) {
        Extension::None => 0,
        Extension::Reth { .. } => 16,
        Extension::RethImmediate { .. } => 20,
        Extension::Immediate(_) | Extension::Aeth { .. } => 4,
        Extension::Atomic { .. } => 28,
        Extension::AethValue { .. } => 12,
    }
}

#[test]
fn round_trips() {
    for opcode in 0..64 {
        let header = plain_header(opcode, extension_of(opcode));
        let mut out = [0xA5; 50];
        let written = write_header(&header, &mut out).unwrap();
        assert_eq!(written, length_of(opcode));
        assert!(out[written..].iter().all(|byte| *byte == 0xA5));
        assert_eq!(read_header(&out[..written]), Ok(header));
        // Any bytes that read are written back as they were.
        let mut random = Random(u64::from(opcode) + 1);
        for _ in 0..100 {
            let mut packet = random.bytes(64);
            packet[0] = opcode;
            packet[1] &= 0xF0;
            let header = read_header(&packet).unwrap();
            let written = write_header(&header, &mut out).unwrap();
            assert_eq!(out[..written], packet[..written]);
        }
    }
}

#[test]
fn a_known_header() {
    let packet = [
        0x2B, 0xD0, 0x80, 0x01, 0x11, 0x22, 0x33, 0x44, 0xFE, 0x65, 0x43, 0x21, 0, 0, 0, 0, 0, 1,
        0, 2, 0, 0, 0, 3, 0, 0, 0, 4, 0, 0, 0, 5,
    ];
    let header = Header {
        opcode: 0x2B,
        se: true,
        migreq: true,
        pad: 1,
        tver: 0,
        pkey: 0x8001,
        reserved8: 0x11,
        dest: 0x223344,
        ackreq: true,
        reserved7: 0x7E,
        psn: 0x654321,
        extension: Extension::RethImmediate {
            address: 0x10002,
            key: 3,
            length: 4,
            immediate: 5,
        },
    };
    assert_eq!(read_header(&packet), Ok(header));
}

#[test]
fn reading_refuses_in_order() {
    assert_eq!(read_header(&[]), Err(1));
    assert_eq!(read_header(&[0xFF; 8]), Err(1));
    assert_eq!(read_header(&[0xFF; 13]), Err(1));
    assert_eq!(read_header(&[0; 4132]), Err(1));
    assert!(read_header(&[0; 4128]).is_ok());
    assert!(read_header(&[0; 12]).is_ok());
    // TVer before service before too short.
    assert_eq!(read_header(&[0xFF; 12]), Err(2));
    let mut packet = [0; 12];
    packet[0] = 0x46;
    assert_eq!(read_header(&packet), Err(5));
    packet[0] = 0x06;
    assert_eq!(read_header(&packet), Err(8));
    for opcode in 0..64 {
        let mut packet = vec![0; length_of(opcode)];
        packet[0] = opcode;
        assert!(read_header(&packet).is_ok());
        if packet.len() > 12 {
            assert_eq!(read_header(&packet[..packet.len() - 4]), Err(8));
        }
    }
}

#[test]
fn writing_refuses_in_order() {
    let good = plain_header(0x12, extension_of(0x12));
    let aeth = |msn| Extension::AethValue {
        syndrome: 0,
        msn,
        value: 0,
    };
    let bad = [
        Header { pad: 4, ..good },
        Header { tver: 1, ..good },
        Header {
            dest: 1 << 24,
            ..good
        },
        Header {
            reserved7: 128,
            ..good
        },
        Header {
            psn: 1 << 24,
            ..good
        },
        Header {
            opcode: 0x52,
            ..good
        },
        Header {
            opcode: 0x32,
            ..good
        },
        Header {
            opcode: 0x11,
            ..good
        },
        Header {
            extension: Extension::None,
            ..good
        },
        Header {
            extension: aeth(1 << 24),
            ..good
        },
        plain_header(0x40, Extension::None),
        plain_header(0x00, Extension::Immediate(0)),
        plain_header(0x2C, extension_of(0x0C)),
        plain_header(
            0x11,
            Extension::Aeth {
                syndrome: 0,
                msn: 1 << 24,
            },
        ),
    ];
    for header in bad {
        assert_eq!(write_header(&header, &mut []), Err(39));
        assert_eq!(write_header(&header, &mut [0; 64]), Err(39));
    }
    let mut out = [0xA5; 23];
    assert_eq!(write_header(&good, &mut out), Err(35));
    assert_eq!(out, [0xA5; 23]);
    assert_eq!(write_header(&good, &mut [0; 24]), Ok(24));
}
