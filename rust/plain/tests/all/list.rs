//! What the packet lister prints.

use plain::list::list;

use crate::common::*;

const LENGTH: &str = "1: length, not 12 to 4,128 bytes or no multiple of 4";
const VERSION: &str = "2: transport version, not 0";
const SERVICE: &str = "5: service, neither RC nor UC";
const SHORT: &str = "8: too short for its headers";

fn listed(input: &[u8]) -> String {
    let mut output = Vec::new();
    list(input, &mut output).unwrap();
    String::from_utf8(output).unwrap()
}

fn record(packet: &[u8]) -> Vec<u8> {
    let length = u16::try_from(packet.len()).unwrap();
    [&length.to_be_bytes(), packet].concat()
}

/// The listing of one packet, without the lines of its number and the end.
fn packet_listed(packet: &[u8]) -> String {
    let all = listed(&record(packet));
    let all = all.strip_prefix("packet 1, ").unwrap();
    let (_, body) = all.split_once('\n').unwrap();
    body.strip_suffix("end 1\n").unwrap().to_string()
}

fn dropped(check: &str) -> String {
    format!("  dropped       check {check}\n")
}

/// The headers after the BTH, by the table of the rules, with their bytes.
fn headers_of(opcode: u8) -> Vec<(&'static str, usize)> {
    let (service, low) = (opcode >> 5, opcode & 31);
    let mut headers = Vec::new();
    if matches!(low, 6 | 10 | 11) || (service, low) == (0, 12) {
        headers.push(("RETH", 16));
    }
    if service == 0 && matches!(low, 19 | 20) {
        headers.push(("AtomicETH", 28));
    }
    if service == 0 && matches!(low, 13 | 15 | 16 | 17 | 18) {
        headers.push(("AETH", 4));
    }
    if (service, low) == (0, 18) {
        headers.push(("AtomicAckETH", 8));
    }
    if matches!(low, 3 | 5 | 9 | 11) {
        headers.push(("Immediate", 4));
    }
    headers
}

fn length_of(opcode: u8) -> usize {
    let bytes = headers_of(opcode).into_iter().map(|(_, bytes)| bytes);
    12 + bytes.sum::<usize>()
}

fn name_of(opcode: u8) -> String {
    let parts = [
        "First",
        "Middle",
        "Last",
        "Last with Immediate",
        "Only",
        "Only with Immediate",
    ];
    let low = usize::from(opcode & 31);
    let of_rc = match low {
        12 => "RDMA READ request",
        13 => "RDMA READ response First",
        14 => "RDMA READ response Middle",
        15 => "RDMA READ response Last",
        16 => "RDMA READ response Only",
        17 => "Acknowledge",
        18 => "Atomic Acknowledge",
        19 => "CmpSwap",
        20 => "FetchAdd",
        _ => "reserved",
    };
    match (opcode >> 5, low) {
        (0, 0..=5) => format!("RC SEND {}", parts[low]),
        (0, 6..=11) => format!("RC RDMA WRITE {}", parts[low - 6]),
        (0, _) => format!("RC {of_rc}"),
        (_, 0..=5) => format!("UC SEND {}", parts[low]),
        (_, 6..=11) => format!("UC RDMA WRITE {}", parts[low - 6]),
        _ => "UC reserved".to_string(),
    }
}

const W12: [u8; 16] = [
    4, 0x10, 0xFF, 0xFF, 0, 0, 0, 0x12, 0x80, 0, 0, 7, 0x61, 0x62, 0x63, 0,
];

#[test]
fn w12_to_the_letter() {
    let one = format!("packet 1, 16 bytes\n{W12_LISTED}");
    assert_eq!(listed(&record(&W12)), format!("{one}end 1\n"));
    let two = format!("packet 2, 16 bytes\n{W12_LISTED}");
    assert_eq!(
        listed(&[record(&W12), record(&W12)].concat()),
        format!("{one}{two}end 2\n")
    );
}

/// A BTH whose fields differ, so that they cannot be mixed up (W12 tells MigReq
/// from AckReq), then the bytes from 1 up.
fn numbered(opcode: u8, length: usize) -> Vec<u8> {
    let mut packet = vec![
        opcode, 0xA0, 0x9B, 0xCD, 0x5A, 0xFE, 0xDC, 0xBA, 0x3C, 0x98, 0x76, 0x54,
    ];
    packet.extend((1..).take(length - 12));
    packet
}

fn numbered_listed(opcode: &str, rest: &str) -> String {
    format!(
        "  BTH
    opcode      {opcode}
    SE          1
    MigReq      0
    PadCnt      2
    TVer        0
    P_Key       0x9bcd
    reserved 8  0x5a
    DestQP      0xfedcba
    AckReq      0
    reserved 7  0x3c
    PSN         9991764
{rest}  written back  same\n"
    )
}

#[test]
fn each_kind_of_header() {
    let cases = [
        (
            (0x21, 16),
            "0x21  UC SEND Middle",
            "  payload       4 bytes, of which 2 pad\n",
        ),
        (
            (0x2A, 32),
            "0x2a  UC RDMA WRITE Only",
            "  RETH
    address     0x0102030405060708
    R_Key       0x090a0b0c
    DMA length  219025168
  payload       4 bytes, of which 2 pad\n",
        ),
        (
            (0x0B, 40),
            "0x0b  RC RDMA WRITE Only with Immediate",
            "  RETH
    address     0x0102030405060708
    R_Key       0x090a0b0c
    DMA length  219025168
  Immediate
    data        0x11121314
  payload       8 bytes, of which 2 pad\n",
        ),
        (
            (0x25, 20),
            "0x25  UC SEND Only with Immediate",
            "  Immediate
    data        0x01020304
  payload       4 bytes, of which 2 pad\n",
        ),
        (
            (0x13, 44),
            "0x13  RC CmpSwap",
            "  AtomicETH
    address     0x0102030405060708
    R_Key       0x090a0b0c
    swap/add    0x0d0e0f1011121314
    compare     0x15161718191a1b1c
  payload       4 bytes, of which 2 pad\n",
        ),
        (
            (0x10, 24),
            "0x10  RC RDMA READ response Only",
            "  AETH
    syndrome    0x01
    MSN         131844
  payload       8 bytes, of which 2 pad\n",
        ),
        (
            (0x12, 28),
            "0x12  RC Atomic Acknowledge",
            "  AETH
    syndrome    0x01
    MSN         131844
  AtomicAckETH
    original    0x05060708090a0b0c
  payload       4 bytes, of which 2 pad\n",
        ),
        // Reserved, on UC what RC alone has too: all after the BTH is payload.
        (
            (0x1F, 20),
            "0x1f  RC reserved",
            "  payload       8 bytes, of which 2 pad\n",
        ),
        (
            (0x32, 28),
            "0x32  UC reserved",
            "  payload       16 bytes, of which 2 pad\n",
        ),
    ];
    for ((opcode, length), name, rest) in cases {
        assert_eq!(
            packet_listed(&numbered(opcode, length)),
            numbered_listed(name, rest)
        );
    }
}

#[test]
fn fields_at_their_ends() {
    let ones = [&[0x14, 0xF0][..], &[0xFF; 38]].concat();
    let wanted = "  BTH
    opcode      0x14  RC FetchAdd
    SE          1
    MigReq      1
    PadCnt      3
    TVer        0
    P_Key       0xffff
    reserved 8  0xff
    DestQP      0xffffff
    AckReq      1
    reserved 7  0x7f
    PSN         16777215
  AtomicETH
    address     0xffffffffffffffff
    R_Key       0xffffffff
    swap/add    0xffffffffffffffff
    compare     0xffffffffffffffff
  payload       0 bytes, fewer than PadCnt 3
  written back  same\n";
    assert_eq!(packet_listed(&ones), wanted);
    let zeros = [&[0x12][..], &[0; 23]].concat();
    let wanted = "  BTH
    opcode      0x12  RC Atomic Acknowledge
    SE          0
    MigReq      0
    PadCnt      0
    TVer        0
    P_Key       0x0000
    reserved 8  0x00
    DestQP      0x000000
    AckReq      0
    reserved 7  0x00
    PSN         0
  AETH
    syndrome    0x00
    MSN         0
  AtomicAckETH
    original    0x0000000000000000
  payload       0 bytes, of which 0 pad
  written back  same\n";
    assert_eq!(packet_listed(&zeros), wanted);
    let read = packet_listed(&[&[0x0C][..], &[0; 11], &[0xFF; 16]].concat());
    assert!(read.contains("\n    DMA length  4294967295\n"));
    let answer = packet_listed(&[&[0x11][..], &[0; 11], &[0xFF; 4]].concat());
    assert!(answer.contains("\n    syndrome    0xff\n    MSN         16777215\n"));
}

#[test]
fn each_check_of_reading_alone() {
    let packet = |opcode, flags, length| {
        let mut packet = vec![0; length];
        packet[0] = opcode;
        packet[1] = flags;
        packet
    };
    assert_eq!(packet_listed(&[]), dropped(LENGTH));
    for length in [2, 8, 11, 13, 14, 15, 4127, 4129, 4132, 65532, 65535] {
        assert_eq!(packet_listed(&packet(0, 0, length)), dropped(LENGTH));
    }
    for version in 1..16 {
        assert_eq!(packet_listed(&packet(0, version, 12)), dropped(VERSION));
    }
    assert_eq!(packet_listed(&packet(0x40, 0, 12)), dropped(SERVICE));
    assert_eq!(packet_listed(&packet(0xFF, 0, 4128)), dropped(SERVICE));
    for opcode in 0..64 {
        let whole = packet(opcode, 0, length_of(opcode));
        assert!(packet_listed(&whole).ends_with("  written back  same\n"));
        for length in (12..whole.len()).step_by(4) {
            assert_eq!(packet_listed(&whole[..length]), dropped(SHORT));
        }
    }
    assert!(packet_listed(&packet(0, 0, 4128)).contains("\n  payload       4116 bytes, of which"));
}

#[test]
fn the_first_check_counts() {
    // Version and service are bad in all of these.
    assert_eq!(packet_listed(&[0xFF; 8]), dropped(LENGTH));
    assert_eq!(packet_listed(&[0xFF; 13]), dropped(LENGTH));
    assert_eq!(packet_listed(&[0xFF; 4132]), dropped(LENGTH));
    assert_eq!(packet_listed(&[0xFF; 12]), dropped(VERSION));
    assert_eq!(packet_listed(&[0xFF; 4128]), dropped(VERSION));
    let mut packet = [0; 12];
    // Too short for its headers too.
    packet[..2].copy_from_slice(&[0x06, 0x01]);
    assert_eq!(packet_listed(&packet), dropped(VERSION));
    // Bits 4 to 0 of a WRITE First, on a service that has none.
    packet[..2].copy_from_slice(&[0x46, 0xF0]);
    assert_eq!(packet_listed(&packet), dropped(SERVICE));
    packet[..2].copy_from_slice(&[0x06, 0xF0]);
    assert_eq!(packet_listed(&packet), dropped(SHORT));
}

#[test]
fn one_byte_and_other_lengths() {
    let input = [&[0, 1, 4][..], &[0, 0], &[0, 2, 4, 4], &record(&W12)].concat();
    let drop = dropped(LENGTH);
    let wanted = format!(
        "packet 1, 1 byte\n{drop}packet 2, 0 bytes\n{drop}packet 3, 2 bytes\n{drop}\
         packet 4, 16 bytes\n{W12_LISTED}end 4\n"
    );
    assert_eq!(listed(&input), wanted);
}

#[test]
fn pad_and_payload() {
    let payload = |pad, rest: &[u8]| {
        let listing = packet_listed(&raw(4, pad, false, 7, rest));
        let line = listing.lines().nth_back(1).unwrap();
        assert_eq!(listing.lines().last(), Some("  written back  same"));
        line.strip_prefix("  payload       ").unwrap().to_string()
    };
    assert_eq!(payload(0, &[]), "0 bytes, of which 0 pad");
    for pad in 1..4 {
        let fewer = format!("0 bytes, fewer than PadCnt {pad}");
        assert_eq!(payload(pad, &[]), fewer);
        // The pad's own bytes are among those counted, and need not be 0.
        let all = format!("4 bytes, of which {pad} pad");
        assert_eq!(payload(pad, &[1; 4]), all);
    }
    assert_eq!(payload(3, &[0; 4096]), "4096 bytes, of which 3 pad");
}

#[test]
fn cut_records() {
    assert_eq!(listed(&[]), "end 0\n");
    assert_eq!(listed(&[0]), "cut\nend 0\n");
    assert_eq!(listed(&[0, 1]), "cut\nend 0\n");
    assert_eq!(listed(&[0xFF; 2]), "cut\nend 0\n");
    let whole = record(&W12);
    let one = format!("packet 1, 16 bytes\n{W12_LISTED}");
    for left in 1..whole.len() {
        let broken = &whole[..left];
        assert_eq!(listed(broken), "cut\nend 0\n");
        let after = [&whole[..], broken].concat();
        assert_eq!(listed(&after), format!("{one}cut\nend 1\n"));
    }
    // A length beyond the input takes in all that would have been a record.
    let swallowed = [&[0xFF, 0xFF][..], &whole, &whole].concat();
    assert_eq!(listed(&swallowed), "cut\nend 0\n");
    // A packet that is dropped is a whole record all the same.
    let after = [&[0, 0][..], &whole, &[0]].concat();
    let drop = dropped(LENGTH);
    assert_eq!(
        listed(&after),
        format!("packet 1, 0 bytes\n{drop}packet 2, 16 bytes\n{W12_LISTED}cut\nend 2\n")
    );
}

#[test]
fn every_opcode() {
    for opcode in 0..=255 {
        let listing = packet_listed(&raw(opcode, 0, true, 7, &[0; 28]));
        if opcode >= 64 {
            assert_eq!(listing, dropped(SERVICE));
            continue;
        }
        let line = format!("    opcode      0x{opcode:02x}  {}", name_of(opcode));
        assert_eq!(listing.lines().nth(1), Some(&line[..]));
        let payload = 40 - length_of(opcode);
        let payload = format!("  payload       {payload} bytes, of which 0 pad");
        let mut wanted = vec!["  BTH".to_string()];
        wanted.extend(
            headers_of(opcode)
                .iter()
                .map(|(name, _)| format!("  {name}")),
        );
        wanted.extend([payload, "  written back  same".to_string()]);
        let lines = listing.lines().filter(|line| !line.starts_with("    "));
        assert_eq!(lines.collect::<Vec<_>>(), wanted);
    }
}

/// The bits of a field on the wire.
fn width(name: &str) -> u32 {
    match name {
        "SE" | "MigReq" | "AckReq" => 1,
        "PadCnt" => 2,
        "TVer" => 4,
        "reserved 7" => 7,
        "opcode" | "reserved 8" | "syndrome" => 8,
        "P_Key" => 16,
        "DestQP" | "PSN" | "MSN" => 24,
        "R_Key" | "DMA length" | "data" => 32,
        "address" | "swap/add" | "compare" | "original" => 64,
        _ => panic!("no field {name}"),
    }
}

/// The bytes that the fields of a listing are on the wire.
fn packed(listing: &str) -> Vec<u8> {
    let mut bits = Vec::new();
    for line in listing.lines().filter(|line| line.starts_with("    ")) {
        let (name, value) = line.split_at(16);
        let value = value.split(' ').next().unwrap();
        let width = width(name.trim());
        let number = match value.strip_prefix("0x") {
            Some(digits) => {
                assert_eq!(digits.len(), width.div_ceil(4) as usize);
                u64::from_str_radix(digits, 16)
            }
            None => value.parse(),
        };
        let number = number.unwrap();
        bits.extend((0..width).rev().map(|bit| (number >> bit & 1) as u8));
    }
    let byte = |bits: &[u8]| bits.iter().fold(0, |byte, bit| byte << 1 | bit);
    bits.chunks(8).map(byte).collect()
}

/// Every bit of the headers is somewhere in the listing, in wire order.
#[test]
fn the_fields_are_the_header() {
    let mut random = Random(4);
    for opcode in 0..64 {
        let headers = length_of(opcode);
        for _ in 0..50 {
            let length = headers + 4 * random.below(4) as usize;
            let mut packet = random.bytes(length);
            packet[0] = opcode;
            packet[1] &= 0xF0;
            assert_eq!(packed(&packet_listed(&packet)), packet[..headers]);
        }
    }
}

#[test]
fn random_input() {
    let mut random = Random(12);
    for _ in 0..3_000 {
        // Lengths that fit, so that many records come out whole, or any bytes.
        let mut input = Vec::new();
        let (records, any) = (random.below(6), random.below(200) as usize);
        for _ in 0..records {
            let length = random.below(80) as usize;
            let mut packet = random.bytes(length);
            if length > 1 && !random.one_in(4) {
                packet[0] &= 0x3F;
                packet[1] &= 0xF0;
            }
            input.extend(record(&packet));
        }
        input.extend(random.bytes(any));
        let listing = listed(&input);
        let count = |start: &str| {
            listing
                .lines()
                .filter(|line| line.starts_with(start))
                .count()
        };
        let whole = count("packet ");
        assert!(whole >= records as usize);
        assert!(listing.ends_with(&format!("end {whole}\n")));
        // Each whole record is either dropped or written back as it was.
        let (dropped, same) = (
            count("  dropped       check "),
            count("  written back  same"),
        );
        assert_eq!(dropped + same, whole);
        assert!(count("cut") <= 1);
    }
}
