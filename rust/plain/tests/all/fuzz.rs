//! Random bytes and random call lists never panic and keep the rules that
//! hold of every answer.

use plain::*;

use crate::common::*;

#[test]
fn random_bytes() {
    let mut random = Random(77);
    let mut bench = Bench::rc();
    for _ in 0..30_000 {
        let length = random.below(80) as usize;
        let packet = random.bytes(length);
        if let Ok(header) = read_header(&packet) {
            let mut out = [0; 40];
            let written = write_header(&header, &mut out).unwrap();
            assert_eq!(out[..written], packet[..written]);
        }
        bench.give(&packet);
        bench.drain();
    }
}

fn number(random: &mut Random) -> u64 {
    match random.below(4) {
        0 => random.next(),
        1 => ADDRESS + random.below(2100),
        2 => u64::MAX - random.below(5000),
        _ => random.below(5000),
    }
}

fn packet(random: &mut Random, pair: &QueuePair, service: u8) -> Vec<u8> {
    let psn = match random.below(8) {
        0 => random.next() as u32,
        1 => pair.expected() + 1 + random.below(4) as u32,
        2 | 3 => pair.expected().wrapping_sub(1 + random.below(9) as u32),
        _ => pair.expected(),
    };
    let opcode = match (pair.open_message(), random.below(8)) {
        (_, 0) => random.below(64) as u8,
        (Some((kind, _)), 1..=5) => service << 5 | (kind + 1 + random.below(3) as u8),
        _ => service << 5 | random.pick(&[0, 0, 4, 5, 6, 6, 10, 11, 12, 19, 20]),
    };
    let size = random.pick(&[0usize, 0, 1, 4, 32, 255, 256, 256, 256, 256, 260]);
    let pad = if random.one_in(30) {
        random.below(4) as u8
    } else {
        size.wrapping_neg() as u8 & 3
    };
    let mut packet = vec![opcode, pad << 4, 0xFF, 0xFF, 0, 0, 0, 0x12];
    packet.extend(((psn & 0xFF_FFFF) | (random.below(2) as u32) << 31).to_be_bytes());
    let low = opcode & 31;
    if matches!(low, 6 | 10 | 11 | 12) {
        let length = match (random.below(20), low) {
            (0, _) => random.next() as u32,
            (1..=3, _) => random.below(2500) as u32,
            (_, 6) => 257 + random.below(700) as u32,
            (_, 12) => random.below(1500) as u32,
            _ => size as u32,
        };
        let address = if random.one_in(9) {
            number(random)
        } else {
            ADDRESS + random.below(900)
        };
        packet.extend(reth(
            address,
            random.pick(&[KEY, KEY, KEY, KEY, 1, 2]),
            length,
        ));
    }
    if matches!(low, 19 | 20) {
        let address = if random.one_in(9) {
            number(random)
        } else {
            ADDRESS + 8 * random.below(200)
        };
        packet.extend(address.to_be_bytes());
        packet.extend(random.pick(&[KEY, KEY, KEY, 1]).to_be_bytes());
        packet.extend(random.bytes(16));
    } else if matches!(low, 3 | 5 | 9 | 11) {
        packet.extend(random.bytes(4));
    }
    if !matches!(low, 12 | 19 | 20) || random.one_in(20) {
        packet.extend(random.bytes((size + 3) & !3));
    }
    if random.one_in(40) {
        let at = random.below(packet.len() as u64) as usize;
        packet[at] ^= 1 << random.below(8);
    }
    if random.one_in(60) {
        packet.truncate(random.below(packet.len() as u64 + 1) as usize);
    }
    packet
}

/// Every answer seen in the list of calls.
fn call_list(seed: u64, seen: &mut [u64; 40]) {
    let mut random = Random(seed.wrapping_mul(0x9E37_79B9_7F4A_7C15) | 1);
    let service = random.below(2) as u8;
    let start = random.pick(&[7, 0, 0xFF_FFFD]);
    let all = setup(service);
    let mut bench = Bench::ready(if random.one_in(6) {
        Setup {
            start,
            send: random.one_in(2),
            read: random.one_in(2),
            atomic: false,
            ..all
        }
    } else {
        Setup { start, ..all }
    });
    // Entries of one life, those completed and those still there.
    let (mut posted, mut completed) = (0u64, 0u64);
    for _ in 0..400 {
        let before = snapshot(&bench.pair);
        let number = match random.below(24) {
            0 => bench.pair.add_region(Region {
                key: random.pick(&[KEY, 1, 2, 3, 4, 5, 6, 7]) + 16 * random.below(3) as u32,
                address: number(&mut random),
                length: number(&mut random) % 3000,
                offset: number(&mut random) % 4000,
                write: random.one_in(2),
                read: random.one_in(2),
                atomic: random.one_in(2),
            }),
            1 if random.one_in(4) => bench.pair.remove_region(random.pick(&[KEY, 1, 2])),
            1 => bench.pair.add_region(region()),
            2..=5 => {
                let length = random.pick(&[0, 256, 700, 2000, 2000, 2000, 5000]);
                let offset = number(&mut random) % 3000;
                let answer = bench.pair.post_entry(Entry {
                    number: posted,
                    offset,
                    length,
                });
                posted += u64::from(answer == 0);
                answer
            }
            6 if bench.pair.state() != 1 || random.one_in(50) => {
                (posted, completed) = (0, 0);
                bench.pair.reset()
            }
            7 => bench.pair.make_ready(),
            8 | 9 => {
                let mut out = vec![0xA5; random.pick(&[271, 272, 300])];
                let lent = if random.one_in(9) {
                    &[][..]
                } else {
                    &bench.memory
                };
                let (number, sent) = bench.pair.next_response(lent, &mut out);
                assert!(out[sent..].iter().all(|byte| *byte == 0xA5));
                number
            }
            10 if random.one_in(5) => {
                bench
                    .pair
                    .inbound(
                        &mut [0; 9],
                        &[],
                        &mut [0; 25][random.below(2) as usize * 9..],
                    )
                    .number
            }
            _ => {
                if random.one_in(2) {
                    bench.drain();
                }
                let packet = packet(&mut random, &bench.pair, service);
                let got = bench.give(&packet);
                if let Some(completion) = got.completion {
                    assert_eq!(completion.entry, completed);
                    completed += 1;
                }
                let after = snapshot(&bench.pair);
                assert_eq!(
                    got.sent.is_empty(),
                    matches!(got.number, 0 | 2 | 5 | 6 | 32) || after.pending > 0
                );
                match got.number {
                    16 | 19 => assert!(after.marked),
                    17 | 18 => assert_eq!(after.state, 2),
                    0..=3 => assert!(!after.marked),
                    6 => assert_eq!((after.open, after.held), (None, false)),
                    _ => {}
                }
                got.number
            }
        };
        seen[usize::from(number)] += 1;
        let after = snapshot(&bench.pair);
        if number >= 32 {
            assert_eq!(before, after);
        }
        if service == UC {
            assert!(after.state != 2 && !after.marked && after.pending == 0);
        }
        assert!(after.waiting.iter().map(|row| row.0).eq(completed..posted));
    }
}

#[test]
fn random_call_lists() {
    let mut seen = [0; 40];
    for seed in 0..1500 {
        call_list(seed, &mut seen);
    }
    for number in [
        0, 1, 2, 3, 4, 5, 6, 16, 17, 18, 19, 32, 33, 34, 35, 36, 37, 38,
    ] {
        assert!(seen[number] > 0, "no answer {number}: {seen:?}");
    }
}

#[test]
fn random_cuts_and_headers() {
    let mut random = Random(5);
    let data = random.bytes(3000);
    for _ in 0..20_000 {
        let line = Connection {
            service: random.below(3) as u8,
            pmtu: random.pick(&[0, 1, 256, 512, 4096, usize::MAX]),
            pkey: random.next() as u16,
            dest: random.next() as u32 >> random.below(32),
        };
        let (address, key) = (random.next(), random.next() as u32);
        let request = match random.below(4) {
            0 => Request::Send(random.one_in(2).then_some(key)),
            1 => Request::Write {
                address,
                key,
                immediate: random.one_in(2).then_some(key),
            },
            2 => Request::Read {
                address,
                key,
                length: key >> random.below(32),
            },
            _ => Request::FetchAdd {
                address,
                key,
                add: address,
            },
        };
        let message = &data[..random.below(3001) as usize];
        let mut out = vec![0; random.below(600) as usize];
        let first = random.next() as u32 >> random.below(32);
        let index = random.pick(&[0, 0, 1, 2, 5, usize::MAX]);
        if let Ok((written, _)) = cut(line, request, message, first, index, &mut out) {
            let header = read_header(&out[..written]).unwrap();
            assert_eq!((header.dest, header.pkey), (line.dest, line.pkey));
        }
        let header = Header {
            opcode: random.next() as u8,
            se: true,
            migreq: false,
            pad: random.below(6) as u8,
            tver: random.below(2) as u8,
            pkey: 0,
            reserved8: 1,
            dest: line.dest,
            ackreq: false,
            reserved7: random.next() as u8,
            psn: first,
            extension: random.pick(&[Extension::None, Extension::Immediate(4)]),
        };
        if let Ok(written) = write_header(&header, &mut out) {
            assert_eq!(read_header(&out[..written]), Ok(header));
        }
    }
}
