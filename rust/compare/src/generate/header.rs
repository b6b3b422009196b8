//! Headers as values, and cuts, with all that can be wrong with them.

use std::rc::Rc;

use crate::call::{Call, Cut};
use crate::generate::world::NUMBERS;
use crate::random::Random;
use crate::subject::*;

/// A header to write: half of them good, the others with fields over their
/// width or with headers that are not those of the opcode.
pub fn write(random: &mut Random) -> Call {
    let good = random.chance(50);
    let mut header = good_header(random);
    if !good {
        let wide = |random: &mut Random| random.pick(&[NUMBERS, NUMBERS + 7, u32::MAX]);
        for _ in 0..random.pick(&[1, 1, 2]) {
            match random.below(8) {
                0 => header.pad = random.between(4, 255) as u8,
                1 => header.tver = random.pick(&[1, 15, 16, 255]),
                2 => header.dest = wide(random),
                3 => header.reserved7 = random.between(128, 255) as u8,
                4 => header.psn = wide(random),
                5 => header.opcode = random.number() as u8,
                6 => header.extension = extension(random, random_form),
                _ => header.extension = wide_extension(random, header.extension),
            }
        }
    }
    let out = match random.below(4) {
        0 => random.below(44),
        1 => random.pick(&[11, 12, 15, 16, 23, 24, 27, 28, 31, 32, 39, 40]),
        _ => 48,
    };
    Call::WriteHeader { header, out }
}

fn good_header(random: &mut Random) -> Header {
    let service = if random.chance(60) { RC } else { UC };
    let low = random.below(32) as u8;
    let form = if service == UC && low > 11 {
        0
    } else {
        form(low)
    };
    Header {
        opcode: service << 5 | low,
        se: random.chance(50),
        migreq: random.chance(50),
        pad: random.below(4) as u8,
        tver: 0,
        pkey: random.number() as u16,
        reserved8: random.number() as u8,
        dest: random.number() as u32 % NUMBERS,
        ackreq: random.chance(50),
        reserved7: random.below(128) as u8,
        psn: random.number() as u32 % NUMBERS,
        extension: extension(random, |_| form),
    }
}

/// Which headers an opcode's bits 4 to 0 have after the BTH, as `extension`
/// numbers them.
fn form(low: u8) -> usize {
    match low {
        6 | 10 | 12 => 1,
        11 => 2,
        3 | 5 | 9 => 3,
        19 | 20 => 4,
        13 | 15 | 16 | 17 => 5,
        18 => 6,
        _ => 0,
    }
}

fn random_form(random: &mut Random) -> usize {
    random.below(7)
}

fn extension(random: &mut Random, form: impl Fn(&mut Random) -> usize) -> Extension {
    let (address, key) = (random.number(), random.number() as u32);
    let (length, immediate) = (random.number() as u32, random.number() as u32);
    let (syndrome, msn) = (random.number() as u8, random.number() as u32 % NUMBERS);
    match form(random) {
        0 => Extension::None,
        1 => Extension::Reth {
            address,
            key,
            length,
        },
        2 => Extension::RethImmediate {
            address,
            key,
            length,
            immediate,
        },
        3 => Extension::Immediate(immediate),
        4 => Extension::Atomic {
            address,
            key,
            swap: random.number(),
            compare: random.number(),
        },
        5 => Extension::Aeth { syndrome, msn },
        _ => Extension::AethValue {
            syndrome,
            msn,
            value: random.number(),
        },
    }
}

/// Only an MSN can be too wide for its field.
fn wide_extension(random: &mut Random, from: Extension) -> Extension {
    let msn = random.pick(&[NUMBERS, u32::MAX]);
    match from {
        Extension::AethValue {
            syndrome, value, ..
        } => Extension::AethValue {
            syndrome,
            msn,
            value,
        },
        _ => Extension::Aeth {
            syndrome: 0x1F,
            msn,
        },
    }
}

/// A cut of any message, often one to be refused. `largest` bounds the
/// messages, but for one that is over the limit.
pub fn cut(random: &mut Random, largest: usize) -> Call {
    let mut connection = Connection {
        service: if random.chance(70) { RC } else { UC },
        pmtu: random.pick(&PMTUS),
        pkey: random.number() as u16,
        dest: random.number() as u32 % NUMBERS,
    };
    let mut first = random.near(0, 3) as u32 % NUMBERS;
    let pmtu = connection.pmtu;
    let length = match random.below(12) {
        0 | 1 => random.below(6),
        2 if random.chance(10) => LIMIT + 1,
        3 if random.chance(10) => LIMIT,
        4 => pmtu,
        5 => random.near(pmtu as u64, 4) as usize,
        6 => random.near(3 * pmtu as u64, 4) as usize,
        _ => random.below(4 * pmtu),
    };
    let length = if length < LIMIT || largest >= LIMIT {
        length
    } else {
        largest
    };
    let count = length.div_ceil(pmtu).max(1);
    let index = match random.below(6) {
        0 => count,
        1 => random.near(count as u64, 1) as usize,
        2 if random.chance(20) => usize::MAX,
        _ => random.below(count),
    };
    if random.chance(15) {
        match random.below(3) {
            0 => connection.pmtu = random.pick(&[0, 1, 255, 300, 8_192, usize::MAX]),
            1 => connection.dest = random.pick(&[NUMBERS, u32::MAX]),
            _ => first = random.pick(&[NUMBERS, u32::MAX]),
        }
    }
    let request = request(random);
    // A message beside a READ or an atomic is not looked at.
    let carries = matches!(request, Request::Send(_) | Request::Write { .. });
    let message = if carries {
        random.bytes(length)
    } else {
        Vec::new()
    };
    let index = if carries || random.chance(20) {
        index
    } else {
        0
    };
    let out = match random.below(6) {
        0 => random.below(64),
        1 => (pmtu + random.below(40)).saturating_sub(8),
        _ => 4_160,
    };
    Call::Cut(Cut {
        connection,
        request,
        message: Rc::from(message),
        first,
        index,
        out,
    })
}

fn request(random: &mut Random) -> Request {
    let (address, key) = (random.number(), random.number() as u32);
    let immediate = random.chance(50).then(|| random.number() as u32);
    match random.below(8) {
        0..=2 => Request::Send(immediate),
        3 | 4 => Request::Write {
            address,
            key,
            immediate,
        },
        5 => {
            let length = match random.below(4) {
                0 => random.below(10_000) as u64,
                1 => random.near(LIMIT as u64, 1),
                2 => random.near(u64::from(u32::MAX), 1),
                _ => random.below(LIMIT + 1) as u64,
            };
            Request::Read {
                address,
                key,
                length: length as u32,
            }
        }
        6 => {
            let (swap, compare) = (random.number(), random.number());
            Request::CmpSwap {
                address,
                key,
                swap,
                compare,
            }
        }
        _ => Request::FetchAdd {
            address,
            key,
            add: random.number(),
        },
    }
}
