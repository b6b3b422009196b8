//! Packets made by hand: composed field by field, changed, or plain noise.

use crate::generate::message::{atomic, length, span, Scene};
use crate::generate::world::{HALF, NUMBERS};
use crate::random::Random;
use crate::subject::*;

/// Bits 4 to 0 of opcodes; a SEND's or WRITE's others follow its First.
const SEND: u8 = 0;
const WRITE: u8 = 6;
const READ: u8 = 12;
const CMP_SWAP: u8 = 19;
const FETCH_ADD: u8 = 20;
/// Added to the First of a kind.
const FIRST: u8 = 0;
const MIDDLE: u8 = 1;
const LAST: u8 = 2;
const ONLY: u8 = 4;

pub const WRITE_FIRST: u8 = WRITE;

pub fn psn(packet: &[u8]) -> u32 {
    u32::from_be_bytes([0, packet[9], packet[10], packet[11]])
}

fn set_psn(packet: &mut [u8], psn: u32) {
    packet[9..12].copy_from_slice(&psn.to_be_bytes()[1..]);
}

/// A BTH with whatever follows it; nothing is checked.
struct Raw {
    opcode: u8,
    /// SE and MigReq, in their bits.
    flags: u8,
    pad: u8,
    tver: u8,
    pkey: u16,
    reserved8: u8,
    dest: u32,
    ackreq: bool,
    reserved7: u8,
    psn: u32,
    rest: Vec<u8>,
}

impl Raw {
    fn bytes(&self) -> Vec<u8> {
        let mut bytes = Vec::with_capacity(12 + self.rest.len());
        bytes.extend([
            self.opcode,
            self.flags | (self.pad & 3) << 4 | self.tver & 15,
        ]);
        bytes.extend(self.pkey.to_be_bytes());
        bytes.push(self.reserved8);
        bytes.extend(&self.dest.to_be_bytes()[1..]);
        bytes.push(u8::from(self.ackreq) << 7 | self.reserved7 & 0x7F);
        bytes.extend(&self.psn.to_be_bytes()[1..]);
        bytes.extend(&self.rest);
        bytes
    }
}

/// The place of an opcode in its message, for SEND and WRITE.
fn place(low: u8) -> u8 {
    low % 6
}

/// A request for the pair as it stands. Each of its choices is a bad one with
/// a chance of `bad` percent; with 0 it would be executed, mostly.
pub fn compose(random: &mut Random, scene: Scene, bad: usize) -> Vec<u8> {
    let psn = if random.chance(bad) {
        odd_psn(random, scene)
    } else {
        scene.view.expected
    };
    let behind = scene.view.expected.wrapping_sub(psn) % NUMBERS;
    let duplicate = (1..HALF).contains(&behind);
    let low = if random.chance(bad / 2) {
        random.below(32) as u8
    } else if duplicate {
        random.pick(&[SEND + ONLY, WRITE + ONLY, READ, READ, CMP_SWAP, FETCH_ADD])
    } else {
        fitting_opcode(random, scene)
    };
    let behind = if duplicate { behind as usize } else { 0 };
    let (headers, payload) = operands(random, scene, low, bad, behind);

    let mut payload = random.bytes(payload);
    let mut pad = payload.len().wrapping_neg() as u8 & 3;
    payload.resize(
        payload.len() + usize::from(pad),
        if random.chance(20) { 0xEE } else { 0 },
    );
    if random.chance(bad / 2) {
        pad = random.below(4) as u8;
    }
    let mut rest = headers;
    rest.append(&mut payload);
    Raw {
        opcode: scene.setup.service << 5 | low,
        flags: if random.chance(10) {
            random.pick(&[0x40, 0x80, 0xC0])
        } else {
            0
        },
        pad,
        tver: if random.chance(bad / 10) {
            random.below(16) as u8
        } else {
            0
        },
        pkey: if random.chance(bad / 5) {
            odd_key(random, scene)
        } else {
            scene.setup.pkey | 0x8000
        },
        reserved8: if random.chance(10) {
            random.number() as u8
        } else {
            0
        },
        dest: if random.chance(bad / 10) {
            random.number() as u32
        } else {
            scene.setup.ours
        },
        ackreq: random.chance(50),
        reserved7: if random.chance(10) {
            random.number() as u8
        } else {
            0
        },
        psn,
        rest,
    }
    .bytes()
}

/// An opcode that the open message, or none, allows and that is enabled.
fn fitting_opcode(random: &mut Random, scene: Scene) -> u8 {
    let setup = scene.setup;
    if let Some((kind, placed)) = scene.view.open {
        let left = match scene.write {
            Some((_, _, length)) if kind == WRITE => u64::from(length).saturating_sub(placed),
            _ => scene
                .view
                .waiting
                .first()
                .map_or(0, |entry| entry.2.saturating_sub(placed)),
        };
        let more = left > setup.pmtu as u64 && (kind == WRITE || random.chance(50));
        return kind
            + if more {
                MIDDLE
            } else {
                LAST + random.below(2) as u8
            };
    }
    let mut fitting = Vec::new();
    if setup.send {
        fitting.extend([SEND, SEND + ONLY, SEND + ONLY + 1]);
    }
    if setup.write {
        fitting.extend([WRITE, WRITE + ONLY, WRITE + ONLY + 1]);
    }
    if setup.read && setup.service == RC {
        fitting.extend([READ, READ]);
    }
    if setup.atomic && setup.service == RC {
        fitting.extend([CMP_SWAP, FETCH_ADD]);
    }
    fitting.push(SEND + ONLY);
    random.pick(&fitting)
}

/// The headers after the BTH and the payload's length, without pad. `behind`
/// is how far a duplicate lies behind the expected one.
fn operands(
    random: &mut Random,
    scene: Scene,
    low: u8,
    bad: usize,
    behind: usize,
) -> (Vec<u8>, usize) {
    let pmtu = scene.setup.pmtu;
    let mut headers = Vec::new();
    // On UC the opcodes above WRITE's have no headers to follow.
    let low = if scene.setup.service == UC && low >= READ {
        31
    } else {
        low
    };
    let payload = match low {
        SEND..=5 => send_payload(random, scene, place(low)),
        WRITE..=11 => {
            let at = place(low);
            let (mut address, mut key, mut long) = span(random, scene, |region| region.write);
            let payload = match at {
                FIRST => {
                    long = first_length(random, scene, &mut address, &mut key);
                    pmtu
                }
                ONLY.. => {
                    long = long.min(pmtu);
                    long
                }
                _ => left_to_write(scene).min(pmtu),
            };
            if at == FIRST || at >= ONLY {
                reth(random, scene, bad, &mut headers, (address, key, long));
            }
            payload
        }
        READ => {
            let (address, key, mut long) = span(random, scene, |region| region.read);
            if behind > 0 && random.chance(60) {
                // As many responses as lie behind, or about so many.
                long = random.near((behind.min(4_097) * pmtu) as u64, 1) as usize;
            }
            reth(random, scene, bad, &mut headers, (address, key, long));
            0
        }
        CMP_SWAP | FETCH_ADD => {
            atomic_header(random, scene, bad, &mut headers);
            0
        }
        // Responses and reserved ones: some headers' worth of noise.
        _ => 4 * random.below(8),
    };
    if [3, 5, 9, 11].contains(&low) {
        headers.extend((random.number() as u32).to_be_bytes());
    }
    let payload = if random.chance(bad / 2) {
        odd_payload(random, pmtu, payload)
    } else {
        payload
    };
    (headers, payload)
}

fn send_payload(random: &mut Random, scene: Scene, at: u8) -> usize {
    let pmtu = scene.setup.pmtu;
    let placed = scene.view.open.map_or(0, |(_, placed)| placed);
    let room = scene
        .view
        .waiting
        .first()
        .map_or(0, |entry| entry.2.saturating_sub(placed));
    let room = (room as usize).min(pmtu);
    match at {
        FIRST | MIDDLE => pmtu,
        ONLY.. => length(random, pmtu, room),
        _ => length(random, pmtu, room).max(1),
    }
}

/// What is to come of the open WRITE.
fn left_to_write(scene: Scene) -> usize {
    let placed = scene.view.open.map_or(0, |(_, placed)| placed);
    scene.write.map_or(0, |(_, _, length)| {
        u64::from(length).saturating_sub(placed) as usize
    })
}

/// A length that takes several packets, in a region that has room for it.
fn first_length(random: &mut Random, scene: Scene, address: &mut u64, key: &mut u32) -> usize {
    let pmtu = scene.setup.pmtu;
    let mut wide = scene.regions(|region| region.write);
    wide.retain(|region| region.length > pmtu as u64);
    if wide.is_empty() {
        return pmtu + 1;
    }
    let region = random.pick(&wide);
    let long = length(random, pmtu, region.length as usize).max(pmtu + 1);
    (*address, *key) = (region.address + region.length - long as u64, region.key);
    long
}

fn reth(
    random: &mut Random,
    scene: Scene,
    bad: usize,
    headers: &mut Vec<u8>,
    (mut address, mut key, long): (u64, u32, usize),
) {
    let mut long = long as u32;
    if random.chance(bad / 2) {
        match random.below(3) {
            0 => address = random.near(address, 2),
            1 => key = odd_region_key(random, scene),
            _ => long = odd_dma_length(random, long),
        }
    }
    headers.extend(address.to_be_bytes());
    headers.extend(key.to_be_bytes());
    headers.extend(long.to_be_bytes());
}

fn atomic_header(random: &mut Random, scene: Scene, bad: usize, headers: &mut Vec<u8>) {
    let (mut address, mut key, swap, compare) = match atomic(random, scene) {
        Request::CmpSwap {
            address,
            key,
            swap,
            compare,
        } => (address, key, swap, compare),
        Request::FetchAdd { address, key, add } => (address, key, add, random.number()),
        _ => unreachable!("an atomic is one of the two"),
    };
    if random.chance(bad / 2) {
        match random.below(3) {
            0 => address = random.near(address, 8),
            1 => key = odd_region_key(random, scene),
            // Around the end of the region.
            _ => {
                let region = scene.view.regions.iter().find(|region| region.key == key);
                let end = region.map_or(0, |region| region.address + region.length);
                address = random.near(end.wrapping_sub(8), 8);
            }
        }
    }
    headers.extend(address.to_be_bytes());
    headers.extend(key.to_be_bytes());
    headers.extend(swap.to_be_bytes());
    headers.extend(compare.to_be_bytes());
}

/// Another region's key, or nobody's.
fn odd_region_key(random: &mut Random, scene: Scene) -> u32 {
    let regions = &scene.view.regions;
    if regions.is_empty() || random.chance(40) {
        random.number() as u32
    } else {
        random.pick(regions).key
    }
}

fn odd_dma_length(random: &mut Random, long: u32) -> u32 {
    let limit = LIMIT as u64;
    (match random.below(6) {
        0 => 0,
        1 => random.near(limit, 1),
        2 => random.near(u64::from(u32::MAX), 1),
        3 => random.near(1 << 31, 1),
        _ => random.near(u64::from(long), 2),
    }) as u32
}

fn odd_payload(random: &mut Random, pmtu: usize, payload: usize) -> usize {
    let odd = match random.below(5) {
        0 => 0,
        1 => random.near(pmtu as u64, 4) as usize,
        2 => random.below(4_100),
        3 => payload + random.between(1, 4),
        _ => payload.saturating_sub(random.between(1, 4)),
    };
    odd.min(4_200)
}

/// A PSN behind or ahead, often at the edge of the half-space.
fn odd_psn(random: &mut Random, scene: Scene) -> u32 {
    let expected = scene.view.expected;
    let away = match random.below(7) {
        0 | 1 => random.between(1, 4) as u32,
        2..=4 => (random.between(1, 8) as u32).wrapping_neg(),
        5 => random.near(u64::from(HALF), 2) as u32,
        _ => random.number() as u32,
    };
    let saved = &scene.view.saved;
    if !saved.is_empty() && random.chance(20) {
        return random.pick(saved).0;
    }
    expected.wrapping_add(away) % NUMBERS
}

/// A P_Key that does not match ours, or just does.
fn odd_key(random: &mut Random, scene: Scene) -> u16 {
    let ours = scene.setup.pkey;
    random.pick(&[
        ours & 0x7FFF,
        ours | 0x8000,
        ours ^ 1,
        ours ^ 0x4000,
        0,
        0x8000,
        !ours,
    ])
}

/// Changes one to three things of a packet that has at least a BTH.
pub fn mutate(random: &mut Random, scene: Scene, packet: &mut Vec<u8>) {
    for _ in 0..random.pick(&[1, 1, 1, 2, 3]) {
        if packet.len() < 12 {
            return;
        }
        match random.weighted(&[12, 8, 10, 3, 4, 3, 4, 4, 10, 14, 14, 6]) {
            0 => packet[0] = packet[0] & 0xE0 | random.below(32) as u8,
            1 => packet[0] ^= 1 << random.below(8),
            2 => packet[1] = packet[1] & 0xCF | (random.below(4) as u8) << 4,
            3 => packet[1] ^= 1 << random.below(4),
            4 => packet[1] ^= random.pick(&[0x40, 0x80]),
            5 => {
                let key = odd_key(random, scene);
                packet[2..4].copy_from_slice(&key.to_be_bytes());
            }
            6 => packet[random.pick(&[4, 5, 6, 7])] ^= 1 << random.below(8),
            7 => packet[8] ^= 1 << random.below(8),
            8 => {
                let number = odd_psn(random, scene);
                set_psn(packet, number);
            }
            9 => mutate_operands(random, scene, packet),
            10 => mutate_length(random, packet),
            _ => {
                let at = random.below(packet.len());
                packet[at] ^= 1 << random.below(8);
            }
        }
    }
}

/// Changes a field behind the BTH, as the opcode says which there are.
fn mutate_operands(random: &mut Random, scene: Scene, packet: &mut [u8]) {
    let low = packet[0] & 31;
    let has_reth = [WRITE, WRITE + ONLY, WRITE + ONLY + 1, READ].contains(&low);
    let has_atomic = [CMP_SWAP, FETCH_ADD].contains(&low);
    if packet.len() < 28 || !(has_reth || has_atomic) {
        if packet.len() > 12 {
            let at = random.between(12, packet.len() - 1);
            packet[at] = random.number() as u8;
        }
        return;
    }
    match random.below(3) {
        0 => {
            let mut address = [0; 8];
            address.copy_from_slice(&packet[12..20]);
            let address = random.near(u64::from_be_bytes(address), 8);
            packet[12..20].copy_from_slice(&address.to_be_bytes());
        }
        1 => {
            let key = odd_region_key(random, scene);
            packet[20..24].copy_from_slice(&key.to_be_bytes());
        }
        _ => {
            let mut long = [0; 4];
            long.copy_from_slice(&packet[24..28]);
            let long = odd_dma_length(random, u32::from_be_bytes(long));
            packet[24..28].copy_from_slice(&long.to_be_bytes());
        }
    }
}

fn mutate_length(random: &mut Random, packet: &mut Vec<u8>) {
    let now = packet.len();
    let length = match random.below(8) {
        0 | 1 => now + 4,
        2 | 3 => now.saturating_sub(4),
        4 => now + random.between(1, 3),
        5 => now.saturating_sub(random.between(1, 3)),
        6 => random.pick(&[0, 4, 8, 12, 16, 24, 28, 32, 36, 40, 4_124, 4_128, 4_132]),
        _ => random.below(now + 1) & !3,
    };
    packet.resize(length, 0xA5);
}

/// Bytes of no meaning, sometimes behind a BTH that passes the header checks.
pub fn noise(random: &mut Random, scene: Scene) -> Vec<u8> {
    let length = match random.below(3) {
        0 => random.below(64),
        1 => 4 * random.below(1_050),
        _ => random.between(0, 4_200),
    };
    let mut packet = random.bytes(length);
    if packet.len() >= 12 && random.chance(60) {
        packet[0] = scene.setup.service << 5 | packet[0] & 31;
        packet[1] &= 0xF0;
        packet[2..4].copy_from_slice(&(scene.setup.pkey | 0x8000).to_be_bytes());
        packet[5..8].copy_from_slice(&scene.setup.ours.to_be_bytes()[1..]);
        set_psn(&mut packet, scene.view.expected);
    }
    packet
}
