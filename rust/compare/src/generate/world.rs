//! Set-ups, regions and entries, good ones and ones to be refused.

use crate::random::Random;
use crate::subject::*;

/// A PSN or MSN is below this.
pub const NUMBERS: u32 = 1 << 24;
pub const HALF: u32 = 1 << 23;

/// A set-up that is accepted, with at most `largest` bytes of memory.
pub fn set_up(random: &mut Random, largest: usize) -> Setup {
    let all = random.chance(60);
    let mut enabled = || all || random.chance(60);
    let (send, write, read, atomic) = (enabled(), enabled(), enabled(), enabled());
    Setup {
        service: if random.chance(65) { RC } else { UC },
        pmtu: PMTUS[random.weighted(&[40, 20, 15, 10, 15])],
        ours: queue_pair(random),
        theirs: queue_pair(random),
        pkey: p_key(random),
        start: start(random),
        timer: random.below(32) as u8,
        send,
        write,
        read,
        atomic,
        memory: memory(random, largest),
    }
}

fn queue_pair(random: &mut Random) -> u32 {
    match random.below(4) {
        0 => 0,
        1 => NUMBERS - 1,
        _ => random.number() as u32 % NUMBERS,
    }
}

fn p_key(random: &mut Random) -> u16 {
    let low = match random.below(4) {
        0 => 0x7FFF,
        1 => 1,
        _ => random.between(1, 0x7FFF) as u16,
    };
    low | if random.chance(70) { 0x8000 } else { 0 }
}

/// Near the places where the numbers wrap or turn, mostly.
fn start(random: &mut Random) -> u32 {
    let point = match random.below(4) {
        0 => 0,
        1 => u64::from(HALF),
        2 => u64::from(NUMBERS - 1),
        _ => random.number(),
    };
    random.near(point, 20) as u32 % NUMBERS
}

fn memory(random: &mut Random, largest: usize) -> usize {
    let most = largest.min(1 << 16);
    match random.weighted(&[3, 5, 20, 40, 10, 20, 2]) {
        0 => 0,
        1 => random.between(1, 64),
        2 => random.between(65, 4_096),
        3 => random.between(1, 8) * 2_048,
        4 => most,
        5 => random.between(1, most),
        _ => largest,
    }
}

/// A set-up with at least one reason to refuse it.
pub fn refused_set_up(random: &mut Random) -> Setup {
    let mut setup = set_up(random, 4_096);
    for _ in 0..random.pick(&[1, 1, 2]) {
        let over = random.pick(&[NUMBERS, NUMBERS + 1, u32::MAX]);
        match random.below(7) {
            0 => setup.pmtu = random.pick(&[0, 1, 255, 257, 1_000, 4_095, 8_192, usize::MAX]),
            1 => setup.ours = over,
            2 => setup.theirs = over,
            3 => setup.start = over,
            4 => setup.pkey = random.pick(&[0, 0x8000]),
            5 => setup.timer = random.pick(&[32, 33, 255]),
            _ => setup.memory = random.pick(&[LIMIT + 1, LIMIT * 2, usize::MAX]),
        }
    }
    setup
}

/// A part of `memory` bytes: offset and length, the length at least `least`
/// where there are so many.
pub fn part(random: &mut Random, memory: usize, least: usize) -> (u64, u64) {
    let least = least.min(memory);
    let length = match random.below(4) {
        0 => memory,
        1 => least,
        _ => random.between(least, memory),
    };
    let offset = match random.below(3) {
        0 => 0,
        1 => memory - length,
        _ => random.below(memory - length + 1),
    };
    (offset as u64, length as u64)
}

/// A region that can be added, unless memory is empty or the key is in use.
pub fn region(random: &mut Random, memory: usize) -> Region {
    let least = random.pick(&[1, 16, 300, 2_000]);
    let (offset, length) = part(random, memory, least);
    let highest = u64::MAX - length;
    let address = match random.below(6) {
        0 => 0,
        1 => 0x10000,
        2 => offset,
        3 => highest - random.below(16) as u64,
        4 => (random.number() % highest.max(1)) & !7,
        _ => random.number() % highest.max(1),
    };
    let all = random.chance(60);
    let mut right = || all || random.chance(50);
    let (write, read, atomic) = (right(), right(), right());
    Region {
        key: key(random),
        address,
        length,
        offset,
        write,
        read,
        atomic,
    }
}

/// Keys from a small set, so that they meet.
pub fn key(random: &mut Random) -> u32 {
    match random.below(8) {
        0 => 0,
        1 => u32::MAX,
        _ => 0x1000 + random.below(24) as u32,
    }
}

/// A region that does not lie in memory, or has no length, or no end below
/// 2^64; or, now and then, one that just does.
pub fn odd_region(random: &mut Random, memory: usize) -> Region {
    let mut region = region(random, memory);
    let end = memory as u64;
    match random.below(7) {
        0 => region.length = 0,
        1 => region.length = end - region.offset + 1,
        2 => region.offset = end.wrapping_sub(region.length).wrapping_add(1),
        3 => region.offset = random.near(u64::MAX, 2),
        4 => region.length = random.near(u64::MAX, 2),
        5 => region.address = region.length.wrapping_neg(),
        _ => region.address = random.near(u64::MAX - region.length, 1),
    }
    region
}

/// An entry in memory. Lengths of some PMTUs are the common ones.
pub fn entry(random: &mut Random, memory: usize, pmtu: usize) -> Entry {
    let least = match random.below(6) {
        0 => 0,
        1 => random.below(8),
        _ => pmtu * random.between(1, 4),
    };
    let (offset, length) = part(random, memory, least);
    let number = if random.chance(80) {
        random.below(1_000) as u64
    } else {
        random.number()
    };
    Entry {
        number,
        offset,
        length,
    }
}

/// An entry that mostly does not lie in memory.
pub fn odd_entry(random: &mut Random, memory: usize, pmtu: usize) -> Entry {
    let mut entry = entry(random, memory, pmtu);
    let end = memory as u64;
    match random.below(5) {
        0 => entry.length = end - entry.offset + 1,
        1 => entry.offset = end - entry.length + 1,
        2 => (entry.offset, entry.length) = (end + random.below(2) as u64, 0),
        3 => entry.offset = random.near(u64::MAX, 2),
        _ => entry.length = random.near(u64::MAX, 2),
    }
    entry
}
