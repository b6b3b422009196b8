//! Messages to send: mostly permitted ones, at the lengths where rules turn.

use crate::random::Random;
use crate::subject::*;

/// What the choice of a message or packet depends on.
#[derive(Clone, Copy)]
pub struct Scene<'a> {
    pub setup: &'a Setup,
    pub view: &'a View,
    pub memory: &'a [u8],
    /// The RETH of the WRITE that is open: address, key, DMA length.
    pub write: Option<(u64, u32, u32)>,
}

impl Scene<'_> {
    /// Regions that grant a right, or all if none does.
    pub fn regions(&self, right: fn(&Region) -> bool) -> Vec<Region> {
        let all = &self.view.regions;
        let granting: Vec<Region> = all.iter().filter(|region| right(region)).copied().collect();
        if granting.is_empty() {
            all.clone()
        } else {
            granting
        }
    }

    /// Entries that no open message holds.
    pub fn free_entries(&self) -> &[(u64, u64, u64)] {
        &self.view.waiting[usize::from(self.view.held)..]
    }
}

/// A length of at most `most`, mostly near a multiple of the PMTU or near 0.
pub fn length(random: &mut Random, pmtu: usize, most: usize) -> usize {
    let long = match random.weighted(&[25, 40, 30, 3, 2]) {
        0 => random.below(10),
        1 => (pmtu * random.between(1, 5) + random.below(9)).saturating_sub(4),
        2 => random.below(5 * pmtu),
        3 => most,
        _ => random.below(20 * pmtu),
    };
    long.min(most)
}

/// A request with its message. `kinds` says which of SEND, WRITE, READ and
/// atomics are to be chosen from, one of them at least.
pub fn request(random: &mut Random, scene: Scene, kinds: [bool; 4]) -> (Request, Vec<u8>) {
    let weights = [5, 5, 3, 3];
    let weights: Vec<usize> = weights
        .iter()
        .zip(kinds)
        .map(|(weight, on)| if on { *weight } else { 0 })
        .collect();
    match random.weighted(&weights) {
        0 => {
            let immediate = immediate(random);
            let length = send_length(random, scene);
            (Request::Send(immediate), random.bytes(length))
        }
        1 => {
            let immediate = immediate(random);
            let (address, key, length) = span(random, scene, |region| region.write);
            (
                Request::Write {
                    address,
                    key,
                    immediate,
                },
                random.bytes(length),
            )
        }
        2 => {
            let (address, key, length) = span(random, scene, |region| region.read);
            (
                Request::Read {
                    address,
                    key,
                    length: length as u32,
                },
                Vec::new(),
            )
        }
        _ => (atomic(random, scene), Vec::new()),
    }
}

fn immediate(random: &mut Random) -> Option<u32> {
    random.chance(35).then(|| random.number() as u32)
}

/// Mostly what the next entry has room for.
fn send_length(random: &mut Random, scene: Scene) -> usize {
    let pmtu = scene.setup.pmtu;
    match scene.free_entries().first() {
        None => length(random, pmtu, 3 * pmtu),
        Some((_, _, room)) if random.chance(4) => *room as usize + random.between(1, 4),
        Some((_, _, room)) => length(random, pmtu, *room as usize),
    }
}

/// Address, key and length of bytes in a region with a right, mostly.
pub fn span(random: &mut Random, scene: Scene, right: fn(&Region) -> bool) -> (u64, u32, usize) {
    let regions = scene.regions(right);
    if regions.is_empty() || random.chance(5) {
        // No bytes need no key.
        return (random.number(), random.number() as u32, 0);
    }
    let region = random.pick(&regions);
    let room = region.length as usize;
    let long = length(random, scene.setup.pmtu, room);
    let at = match random.below(3) {
        0 => 0,
        1 => room - long,
        _ => random.below(room - long + 1),
    };
    (region.address + at as u64, region.key, long)
}

/// An atomic, aligned where its region has 8 aligned bytes.
pub fn atomic(random: &mut Random, scene: Scene) -> Request {
    let regions = scene.regions(|region| region.atomic);
    let (address, key) = if regions.is_empty() {
        (random.number() & !7, random.number() as u32)
    } else {
        let region = random.pick(&regions);
        let first = region
            .address
            .checked_next_multiple_of(8)
            .unwrap_or(region.address);
        let places = (region.address + region.length).saturating_sub(first) / 8;
        let place = random.below(places.max(1) as usize) as u64;
        (first.wrapping_add(8 * place), region.key)
    };
    let operand = operand(random);
    if random.chance(50) {
        return Request::FetchAdd {
            address,
            key,
            add: operand,
        };
    }
    // Half of the swaps compare with what memory holds, so that they store.
    let held = value_at(scene, address, key).filter(|_| random.chance(50));
    let compare = held.unwrap_or_else(|| random.number());
    Request::CmpSwap {
        address,
        key,
        swap: operand,
        compare,
    }
}

fn operand(random: &mut Random) -> u64 {
    match random.below(5) {
        0 => random.below(3) as u64,
        1 => random.near(u64::MAX, 2),
        _ => random.number(),
    }
}

/// The 8 bytes that an address names, low byte first.
fn value_at(scene: Scene, address: u64, key: u32) -> Option<u64> {
    let region = scene.view.regions.iter().find(|region| region.key == key)?;
    let at = address
        .checked_sub(region.address)?
        .checked_add(region.offset)?;
    let bytes = scene.memory.get(at as usize..)?.first_chunk()?;
    Some(u64::from_le_bytes(*bytes))
}
