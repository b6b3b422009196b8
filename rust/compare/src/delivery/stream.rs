//! Streams of permitted messages for a fresh reliable pair.

use crate::random::Random;
use crate::subject::*;

/// A PSN or MSN is below this.
pub const NUMBERS: u64 = 1 << 24;

pub struct Message {
    pub request: Request,
    pub bytes: Vec<u8>,
}

impl Message {
    /// Packets that the message is cut into.
    pub fn packets(&self, pmtu: usize) -> usize {
        self.bytes.len().div_ceil(pmtu).max(1)
    }

    /// PSNs that one of its packets takes: a READ's are those of its responses.
    pub fn numbers(&self, pmtu: usize) -> usize {
        match self.request {
            Request::Read { length, .. } => (length as usize).div_ceil(pmtu).max(1),
            _ => 1,
        }
    }
}

/// A packet's place in the stream.
#[derive(Clone, Copy)]
pub struct Place {
    pub message: usize,
    /// Which packet of its message.
    pub index: usize,
    /// Its number along the stream, from 0 and without wrapping.
    pub number: u64,
}

pub struct Stream {
    pub setup: Setup,
    pub regions: Vec<Region>,
    pub messages: Vec<Message>,
    pub places: Vec<Place>,
    /// The number that a packet after the last would have.
    pub end: u64,
    pub longest_send: usize,
}

impl Stream {
    pub fn new(setup: Setup, regions: Vec<Region>, messages: Vec<Message>) -> Stream {
        let mut places = Vec::new();
        let mut number = 0;
        for (at, message) in messages.iter().enumerate() {
            for index in 0..message.packets(setup.pmtu) {
                places.push(Place {
                    message: at,
                    index,
                    number,
                });
                number += message.numbers(setup.pmtu) as u64;
            }
        }
        let sends = messages
            .iter()
            .filter(|message| matches!(message.request, Request::Send(_)));
        let longest_send = sends.map(|message| message.bytes.len()).max().unwrap_or(0);
        Stream {
            setup,
            regions,
            messages,
            places,
            end: number,
            longest_send,
        }
    }

    /// The number that packet k has or would have.
    pub fn number(&self, k: usize) -> u64 {
        self.places.get(k).map_or(self.end, |place| place.number)
    }

    /// The packets, cut by the pair's own side.
    pub fn cut<S: Subject>(&self, pkey: u16) -> Result<Vec<Vec<u8>>, u8> {
        let Setup {
            service,
            pmtu,
            ours,
            start,
            ..
        } = self.setup;
        let connection = Connection {
            service,
            pmtu,
            pkey,
            dest: ours,
        };
        let mut out = vec![0; 32 + pmtu];
        let mut packets = Vec::new();
        let mut first = start;
        let mut next = start;
        for place in &self.places {
            if place.index == 0 {
                first = next;
            }
            let message = &self.messages[place.message];
            let (written, after) = S::cut(
                connection,
                message.request,
                &message.bytes,
                first,
                place.index,
                &mut out,
            )?;
            packets.push(out[..written].to_vec());
            next = after;
        }
        Ok(packets)
    }
}

/// A random stream of a few messages, of the kinds that are enabled.
pub fn random(random: &mut Random) -> Stream {
    let setup = set_up(random);
    let regions = regions(random, setup.memory);
    let count = random.between(1, 40);
    let messages = (0..count)
        .filter_map(|_| message(random, &setup, &regions))
        .collect();
    Stream::new(setup, regions, messages)
}

fn set_up(random: &mut Random) -> Setup {
    let mut on = || random.chance(85);
    let (send, write, read, atomic) = (on(), on(), on(), on());
    let point = match random.below(4) {
        0 => NUMBERS / 2,
        1 => random.number(),
        _ => NUMBERS,
    };
    Setup {
        service: RC,
        pmtu: random.pick(&PMTUS),
        ours: (random.number() % NUMBERS) as u32,
        theirs: (random.number() % NUMBERS) as u32,
        pkey: random.pick(&[0, 0x8000]) | random.between(1, 0x7FFF) as u16,
        start: (random.near(point, 40) % NUMBERS) as u32,
        timer: random.below(32) as u8,
        send,
        write,
        read,
        atomic,
        memory: match random.below(10) {
            0 => random.below(64),
            1 => 1 << 16,
            _ => random.between(64, 1 << 15),
        },
    }
}

/// Regions with distinct keys, which may overlap.
fn regions(random: &mut Random, memory: usize) -> Vec<Region> {
    let count = if memory == 0 { 0 } else { random.between(1, 5) };
    (0..count)
        .map(|key| {
            let length = random.between(1, memory);
            let all = random.chance(60);
            let mut right = || all || random.chance(50);
            let (write, read, atomic) = (right(), right(), right());
            Region {
                key: 0x1000 + key as u32,
                address: match random.below(3) {
                    0 => u64::MAX - length as u64 - random.below(9) as u64,
                    1 => 8 * random.below(1_000) as u64,
                    _ => random.number() >> 1,
                },
                length: length as u64,
                offset: random.between(0, memory - length) as u64,
                write,
                read,
                atomic,
            }
        })
        .collect()
}

/// A permitted message, unless no kind of them is.
fn message(random: &mut Random, setup: &Setup, regions: &[Region]) -> Option<Message> {
    let immediate = random.chance(40).then(|| random.number() as u32);
    let enabled = [setup.send, setup.write, setup.read, setup.atomic];
    let weights = [4, 4, 3, 3];
    let mut weights: Vec<usize> = weights
        .iter()
        .zip(enabled)
        .map(|(weight, on)| if on { *weight } else { 0 })
        .collect();
    let words = words(regions);
    if words.is_empty() {
        weights[3] = 0;
    }
    if weights.iter().all(|weight| *weight == 0) {
        return None;
    }
    let carrying = |request, bytes| Some(Message { request, bytes });
    match random.weighted(&weights) {
        0 => {
            let length = length(random, setup.pmtu, setup.memory);
            carrying(Request::Send(immediate), random.bytes(length))
        }
        1 => {
            let (address, key, length) = span(random, setup, regions, |region| region.write);
            carrying(
                Request::Write {
                    address,
                    key,
                    immediate,
                },
                random.bytes(length),
            )
        }
        2 => {
            let (address, key, length) = span(random, setup, regions, |region| region.read);
            carrying(
                Request::Read {
                    address,
                    key,
                    length: length as u32,
                },
                Vec::new(),
            )
        }
        _ => {
            let (address, key) = random.pick(&words);
            let (swap, compare) = (random.number(), random.number());
            let request = if random.chance(30) {
                Request::CmpSwap {
                    address,
                    key,
                    swap,
                    compare,
                }
            } else {
                Request::FetchAdd {
                    address,
                    key,
                    add: swap,
                }
            };
            carrying(request, Vec::new())
        }
    }
}

fn length(random: &mut Random, pmtu: usize, most: usize) -> usize {
    let long = match random.below(4) {
        0 => random.below(9),
        1 => (random.between(1, 3) * pmtu + random.below(9)).saturating_sub(4),
        _ => random.below(4 * pmtu),
    };
    long.min(most)
}

/// Bytes in a region with the right; where there is none, no bytes, whatever
/// the key.
fn span(
    random: &mut Random,
    setup: &Setup,
    regions: &[Region],
    right: fn(&Region) -> bool,
) -> (u64, u32, usize) {
    let granting: Vec<Region> = regions
        .iter()
        .filter(|region| right(region))
        .copied()
        .collect();
    if granting.is_empty() || random.chance(5) {
        return (random.number(), random.number() as u32, 0);
    }
    let region = random.pick(&granting);
    let long = length(random, setup.pmtu, region.length as usize);
    let at = random.below(region.length as usize - long + 1);
    (region.address + at as u64, region.key, long)
}

/// Address and key of some aligned 8 bytes with the right for atomics.
fn words(regions: &[Region]) -> Vec<(u64, u32)> {
    let granting = regions.iter().filter(|region| region.atomic);
    granting
        .filter_map(|region| {
            let address = region.address.checked_next_multiple_of(8)?;
            let end = region.address + region.length;
            (address.checked_add(8)? <= end).then_some((address, region.key))
        })
        .collect()
}
