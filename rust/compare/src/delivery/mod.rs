//! Demand 3 as a test: random streams of permitted messages, random lists of
//! the three calls, and after each call the pair against the plain run.

pub mod plain_run;
pub mod stream;

use crate::call::Call;
use crate::count::Answers;
use crate::random::{seed_of, Random};
use crate::side::fresh_memory;
use crate::subject::*;
use plain_run::{PlainRun, Step};
use stream::{Message, Stream};

/// The farthest from the expected one that a packet may be delivered.
const FARTHEST: u64 = 8_388_607;

/// What was done, over all streams.
#[derive(Default)]
pub struct Tally {
    pub streams: u64,
    pub calls: u64,
    pub packets: u64,
    pub executed: u64,
    pub completions: u64,
    pub wrapped: u64,
    pub answers: Answers,
}

/// A list after which the pair is not as the plain run.
pub struct Failure {
    pub what: String,
    /// The list as a script, as short as it could be made.
    pub script: Vec<String>,
}

/// How a fresh pair comes about: by its set-up, or by a reset after some use; entries may be posted before it is Ready.
#[derive(Default)]
struct Start {
    /// The length of the memory lent.
    lent: usize,
    /// The pair took an entry and the first packets of the stream, and was reset.
    used: bool,
    early: Vec<Entry>,
}

/// So many packets are handed in before a reset.
const USED: usize = 3;

/// The calls that make a fresh pair, in their order.
fn beginning(stream: &Stream, packets: &[Vec<u8>], start: &Start) -> Vec<Call> {
    let regions = || stream.regions.iter().copied().map(Call::AddRegion);
    let mut calls = Vec::new();
    if start.used {
        calls.extend(regions());
        calls.push(Call::MakeReady);
        calls.push(Call::Post(Entry {
            number: 1,
            offset: 0,
            length: stream.longest_send as u64,
        }));
        calls.extend(packets.iter().take(USED).map(|packet| Call::Inbound {
            memory: start.lent,
            out: 24,
            packet: packet.clone(),
        }));
        calls.push(Call::Reset);
    }
    calls.extend(regions());
    calls.extend(start.early.iter().copied().map(Call::Post));
    calls.push(Call::MakeReady);
    calls
}

/// A pair beside the plain run of its stream.
struct Check<'a, S> {
    pair: S,
    memory: Vec<u8>,
    completions: Vec<Completion>,
    run: PlainRun<'a>,
    packets: &'a [Vec<u8>],
    out: Vec<u8>,
}

impl<'a, S: Subject> Check<'a, S> {
    /// A fresh pair: Ready, its regions in place, nothing delivered since set-up or reset.
    fn new(stream: &'a Stream, packets: &'a [Vec<u8>], start: &Start) -> Result<Self, String> {
        let refused = |number| format!("a fresh pair is refused with {number}");
        let mut pair = S::set_up(stream.setup).map_err(refused)?;
        let mut memory = fresh_memory(start.lent);
        let mut out = vec![0; 4_200];
        for call in beginning(stream, packets, start) {
            let number = match call {
                Call::AddRegion(region) => pair.add_region(region),
                Call::MakeReady => pair.make_ready(),
                Call::Reset => pair.reset(),
                // What entries and packets are answered is for the plain run to say.
                Call::Post(entry) => {
                    pair.post_entry(entry);
                    0
                }
                Call::Inbound { packet, .. } => {
                    pair.inbound(&mut memory, &packet, &mut out[..24]);
                    0
                }
                _ => 0,
            };
            if number != 0 {
                return Err(refused(number));
            }
        }
        let mut run = PlainRun::new(stream, memory.clone());
        for entry in &start.early {
            run.step(Step::Post(*entry));
        }
        Ok(Check {
            pair,
            memory,
            completions: Vec::new(),
            run,
            packets,
            out,
        })
    }

    /// Makes the call and lets the plain run have its arguments. The answer's
    /// number, if all is as in the plain run.
    fn step(&mut self, step: Step) -> Result<u8, String> {
        self.run.step(step);
        let number = match step {
            Step::HandIn { packet, out } => {
                let got = self.pair.inbound(
                    &mut self.memory,
                    &self.packets[packet],
                    &mut self.out[..out],
                );
                self.completions.extend(got.completion);
                got.number
            }
            Step::Next { out } => {
                self.pair
                    .next_response(&self.memory, &mut self.out[..out])
                    .0
            }
            Step::Post(entry) => self.pair.post_entry(entry),
        };
        let Counts {
            expected,
            msn,
            pending,
        } = self.pair.counts();
        let counted = [u64::from(expected), u64::from(msn), pending as u64];
        let plain = [
            u64::from(self.run.expected),
            u64::from(self.run.msn),
            self.run.r as u64,
        ];
        if counted != plain {
            return Err(format!(
                "expected PSN, MSN, responses: {counted:?}, in the plain run {plain:?}"
            ));
        }
        let (reported, plain) = (&self.completions, &self.run.completions);
        if reported.len() != plain.len() || reported.last() != plain.last() {
            return Err(format!(
                "completions: {} to {:?}, in the plain run {} to {:?}",
                reported.len(),
                reported.last(),
                plain.len(),
                plain.last()
            ));
        }
        // The other two calls have no way to write memory.
        if matches!(step, Step::HandIn { .. }) && self.memory != self.run.memory {
            let at = self
                .memory
                .iter()
                .zip(&self.run.memory)
                .position(|(one, two)| one != two);
            return Err(format!("memory, first at byte {at:?}"));
        }
        Ok(number)
    }

    /// What is claimed of the whole list.
    fn end(&self) -> Result<(), String> {
        let equal = self.memory == self.run.memory && self.completions == self.run.completions;
        equal
            .then_some(())
            .ok_or_else(|| "memory or completions after the list".to_string())
    }
}

/// Streams and lists from a seed, until there were so many calls.
pub fn run<S: Subject>(seed: u64, calls: u64) -> Result<Tally, Failure> {
    let mut tally = Tally::default();
    while tally.calls < calls {
        let own = seed_of(seed, tally.streams);
        one_stream::<S>(own, &mut tally)?;
    }
    Ok(tally)
}

fn one_stream<S: Subject>(seed: u64, tally: &mut Tally) -> Result<(), Failure> {
    let mut random = Random::new(seed);
    let stream = stream::random(&mut random);
    let without_script = |what: String| Failure {
        what,
        script: Vec::new(),
    };
    // One of the two P_Keys has its top bit set.
    let pkey = match stream.setup.pkey {
        ours if ours & 0x8000 != 0 && random.chance(50) => ours & 0x7FFF,
        ours => ours | 0x8000,
    };
    let packets = stream
        .cut::<S>(pkey)
        .map_err(|number| without_script(format!("a cut is refused with {number}")))?;
    // With memory of another length everything is refused.
    let lent = stream.setup.memory + usize::from(random.chance(1));
    let early = if random.chance(50) {
        random.below(4)
    } else {
        0
    };
    let start = Start {
        lent,
        used: random.chance(30),
        early: (0..early).map(|_| entry(&mut random, &stream)).collect(),
    };
    let mut check = Check::<S>::new(&stream, &packets, &start).map_err(without_script)?;

    // A list ends at once, or some calls after the stream is delivered whole.
    let early = random.chance(10) || lent != stream.setup.memory;
    let most = if early { random.below(50) } else { 1_000 };
    let mut after = random.below(60);
    let posting = random.pick(&[5, 10, 10, 40]);
    let mut steps = Vec::new();
    while steps.len() < most && after > 0 {
        after -= usize::from(check.run.k == packets.len());
        let step = choose(&mut random, &stream, &check.run, posting);
        steps.push(step);
        match check.step(step) {
            Ok(number) => tally.answers.add(number),
            Err(_) => return Err(shortest::<S>(&stream, &packets, &start, steps)),
        }
    }
    check.end().map_err(without_script)?;

    tally.streams += 1;
    tally.calls += steps.len() as u64;
    tally.packets += packets.len() as u64;
    tally.executed += check.run.k as u64;
    tally.completions += check.completions.len() as u64;
    tally.wrapped += u64::from(check.run.expected < stream.setup.start);
    Ok(())
}

/// A call, chosen with an eye on where the stream is so that it gets on.
/// `posting` is how many in a hundred post an entry.
fn choose(random: &mut Random, stream: &Stream, run: &PlainRun, posting: usize) -> Step {
    let room = 16 + stream.setup.pmtu;
    if run.r > 0 && random.chance(75) || random.chance(2) {
        let out = match random.below(20) {
            0 => random.below(room),
            1 => room - 1,
            2 => room + random.below(20),
            _ => room,
        };
        return Step::Next { out };
    }
    // With none waiting SENDs would not get on.
    let wanted = if run.entries() == 0 { 25 } else { posting };
    if random.chance(wanted) || stream.places.is_empty() {
        return Step::Post(entry(random, stream));
    }
    let packet = packet(random, stream.places.len(), run.k);
    if stream.number(packet).abs_diff(stream.number(run.k)) > FARTHEST {
        return Step::Post(entry(random, stream));
    }
    let out = match random.below(30) {
        0 => random.below(24),
        1 => 23,
        2 => 4_200,
        _ => 24,
    };
    Step::HandIn { packet, out }
}

/// Packet k mostly; else one before or behind it, near or far.
fn packet(random: &mut Random, count: usize, k: usize) -> usize {
    let near = random.between(1, 4);
    let packet = match random.below(20) {
        0..=2 => k.saturating_sub(near),
        3 | 4 => k + near,
        5 => random.below(count),
        6 => 0,
        7 => count - 1,
        _ => k,
    };
    packet.min(count - 1)
}

/// An entry that is long enough for every SEND of the stream, though it need
/// not lie in memory.
fn entry(random: &mut Random, stream: &Stream) -> Entry {
    let memory = stream.setup.memory;
    let length = match random.below(3) {
        0 => memory,
        1 => stream.longest_send,
        _ => random.between(stream.longest_send, memory),
    };
    let offset = match random.below(20) {
        0 => memory - length + random.between(1, 9),
        1 => usize::MAX - random.below(3),
        _ => random.between(0, memory - length),
    };
    Entry {
        number: random.number() >> 40,
        offset: offset as u64,
        length: length as u64,
    }
}

/// The failing list without the calls that it does not need, as a script.
fn shortest<S: Subject>(
    stream: &Stream,
    packets: &[Vec<u8>],
    start: &Start,
    mut steps: Vec<Step>,
) -> Failure {
    let replay = |steps: &[Step]| -> Option<(usize, String)> {
        let mut check = Check::<S>::new(stream, packets, start).ok()?;
        let mut steps = steps.iter().enumerate();
        steps.find_map(|(place, step)| check.step(*step).err().map(|what| (place, what)))
    };
    let mut at = steps.len();
    while at > 0 {
        at -= 1;
        let mut fewer = steps.clone();
        fewer.remove(at);
        if let Some((place, _)) = replay(&fewer) {
            fewer.truncate(place + 1);
            steps = fewer;
            at = at.min(steps.len());
        }
    }
    let what = replay(&steps).map_or("does not fail again".to_string(), |(_, what)| what);
    Failure {
        what,
        script: script(stream, packets, start, &steps),
    }
}

fn script(stream: &Stream, packets: &[Vec<u8>], start: &Start, steps: &[Step]) -> Vec<String> {
    let lent = start.lent;
    let mut calls = vec![Call::SetUp(stream.setup)];
    calls.extend(beginning(stream, packets, start));
    calls.extend(steps.iter().map(|step| match *step {
        Step::HandIn { packet, out } => Call::Inbound {
            memory: lent,
            out,
            packet: packets[packet].clone(),
        },
        Step::Next { out } => Call::Next { memory: lent, out },
        Step::Post(entry) => Call::Post(entry),
    }));
    calls.iter().filter_map(Call::script).collect()
}

/// The farthest packets that the claim is about: one exactly 8,388,607 numbers
/// ahead, and, when all between are executed, one as far behind.
pub fn half_space<S: Subject>() -> Result<u64, String> {
    let setup = Setup {
        service: RC,
        pmtu: 256,
        ours: 0x12,
        theirs: 0x34,
        pkey: 0xFFFF,
        start: 12_345_678,
        timer: 0,
        send: true,
        write: true,
        read: true,
        atomic: true,
        memory: LIMIT,
    };
    let region = Region {
        key: 7,
        address: 0,
        length: LIMIT as u64,
        offset: 0,
        write: true,
        read: true,
        atomic: true,
    };
    let send = |fill: u8| Message {
        request: Request::Send(None),
        bytes: vec![fill; 16],
    };
    let read = |responses: u32| Message {
        request: Request::Read {
            address: 0,
            key: 7,
            length: 256 * responses,
        },
        bytes: Vec::new(),
    };
    let mut messages = vec![send(1)];
    messages.extend((0..2_047).map(|_| read(4_096)));
    messages.push(read(4_094));
    messages.push(send(2));
    let stream = Stream::new(setup, vec![region], messages);
    let last = stream.places.len() - 1;
    assert_eq!(stream.number(last), FARTHEST);

    let packets = stream
        .cut::<S>(0xFFFF)
        .map_err(|number| format!("a cut: {number}"))?;
    let start = Start {
        lent: LIMIT,
        ..Start::default()
    };
    let mut check = Check::<S>::new(&stream, &packets, &start)?;
    let mut calls = 0;
    let mut step = |check: &mut Check<S>, step, wanted| {
        calls += 1;
        match check.step(step)? {
            number if number == wanted => Ok(()),
            number => Err(format!(
                "call {calls}, {step:?}, is answered {number}, not {wanted}"
            )),
        }
    };
    for number in 0..3 {
        let entry = Entry {
            number,
            offset: 16 * number,
            length: 16,
        };
        step(&mut check, Step::Post(entry), 0)?;
    }
    step(
        &mut check,
        Step::HandIn {
            packet: last,
            out: 24,
        },
        16,
    )?;
    for packet in 0..last {
        let number = if packet == 0 { 1 } else { 2 };
        step(&mut check, Step::HandIn { packet, out: 24 }, number)?;
        while check.run.r > 0 {
            step(&mut check, Step::Next { out: 272 }, 0)?;
        }
    }
    step(&mut check, Step::HandIn { packet: 0, out: 24 }, 4)?;
    step(
        &mut check,
        Step::HandIn {
            packet: last,
            out: 24,
        },
        1,
    )?;
    check.end()?;
    Ok(calls)
}
