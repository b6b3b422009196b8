//! Makes up lists of calls. A player looks at the pair as it stands and
//! chooses the next call, so that most packets get past the first checks.

mod header;
mod host;
mod message;
mod packet;
mod stream;
mod temper;
mod world;

use std::collections::VecDeque;
use std::rc::Rc;

use crate::call::{Answer, Call};
use crate::random::Random;
use crate::subject::*;
use message::Scene;
use temper::{Action, Temper, TEMPERS};

/// How many packets that were executed are kept to be handed in as duplicates.
const REMEMBERED: usize = 40;

/// A message that is being cut.
struct Sending {
    request: Request,
    message: Rc<[u8]>,
    first: u32,
    index: usize,
    count: usize,
}

pub struct Player {
    random: Random,
    /// The most bytes of memory that a set-up asks for.
    largest: usize,
    temper: &'static Temper,
    setup: Option<Setup>,
    /// Calls to make before anything new is thought of.
    planned: VecDeque<Call>,
    sending: Option<Sending>,
    /// Whether the last call cuts a packet of the message being sent.
    cutting: bool,
    /// Packets cut and not yet executed, in order.
    cut: VecDeque<Vec<u8>>,
    /// Packets left out, which may come late.
    lost: Vec<Vec<u8>>,
    /// Packets that were executed.
    past: VecDeque<Vec<u8>>,
    /// The RETH of the WRITE that is open.
    write: Option<(u64, u32, u32)>,
    /// Atomics to send in a row, so that the table of answers runs over.
    atomics: usize,
}

impl Player {
    pub fn new(seed: u64, largest: usize) -> Player {
        let mut random = Random::new(seed);
        let temper = &TEMPERS[random.weighted(&[25, 40, 35])];
        Player {
            random,
            largest,
            temper,
            setup: None,
            planned: VecDeque::new(),
            sending: None,
            cutting: false,
            cut: VecDeque::new(),
            lost: Vec::new(),
            past: VecDeque::new(),
            write: None,
            atomics: 0,
        }
    }

    /// How many calls a list of this player has.
    pub fn calls(&self) -> usize {
        self.temper.calls
    }

    /// The next call, on a pair that looks like this; nothing is there before
    /// a set-up is accepted.
    pub fn next(&mut self, view: Option<&View>, memory: &[u8]) -> Call {
        if let Some(call) = self.planned.pop_front() {
            return call;
        }
        let (Some(view), Some(setup)) = (view, self.setup) else {
            return self.begin();
        };
        let scene = Scene {
            setup: &setup,
            view,
            memory,
            write: self.write,
        };
        match view.state {
            0 => self.in_init(scene),
            1 if view.pending > 0 => self.while_answering(scene),
            1 => self.in_ready(scene),
            _ => self.in_error(scene),
        }
    }

    /// Learns what the last call did.
    pub fn saw(&mut self, call: &Call, answer: &Answer, out: &[u8]) {
        match call {
            Call::Cut(_) if self.cutting => {
                self.cutting = false;
                match &mut self.sending {
                    Some(sending) if answer.number == 0 => {
                        sending.index += 1;
                        self.cut.push_back(out[..answer.outgoing].to_vec());
                    }
                    _ => self.sending = None,
                }
            }
            Call::Inbound { packet, .. } => self.handed_in(packet, answer.number),
            _ => {}
        }
    }

    /// A new pair, now and then after one that is refused.
    fn begin(&mut self) -> Call {
        self.forget();
        self.past.clear();
        if self.random.chance(15) {
            self.setup = None;
            return Call::SetUp(world::refused_set_up(&mut self.random));
        }
        let setup = world::set_up(&mut self.random, self.largest);
        self.setup = Some(setup);
        self.furnish(&setup);
        Call::SetUp(setup)
    }

    fn forget(&mut self) {
        self.sending = None;
        self.cut.clear();
        self.lost.clear();
    }

    /// The pair is not Ready though all that was planned is done.
    fn in_init(&mut self, scene: Scene) -> Call {
        match self.random.below(4) {
            0 => self.host_call(scene),
            1 => self.any_packet(scene),
            2 => {
                self.furnish(scene.setup);
                Call::MakeReady
            }
            _ => Call::MakeReady,
        }
    }

    fn in_error(&mut self, scene: Scene) -> Call {
        match self.random.below(8) {
            0 | 1 => self.any_packet(scene),
            2 | 3 => self.host_call(scene),
            4 => self.begin(),
            _ => self.reset(scene),
        }
    }

    /// A READ is being answered: mostly the next response is taken.
    fn while_answering(&mut self, scene: Scene) -> Call {
        let room = 16 + scene.setup.pmtu;
        let (memory, out) = match self.random.below(40) {
            0 => return self.any_packet(scene),
            1 | 2 => return self.host_call(scene),
            3 if scene.view.pending > 30 => return self.reset(scene),
            4 => (scene.memory.len(), self.random.below(room)),
            5 => (scene.memory.len(), room - 1),
            6 => (self.other_length(scene), self.random.below(room)),
            7 => (self.other_length(scene), room),
            8..=20 => (scene.memory.len(), room + self.random.below(40)),
            _ => (scene.memory.len(), room),
        };
        Call::Next { memory, out }
    }

    fn other_length(&mut self, scene: Scene) -> usize {
        let length = scene.memory.len();
        let other = self
            .random
            .pick(&[0, 1, length + 1, length.saturating_sub(1), length / 2]);
        if other == length {
            length + 1
        } else {
            other
        }
    }

    fn in_ready(&mut self, scene: Scene) -> Call {
        match self.random.choose(self.temper.actions) {
            Action::Stream => self.stream(scene),
            Action::Lose => match self.cut.get(1).cloned() {
                Some(packet) => {
                    self.lost.extend(self.cut.pop_front());
                    self.hand_in(scene, packet)
                }
                None => self.stream(scene),
            },
            Action::Ahead => match self.cut.get(1).cloned() {
                Some(packet) => self.hand_in(scene, packet),
                None => self.stream(scene),
            },
            Action::Repeat => match self.old_packet() {
                Some(packet) => self.hand_in(scene, packet),
                None => self.stream(scene),
            },
            Action::Late => match self.lost.pop() {
                Some(packet) => self.hand_in(scene, packet),
                None => self.stream(scene),
            },
            Action::Mutate => {
                let mut packet = self.some_packet(scene);
                packet::mutate(&mut self.random, scene, &mut packet);
                self.hand_in(scene, packet)
            }
            Action::Compose => {
                let bad = self.random.pick(&[0, 10, 30, 60]);
                let packet = packet::compose(&mut self.random, scene, bad);
                self.hand_in(scene, packet)
            }
            Action::Noise => {
                let packet = packet::noise(&mut self.random, scene);
                self.hand_in(scene, packet)
            }
            Action::Host => self.host_call(scene),
            Action::WriteHeader => header::write(&mut self.random),
            Action::OddCut => header::cut(&mut self.random, self.largest),
            Action::Forget => {
                self.forget();
                self.stream(scene)
            }
            Action::Crowd => self.crowd(scene),
        }
    }
}
