//! The stream of messages: cut, handed in, lost, duplicated.

use std::rc::Rc;

use super::message::{self, Scene};
use super::{packet, world, Player, Sending, REMEMBERED};
use crate::call::{Call, Cut};
use crate::subject::*;

impl Player {
    /// Learns what became of a packet.
    pub(super) fn handed_in(&mut self, packet: &[u8], number: u8) {
        if number <= 3 {
            self.executed(packet);
        }
        let Some(setup) = self.setup else {
            return;
        };
        // A sender on UC goes on, whatever became of the packet.
        let gone = number <= 3 || setup.service == UC && number < 32;
        if gone && self.cut.front().is_some_and(|front| front == packet) {
            self.cut.pop_front();
        }
        if number == 19 && self.random.chance(60) {
            let entry = world::entry(&mut self.random, setup.memory, setup.pmtu);
            self.planned.push_back(Call::Post(entry));
        }
    }

    fn executed(&mut self, packet: &[u8]) {
        if packet[0] & 31 == packet::WRITE_FIRST {
            let word = |at: usize| u32::from_be_bytes([0, 1, 2, 3].map(|i| packet[at + i]));
            let address = u64::from(word(12)) << 32 | u64::from(word(16));
            self.write = Some((address, word(20), word(24)));
        }
        self.past.push_back(packet.to_vec());
        if self.past.len() > REMEMBERED {
            self.past.pop_front();
        }
    }

    /// The expected packet of the stream, or what is to be done to get it.
    pub(super) fn stream(&mut self, scene: Scene) -> Call {
        let expected = scene.view.expected;
        let missing = self
            .lost
            .iter()
            .position(|packet| packet::psn(packet) == expected);
        if let Some(late) = missing {
            if self.cut.is_empty() || self.random.chance(70) {
                let packet = self.lost.swap_remove(late);
                return self.hand_in(scene, packet);
            }
        }
        if let Some(packet) = self.cut.front().cloned() {
            if packet::psn(&packet) == expected {
                // Some are cut beforehand, to have what to lose and exchange.
                if self.cut.len() > 3 || self.random.chance(60) {
                    return self.hand_in(scene, packet);
                }
            } else if missing.is_some() || scene.setup.service == UC {
                return self.hand_in(scene, packet);
            } else {
                // Something else was executed in its place.
                self.forget();
            }
        }
        if self
            .sending
            .as_ref()
            .is_some_and(|sending| sending.index >= sending.count)
        {
            self.sending = None;
        }
        if self.sending.is_none() {
            if let Some(packet) = self.cut.front().cloned() {
                return self.hand_in(scene, packet);
            }
            if scene.view.open.is_some() && self.random.chance(85) {
                let packet = packet::compose(&mut self.random, scene, 0);
                return self.hand_in(scene, packet);
            }
            self.sending = Some(self.new_message(scene));
        }
        self.next_cut(scene)
    }

    fn new_message(&mut self, scene: Scene) -> Sending {
        let setup = scene.setup;
        let enabled = [setup.send, setup.write, setup.read, setup.atomic];
        let reliable = setup.service == RC;
        let mut kinds = enabled.map(|on| on || self.random.chance(2));
        if !reliable {
            kinds[2..].fill(false);
        }
        // Without an entry SENDs wait, so they are left to others mostly.
        if scene.free_entries().is_empty() && self.random.chance(70) {
            kinds[0] = false;
        }
        if self.atomics > 0 && reliable && setup.atomic && !scene.view.regions.is_empty() {
            self.atomics -= 1;
            kinds = [false, false, false, true];
            if self.atomics == 0 {
                self.repeat_all(scene);
            }
        }
        if kinds == [false; 4] {
            kinds[1] = true;
        }
        let (request, message) = message::request(&mut self.random, scene, kinds);
        let first = if !reliable && self.random.chance(5) {
            self.random.number() as u32 % world::NUMBERS
        } else {
            scene.view.expected
        };
        let count = message.len().div_ceil(setup.pmtu).max(1);
        Sending {
            request,
            message: Rc::from(message),
            first,
            index: 0,
            count,
        }
    }

    /// Plans the last packets once more, in a row.
    fn repeat_all(&mut self, scene: Scene) {
        for packet in &self.past {
            let (memory, packet) = (scene.memory.len(), packet.clone());
            self.planned.push_back(Call::Inbound {
                memory,
                out: 24,
                packet,
            });
        }
    }

    fn next_cut(&mut self, scene: Scene) -> Call {
        let Some(sending) = &self.sending else {
            unreachable!("a message was chosen");
        };
        let setup = scene.setup;
        self.cutting = true;
        Call::Cut(Cut {
            connection: Connection {
                service: setup.service,
                pmtu: setup.pmtu,
                pkey: setup.pkey | 0x8000,
                dest: setup.ours,
            },
            request: sending.request,
            message: Rc::clone(&sending.message),
            first: sending.first,
            index: sending.index,
            out: 32 + setup.pmtu,
        })
    }

    /// A packet that was executed; half of the time one of the last few.
    pub(super) fn old_packet(&mut self) -> Option<Vec<u8>> {
        if self.past.is_empty() {
            return None;
        }
        let few = if self.random.chance(50) {
            4
        } else {
            REMEMBERED
        };
        let back = self.random.below(few.min(self.past.len()));
        self.past.get(self.past.len() - 1 - back).cloned()
    }

    /// A packet to be changed: of the stream, of the past, or made for now.
    pub(super) fn some_packet(&mut self, scene: Scene) -> Vec<u8> {
        let found = match self.random.below(4) {
            0 => self.old_packet(),
            1 | 2 => self.cut.front().cloned(),
            _ => None,
        };
        found.unwrap_or_else(|| packet::compose(&mut self.random, scene, 0))
    }

    pub(super) fn any_packet(&mut self, scene: Scene) -> Call {
        let packet = match self.random.below(3) {
            0 => packet::noise(&mut self.random, scene),
            1 => packet::compose(&mut self.random, scene, 20),
            _ => self.some_packet(scene),
        };
        self.hand_in(scene, packet)
    }

    /// Reads the packet's header and then hands it in.
    pub(super) fn hand_in(&mut self, scene: Scene, packet: Vec<u8>) -> Call {
        let out = match self.random.below(60) {
            0 => self.random.below(24),
            1 => 23,
            2..=8 => self.random.between(25, 64),
            _ => 24,
        };
        let memory = if self.random.below(50) == 0 {
            self.other_length(scene)
        } else {
            scene.memory.len()
        };
        self.planned.push_front(Call::Inbound {
            memory,
            out,
            packet: packet.clone(),
        });
        Call::ReadHeader(packet)
    }
}
