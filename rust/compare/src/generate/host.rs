//! The calls of a host: tables filled, filled over, and emptied.

use super::message::Scene;
use super::{world, Player};
use crate::call::Call;
use crate::subject::*;

impl Player {
    /// Plans regions, entries and what makes the pair Ready.
    pub(super) fn furnish(&mut self, setup: &Setup) {
        self.atomics = if self.random.chance(15) { 20 } else { 0 };
        let regions = self.random.weighted(&[5, 20, 20, 20, 15, 10]);
        let entries = self.random.pick(&[0, 1, 2, 4, 8, 16]);
        for _ in 0..regions {
            let region = world::region(&mut self.random, setup.memory);
            self.planned.push_back(Call::AddRegion(region));
        }
        for _ in 0..entries {
            let entry = world::entry(&mut self.random, setup.memory, setup.pmtu);
            self.planned.push_back(Call::Post(entry));
        }
        if self.random.chance(90) {
            self.planned.push_back(Call::MakeReady);
        }
    }

    pub(super) fn reset(&mut self, scene: Scene) -> Call {
        self.forget();
        self.furnish(scene.setup);
        Call::Reset
    }

    pub(super) fn host_call(&mut self, scene: Scene) -> Call {
        let random = &mut self.random;
        let (memory, pmtu) = (scene.memory.len(), scene.setup.pmtu);
        let known: Vec<u32> = scene.view.regions.iter().map(|region| region.key).collect();
        match random.weighted(&[50, 6, 10, 6, 5, 4, 10, 3, 4, 2]) {
            0 => Call::Post(world::entry(random, memory, pmtu)),
            1 => Call::Post(world::odd_entry(random, memory, pmtu)),
            2 => Call::AddRegion(world::region(random, memory)),
            3 => Call::AddRegion(world::odd_region(random, memory)),
            4 if !known.is_empty() => Call::RemoveRegion(random.pick(&known)),
            4 | 5 => Call::RemoveRegion(world::key(random)),
            // The key goes on to mean other bytes.
            6 if !known.is_empty() => {
                let key = random.pick(&known);
                let region = Region {
                    key,
                    ..world::region(random, memory)
                };
                self.planned.push_front(Call::AddRegion(region));
                Call::RemoveRegion(key)
            }
            6 | 7 => Call::MakeReady,
            8 => Call::Next {
                memory,
                out: random.below(16 + pmtu + 2),
            },
            _ => self.reset(scene),
        }
    }

    /// More entries or regions than the tables hold.
    pub(super) fn crowd(&mut self, scene: Scene) -> Call {
        let (memory, pmtu) = (scene.memory.len(), scene.setup.pmtu);
        for key in 0..17 {
            let call = if self.random.chance(50) {
                Call::Post(world::entry(&mut self.random, memory, pmtu))
            } else {
                let key = 0x2000 + key;
                Call::AddRegion(Region {
                    key,
                    ..world::region(&mut self.random, memory)
                })
            };
            self.planned.push_back(call.clone());
            self.planned.push_back(call);
        }
        self.planned.pop_front().expect("there are 34")
    }
}
