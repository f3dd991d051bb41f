//! The calls of a sequence in a world, one after another.

use super::state;
use super::world::World;
use crate::protocol::Call;
use crate::random::Random;
use reference::{Access, SETTINGS};

pub struct Steps {
    world: World,
    last_page: u32,
}

impl Steps {
    pub fn new(random: &mut Random, world: World) -> Steps {
        Steps {
            last_page: world.page(random),
            world,
        }
    }

    pub fn world(&self) -> &World {
        &self.world
    }

    /// The page of the last access.
    pub fn page(&self) -> u32 {
        self.last_page
    }

    /// A call that is accepted by a unit with these settings and table words.
    pub fn next_call(
        &mut self,
        random: &mut Random,
        settings: [u32; SETTINGS],
        words: &[u32],
    ) -> Call {
        let [kseg, ctrl, enable, ..] = settings;
        if enable == 0 && random.one_in(6) {
            return setting(2, 1);
        }
        if kseg != 0 && random.one_in(12) {
            return setting(0, 0);
        }
        match random.below(32) {
            0..=18 => self.next_access(random),
            19..=24 => {
                let (index, value) = self.world.store(random, words);
                Call::Store { index, value }
            }
            _ => self.next_setting(random, ctrl),
        }
    }

    /// Often the page of the last access again.
    fn next_access(&mut self, random: &mut Random) -> Call {
        if !random.one_in(3) {
            self.last_page = self.world.page(random);
        }
        Call::Served(Access {
            address: state::address_on(random, self.last_page),
            user: random.one_in(2),
            write: random.one_in(2),
            draw: random.bits(2),
        })
    }

    /// Mostly CONTEXT and CTRL, whose inv_exc goes on and off.
    fn next_setting(&self, random: &mut Random, ctrl: u32) -> Call {
        match random.below(32) {
            0..=15 => setting(5, self.world.id(random)),
            16..=21 => setting(1, ctrl ^ 4),
            22..=27 => setting(1, random.bits(3)),
            28 => setting(2, random.bits(1)),
            29 => {
                let of_the_page = 1 << (self.last_page >> 15);
                let values = [0, 0xFFFF, of_the_page, random.bits(16)];
                setting(0, random.pick(&values))
            }
            _ => {
                let values = [0, u32::MAX, random.bits(32)];
                setting(3 + random.bits(1), random.pick(&values))
            }
        }
    }
}

fn setting(number: u32, value: u32) -> Call {
    Call::Setting { number, value }
}
