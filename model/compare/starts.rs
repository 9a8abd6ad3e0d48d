//! The fresh start of a list, and such as are refused before it.

use crate::damage::STATE_LENGTHS;
use crate::lent::Lent;
use crate::packets::some_door;
use crate::run::Comparison;
use crate::sides::Call;
use crate::sizes::{shared, sizes_with_room, wrong_size};
use model::*;

impl Comparison {
    /// A fresh start into a buffer with random bytes in it, at times after some
    /// that are refused; where packets are to come, there mostly is a process at the door.
    pub fn start(&mut self, packets: bool) -> Result<(), String> {
        let mut there = match self.random.below(6) {
            0 => 0,
            1 => 255,
            _ => self.random.byte(),
        };
        if packets {
            there |= 1 << self.random.below(8);
        }
        let sizes = self.sizes(there);
        self.refused_starts(there, &sizes)?;
        let door = some_door(&mut self.random, there);
        self.fresh_start(there.into(), &sizes, door, STATE_BYTES)?;
        let mut memory = vec![0; MEMORY];
        if !self.random.one_in(4) {
            self.random.fill(&mut memory);
        }
        let offset = self.offset();
        self.pair.change(|side| side.memory = Lent::new(&memory, offset));
        self.damaged = false;
        Ok(())
    }

    /// Sizes for a fresh start that is granted: right ones of the processes that are
    /// there, and often wrong ones of the others.
    fn sizes(&mut self, there: u8) -> Vec<u16> {
        let random = &mut self.random;
        let mut sizes = sizes_with_room(random, there).to_vec();
        for (p, size) in sizes.iter_mut().enumerate() {
            if there >> p & 1 == 0 && random.one_in(2) {
                *size = wrong_size(random);
            }
        }
        sizes
    }

    /// Fresh starts like this one, each with an error or two.
    fn refused_starts(&mut self, there: u8, sizes: &[u16]) -> Result<(), String> {
        while self.random.one_in(2) {
            let (mut there, mut sizes, mut length) = (there.into(), sizes.to_vec(), STATE_BYTES);
            for _ in 0..=self.random.below(2) {
                match self.random.below(8) {
                    0 => length = self.random.length(&STATE_LENGTHS, 2000),
                    1 => sizes.resize(self.random.length(&[0, 1, 7, 9, 16], 40), 4096),
                    2 => there = self.random.beyond(8, there),
                    3 => there = self.random.free(64),
                    4 | 5 => {
                        there |= 0x1f;
                        sizes = self.too_many_bytes(there);
                    }
                    _ => self.spoil_size(there, &mut sizes),
                }
            }
            let door = some_door(&mut self.random, there as u8);
            self.fresh_start(there, &sizes, door, length)?;
        }
        Ok(())
    }

    /// Right sizes of five processes and more that together are more than the memory,
    /// often by two bytes.
    fn too_many_bytes(&mut self, there: u64) -> Vec<u16> {
        let total = MEMORY + self.random.pick(&[2, 2, 4, 256, 4096]);
        shared(total, there as u8, &[LARGEST; PROCESSES]).to_vec()
    }

    /// Makes the size of a process wrong, of one that is there if any is.
    fn spoil_size(&mut self, there: u64, sizes: &mut [u16]) {
        let set: Vec<usize> = (0..sizes.len()).filter(|&p| there >> p.min(63) & 1 == 1).collect();
        if !set.is_empty() {
            sizes[self.random.pick(&set)] = wrong_size(&mut self.random);
        }
    }

    fn fresh_start(
        &mut self,
        there: u64,
        sizes: &[u16],
        door: u64,
        length: usize,
    ) -> Result<(), String> {
        let state = self.random.bytes(length);
        self.lend_state(&state);
        self.compare(&Call::FreshStart { there, sizes: sizes.to_vec(), door }, None)
    }
}
