//! Random numbers from a seed (splitmix64).

pub struct Random(pub u64);

impl Random {
    fn next(&mut self) -> u64 {
        self.0 = self.0.wrapping_add(0x9e37_79b9_7f4a_7c15);
        let mut z = self.0;
        z = (z ^ (z >> 30)).wrapping_mul(0xbf58_476d_1ce4_e5b9);
        z = (z ^ (z >> 27)).wrapping_mul(0x94d0_49bb_1331_11eb);
        z ^ (z >> 31)
    }

    pub fn below(&mut self, n: usize) -> usize {
        ((u128::from(self.next()) * n as u128) >> 64) as usize
    }

    pub fn one_in(&mut self, n: usize) -> bool {
        self.below(n) == 0
    }

    pub fn byte(&mut self) -> u8 {
        self.next() as u8
    }

    pub fn word(&mut self) -> u16 {
        self.next() as u16
    }

    /// Any number of so many bits: each as likely as another, or one of few bits,
    /// one beside a power of two, or a round one, which wrong programs rather
    /// treat apart.
    pub fn free(&mut self, bits: u32) -> u64 {
        let n = match self.below(4) {
            0 => self.next(),
            1 => self.next() >> self.below(64),
            2 => (1u64 << self.below(bits as usize)).wrapping_add(self.pick(&[0, 0, 1, u64::MAX])),
            _ => (1 + self.below(99) as u64) * 10u64.pow(self.below(5) as u32),
        };
        n & u64::MAX >> (64 - bits)
    }

    pub fn free_byte(&mut self) -> u8 {
        self.free(8) as u8
    }

    pub fn free_word(&mut self) -> u16 {
        self.free(16) as u16
    }

    /// A number that has no room in so many bits. If it is cut to them, it is the
    /// one given.
    pub fn beyond(&mut self, bits: u32, n: u64) -> u64 {
        n | 1 << (bits as usize + self.below(64 - bits as usize))
    }

    /// A length from the list, or any up to the most.
    pub fn length(&mut self, telling: &[usize], most: usize) -> usize {
        match self.below(4) {
            0 | 1 => self.pick(telling),
            2 => self.below(most + 1),
            _ => self.free(32) as usize % (most + 1),
        }
    }

    pub fn pick<T: Copy>(&mut self, from: &[T]) -> T {
        from[self.below(from.len())]
    }

    pub fn fill(&mut self, bytes: &mut [u8]) {
        for part in bytes.chunks_mut(8) {
            let random = self.next().to_le_bytes();
            part.copy_from_slice(&random[..part.len()]);
        }
    }

    pub fn bytes(&mut self, n: usize) -> Vec<u8> {
        let mut bytes = vec![0; n];
        self.fill(&mut bytes);
        bytes
    }

    /// An index, each as often as its weight says.
    pub fn weighted(&mut self, weights: &[usize]) -> usize {
        let mut left = self.below(weights.iter().sum());
        for (i, &weight) in weights.iter().enumerate() {
            if left < weight {
                return i;
            }
            left -= weight;
        }
        unreachable!()
    }
}
